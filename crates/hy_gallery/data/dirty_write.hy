-- Dirty write: two transactions write the same two rows by turns. Were both to commit, one row could keep
-- a's value and the other b's, as in no serial order.
-- b meets a row that a has written and not yet committed: b is refused at once as a conflict, and both rows
-- end with a's values.
--
--   ./hy run examples/anomalies/dirty_write.hy

CREATE TABLE test (id INT PRIMARY KEY, value INT);
INSERT INTO test VALUES (1,10);
INSERT INTO test VALUES (2,20);

SESSION a;
BEGIN;
UPDATE test SET value = 11 WHERE id = 1;
UPDATE test SET value = 21 WHERE id = 2;
COMMIT;

SESSION b;
BEGIN;
UPDATE test SET value = 12 WHERE id = 1;
UPDATE test SET value = 22 WHERE id = 2;
COMMIT;

SCHEDULE a! b! a! b! a! a! b! b!;
END;
