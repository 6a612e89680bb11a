-- Two transactions write different rows of one table, by turns.
-- Writes are told apart by row, and an UPDATE has read no more than its WHERE: both commit.
--
--   ./hy run examples/anomalies/other_rows_of_the_same_table.hy

CREATE TABLE test (id INT PRIMARY KEY, value INT);
INSERT INTO test VALUES (1,10);
INSERT INTO test VALUES (2,20);

SESSION a;
BEGIN;
UPDATE test SET value = 5 WHERE id = 1;
COMMIT;

SESSION b;
BEGIN;
UPDATE test SET value = 7 WHERE id = 2;
COMMIT;

SCHEDULE a! b! a! b! a! b!;
END;
