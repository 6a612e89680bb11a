-- Read skew, and then a write by it: a reads a row, b changes both rows and commits, and a deletes the rows
-- of which value = 20, which it still sees so.
-- The row was committed anew after a's BEGIN: a is refused as a conflict, though b has ended.
--
--   ./hy run examples/anomalies/read_skew_then_write.hy

CREATE TABLE test (id INT PRIMARY KEY, value INT);
INSERT INTO test VALUES (1,10);
INSERT INTO test VALUES (2,20);

SESSION a;
BEGIN;
SELECT * FROM test WHERE id = 1;
DELETE FROM test WHERE value = 20;
COMMIT;

SESSION b;
BEGIN;
UPDATE test SET value = 12 WHERE id = 1;
UPDATE test SET value = 18 WHERE id = 2;
COMMIT;

SCHEDULE a! b! a! b! b! b! a! a!;
END;
