-- Aborted read: a writes a row and rolls back. Were b to see what a wrote, it would have read a value that
-- never was.
-- b reads before and after the ROLLBACK, and reads the old row each time.
--
--   ./hy run examples/anomalies/aborted_read.hy

CREATE TABLE test (id INT PRIMARY KEY, value INT);
INSERT INTO test VALUES (1,10);
INSERT INTO test VALUES (2,20);

SESSION a;
BEGIN;
UPDATE test SET value = 101 WHERE id = 1;
ROLLBACK;

SESSION b;
BEGIN;
SELECT * FROM test;
SELECT * FROM test;
COMMIT;

SCHEDULE a! b! a! b! a! b! b!;
END;
