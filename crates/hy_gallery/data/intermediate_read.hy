-- Intermediate read: a writes a row twice and commits. Were b to see the first of the two values, it would
-- have read what no transaction left behind.
-- b began before a's commit. Between a's writes and after the commit it reads the row as it was before both.
--
--   ./hy run examples/anomalies/intermediate_read.hy

CREATE TABLE test (id INT PRIMARY KEY, value INT);
INSERT INTO test VALUES (1,10);
INSERT INTO test VALUES (2,20);

SESSION a;
BEGIN;
UPDATE test SET value = 101 WHERE id = 1;
UPDATE test SET value = 11 WHERE id = 1;
COMMIT;

SESSION b;
BEGIN;
SELECT * FROM test;
SELECT * FROM test;
COMMIT;

SCHEDULE a! b! a! b! a! a! b! b!;
END;
