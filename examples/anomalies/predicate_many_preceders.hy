-- Predicate-many-preceders: between two reads of one transaction another inserts a row that both WHEREs
-- select. Were the second read to see it, the reader would come before the writer and after it.
-- a began before the insert, and neither of its reads sees the new row.
--
--   ./hy run examples/anomalies/predicate_many_preceders.hy

CREATE TABLE test (id INT PRIMARY KEY, value INT);
INSERT INTO test VALUES (1,10);
INSERT INTO test VALUES (2,20);

SESSION a;
BEGIN;
SELECT * FROM test WHERE value = 30;
SELECT * FROM test WHERE value >= 30;
COMMIT;

SESSION b;
BEGIN;
INSERT INTO test VALUES (3,30);
COMMIT;

SCHEDULE a! b! a! b! b! a! a!;
END;
