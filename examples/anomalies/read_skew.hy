-- Read skew: a reads one row before b's commit and another after it. Were a to see b's value in the second,
-- it would have read halves of two states.
-- a reads both rows as they were at its BEGIN, and a reader is never refused.
--
--   ./hy run examples/anomalies/read_skew.hy

CREATE TABLE test (id INT PRIMARY KEY, value INT);
INSERT INTO test VALUES (1,10);
INSERT INTO test VALUES (2,20);

SESSION a;
BEGIN;
SELECT * FROM test WHERE id = 1;
SELECT * FROM test WHERE id = 2;
COMMIT;

SESSION b;
BEGIN;
UPDATE test SET value = 12 WHERE id = 1;
UPDATE test SET value = 18 WHERE id = 2;
COMMIT;

SCHEDULE a! b! a! b! b! b! a! a!;
END;
