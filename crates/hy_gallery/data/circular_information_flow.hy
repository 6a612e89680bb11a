-- Circular information flow: each of two transactions writes one row and reads the row of the other. Were
-- each to see the other's write, each would have to come after the other.
-- Neither sees the other's write here. But then each has to come before the other: b, the second to commit,
-- read the row that a changed, and is refused as invalid. `statement 2` is its SELECT.
--
--   ./hy run examples/anomalies/circular_information_flow.hy

CREATE TABLE test (id INT PRIMARY KEY, value INT);
INSERT INTO test VALUES (1,10);
INSERT INTO test VALUES (2,20);

SESSION a;
BEGIN;
UPDATE test SET value = 11 WHERE id = 1;
SELECT * FROM test WHERE id = 2;
COMMIT;

SESSION b;
BEGIN;
UPDATE test SET value = 22 WHERE id = 2;
SELECT * FROM test WHERE id = 1;
COMMIT;

SCHEDULE a! b! a! b! a! b! a! b!;
END;
