-- Two edges: a reads all rows; b changes one of them and commits; c reads after that; then a writes another
-- row. c comes after b, b comes after a, and c did not see a's write: a would have to come after c.
-- a is the last to commit, and its read is hit by b's change: it is refused as invalid.
--
--   ./hy run examples/anomalies/two_edges.hy

CREATE TABLE test (id INT PRIMARY KEY, value INT);
INSERT INTO test VALUES (1,10);
INSERT INTO test VALUES (2,20);

SESSION a;
BEGIN;
SELECT * FROM test;
UPDATE test SET value = 0 WHERE id = 1;
COMMIT;

SESSION b;
BEGIN;
UPDATE test SET value = value + 5 WHERE id = 2;
COMMIT;

SESSION c;
BEGIN;
SELECT * FROM test;
COMMIT;

SCHEDULE a! a! b! b! b! c! c! c! a! a!;
END;
