-- Observed transaction vanishes: a and b write the same two rows, c reads them twice. Were c to see a's value
-- in one row and b's in the other, a's transaction would have vanished in part.
-- b is refused as a conflict. c began before a's commit, and reads both rows as they were, twice.
--
--   ./hy run examples/anomalies/observed_transaction_vanishes.hy

CREATE TABLE test (id INT PRIMARY KEY, value INT);
INSERT INTO test VALUES (1,10);
INSERT INTO test VALUES (2,20);

SESSION a;
BEGIN;
UPDATE test SET value = 11 WHERE id = 1;
UPDATE test SET value = 19 WHERE id = 2;
COMMIT;

SESSION b;
BEGIN;
UPDATE test SET value = 12 WHERE id = 1;
UPDATE test SET value = 18 WHERE id = 2;
COMMIT;

SESSION c;
BEGIN;
SELECT * FROM test;
SELECT * FROM test;
COMMIT;

SCHEDULE a! b! c! a! a! b! a! c! b! b! c! c!;
END;
