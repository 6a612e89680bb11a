-- Two transactions insert rows with different keys, by turns.
-- Each INSERT has read whether its own key was there, and no more: both commit.
--
--   ./hy run examples/anomalies/two_different_keys.hy

CREATE TABLE test (id INT PRIMARY KEY, value INT);
INSERT INTO test VALUES (1,10);
INSERT INTO test VALUES (2,20);

SESSION a;
BEGIN;
INSERT INTO test VALUES (3,1);
COMMIT;

SESSION b;
BEGIN;
INSERT INTO test VALUES (4,2);
COMMIT;

SCHEDULE a! b! a! b! a! b!;
END;
