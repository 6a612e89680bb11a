-- Lost update: two transactions read one row, and each writes it by what it read. Were both to commit, the
-- first write would be lost.
-- b is refused as a conflict where it writes the row that a has written.
--
--   ./hy run examples/anomalies/lost_update.hy

CREATE TABLE test (id INT PRIMARY KEY, value INT);
INSERT INTO test VALUES (1,10);
INSERT INTO test VALUES (2,20);

SESSION a;
BEGIN;
SELECT * FROM test WHERE id = 1;
UPDATE test SET value = 11 WHERE id = 1;
COMMIT;

SESSION b;
BEGIN;
SELECT * FROM test WHERE id = 1;
UPDATE test SET value = 12 WHERE id = 1;
COMMIT;

SCHEDULE a! b! a! b! a! b! a! b!;
END;
