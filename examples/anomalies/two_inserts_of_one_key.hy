-- Two transactions insert a row with the same key, by turns. Neither sees the other's row, so that both are
-- told `inserted`.
-- An INSERT has read that its key was not there. a's row has it, and b is refused as invalid when it commits.
--
--   ./hy run --chunks 1 --rows 4 examples/anomalies/two_inserts_of_one_key.hy

CREATE TABLE acc (id INT PRIMARY KEY, bal INT);
INSERT INTO acc VALUES (1,100);
INSERT INTO acc VALUES (2,100);

SESSION a;
BEGIN;
INSERT INTO acc VALUES (3,1);
COMMIT;

SESSION b;
BEGIN;
INSERT INTO acc VALUES (3,2);
COMMIT;

END;
