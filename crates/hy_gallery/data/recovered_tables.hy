-- Recovery: the tables that a log makes of a script's first rows. hy.log is what a run of these sessions left,
-- made by another program, with bytes behind its closed gate.

CREATE TABLE test (id INT PRIMARY KEY, value TEXT);
INSERT INTO test VALUES (1,'ten');
INSERT INTO test VALUES (2,'twenty');

SESSION a;
BEGIN;
UPDATE test SET value = 'one hundred' WHERE id = 1;
COMMIT;
BEGIN;
INSERT INTO test VALUES (3,NULL);
COMMIT;

SESSION b;
BEGIN;
DELETE FROM test WHERE id = 2;
COMMIT;

END;
