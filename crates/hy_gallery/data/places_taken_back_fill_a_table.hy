-- Positions that INSERTs took and that were taken back count until the transaction ends: the table is full.
CREATE TABLE acc (id INT PRIMARY KEY, bal INT);
INSERT INTO acc VALUES (1, 100);
INSERT INTO acc VALUES (2, 100);

SESSION a;
BEGIN;
SAVEPOINT s;
INSERT INTO acc VALUES (3, 1);
ROLLBACK TO s;
INSERT INTO acc VALUES (3, 2);
INSERT INTO acc VALUES (4, 2);
COMMIT;

END;
