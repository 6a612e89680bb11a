-- A position that an INSERT took stays taken where the row is taken back: the next row comes to the next position.
CREATE TABLE acc (id INT PRIMARY KEY, bal INT);
INSERT INTO acc VALUES (1, 100);
INSERT INTO acc VALUES (2, 100);

SESSION a;
BEGIN;
SAVEPOINT s;
INSERT INTO acc VALUES (3, 1);
ROLLBACK TO s;
INSERT INTO acc VALUES (3, 2);
COMMIT;

END;
