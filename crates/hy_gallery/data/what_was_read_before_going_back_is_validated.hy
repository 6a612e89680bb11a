-- What was read stays recorded where what was written since a savepoint is taken back: the reply was told.
CREATE TABLE acc (id INT PRIMARY KEY, bal INT);
INSERT INTO acc VALUES (1, 100);
INSERT INTO acc VALUES (2, 100);
CREATE TABLE note (n INT);

SESSION a;
BEGIN;
SAVEPOINT s;
SELECT COUNT(*) FROM acc WHERE bal = 100;
ROLLBACK TO s;
INSERT INTO note VALUES (7);
COMMIT;

SESSION b;
BEGIN;
UPDATE acc SET bal = 5 WHERE id = 1;
COMMIT;

SCHEDULE a! a! a! a! a! b! b! b!;
END;
