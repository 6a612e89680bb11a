-- What a transaction read of a write that it took back stood nowhere else: the position stays its own, so that nobody
-- changes the row there before it ends. Were the position free, u would change c, and hit no record of t.
CREATE TABLE acc (id INT PRIMARY KEY, bal INT, c INT);
CREATE TABLE note (n INT);
INSERT INTO acc VALUES (1, 100, 0);

SESSION t;
BEGIN;
SAVEPOINT p;
UPDATE acc SET bal = 1 WHERE id = 1;
SELECT c FROM acc WHERE bal = 1;
ROLLBACK TO p;
INSERT INTO note VALUES (7);
COMMIT;

SESSION u;
BEGIN;
UPDATE acc SET c = 9 WHERE id = 1;
COMMIT;

SCHEDULE t! t! t! t! t! u! u! u! t! t!;
END;
