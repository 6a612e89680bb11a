-- What was written since a savepoint is taken back, and what was written before it stays.
CREATE TABLE acc (id INT PRIMARY KEY, bal INT);
INSERT INTO acc VALUES (1, 100);
INSERT INTO acc VALUES (2, 100);
SESSION a;
BEGIN;
UPDATE acc SET bal = 90 WHERE id = 1;
SAVEPOINT s;
DELETE FROM acc;
INSERT INTO acc VALUES (3, 1);
ROLLBACK TO s;              -- both rows are there again, and the new one isn't
SELECT * FROM acc;
UPDATE acc SET bal = 95 WHERE id = 2;
RELEASE s;                  -- takes nothing back
COMMIT;
END;
