-- Going back reaches the rows that its transaction saw when the savepoint was made, its own writes before it among them.
CREATE TABLE acc (id INT PRIMARY KEY, bal INT);
INSERT INTO acc VALUES (1, 100);
INSERT INTO acc VALUES (2, 100);

SESSION a;
BEGIN;
UPDATE acc SET bal = 90 WHERE id = 1;
SAVEPOINT s;
DELETE FROM acc;
INSERT INTO acc VALUES (3, 1);
ROLLBACK TO s;
SELECT * FROM acc;
COMMIT;

END;
