-- A statement with two mistakes: a text for an INT, and the key on the left of SET.
CREATE TABLE acc (id INT PRIMARY KEY, bal INT);
SESSION a;
BEGIN;
UPDATE acc SET id = 2, bal = 'many' WHERE id = 1;
COMMIT;
END;
