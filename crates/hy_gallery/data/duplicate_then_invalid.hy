-- A duplicate key, and then a refusal by that very reading: a's INSERT finds the key 2 taken, is answered
-- `duplicate`, and leaves the transaction open. Then d deletes that row and commits.
-- That the key was there is what a has read. Alone, after d, its INSERT would have been `inserted`: a is refused
-- as invalid, by `statement 1`.

CREATE TABLE acc (id INT PRIMARY KEY, bal INT);
INSERT INTO acc VALUES (1,100);
INSERT INTO acc VALUES (2,100);

SESSION a;
BEGIN;
INSERT INTO acc VALUES (2,5);
UPDATE acc SET bal = 1 WHERE id = 1;
COMMIT;

SESSION d;
BEGIN;
DELETE FROM acc WHERE id = 2;
COMMIT;

END;
