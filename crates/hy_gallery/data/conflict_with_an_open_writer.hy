-- b writes a row that a has written and not yet committed.
-- Nobody waits for a lock: b is refused as a conflict at once, a.1 is named, and what is left of b is skipped.

CREATE TABLE acc (id INT PRIMARY KEY, bal INT);
INSERT INTO acc VALUES (1,100);
INSERT INTO acc VALUES (2,100);

SESSION a;
BEGIN;
UPDATE acc SET bal = 90 WHERE id = 1;
COMMIT;

SESSION b;
BEGIN;
UPDATE acc SET bal = 80 WHERE id = 1;
SELECT * FROM acc;
COMMIT;

END;
