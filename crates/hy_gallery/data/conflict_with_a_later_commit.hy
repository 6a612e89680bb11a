-- b writes a row that a wrote and committed after b's BEGIN.
-- b's snapshot is older than that version: b is refused as a conflict, as if a were still open.

CREATE TABLE acc (id INT PRIMARY KEY, bal INT);
INSERT INTO acc VALUES (1,100);
INSERT INTO acc VALUES (2,100);

SESSION a;
BEGIN;
UPDATE acc SET bal = 90 WHERE id = 1;
COMMIT;

SESSION b;
BEGIN;
UPDATE acc SET bal = 80 WHERE id = 1;
SELECT * FROM acc;
COMMIT;

SCHEDULE a! b! a! a! b!;
END;
