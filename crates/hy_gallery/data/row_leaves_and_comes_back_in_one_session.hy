-- A row leaves a WHERE and comes back, by two transactions of one session.
-- b counted the rows of which bal = 100 as of its BEGIN. The first of the two commits hits that read by
-- itself, whatever the second makes good: b is refused as invalid, and a.1 is named.

CREATE TABLE acc (id INT PRIMARY KEY, bal INT);
INSERT INTO acc VALUES (1,100);
INSERT INTO acc VALUES (2,100);
CREATE TABLE note (n INT);

SESSION a;
BEGIN;
UPDATE acc SET bal = 5 WHERE id = 1;
COMMIT;
BEGIN;
UPDATE acc SET bal = 100 WHERE id = 1;
COMMIT;

SESSION b;
BEGIN;
SELECT COUNT(*) FROM acc WHERE bal = 100;
INSERT INTO note VALUES (7);
COMMIT;

SCHEDULE b! a! a! a! a! a! a!;
END;
