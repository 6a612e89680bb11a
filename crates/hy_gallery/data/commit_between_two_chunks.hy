-- A commit in the midst of a SELECT: a has read the first of two chunks when b changes the row in the second and
-- commits. Then a reads the second chunk.
-- a sums up the two rows as they were at its BEGIN: 200.
-- Run as hy run --chunks 2 --rows 1.

CREATE TABLE acc (id INT PRIMARY KEY, bal INT);
INSERT INTO acc VALUES (1,100);
INSERT INTO acc VALUES (2,100);

SESSION a;
BEGIN READ ONLY;
SELECT SUM(bal) FROM acc;
COMMIT;

SESSION b;
BEGIN;
UPDATE acc SET bal = 0 WHERE id = 2;
COMMIT;

SCHEDULE a! a b! b! b! a;
END;
