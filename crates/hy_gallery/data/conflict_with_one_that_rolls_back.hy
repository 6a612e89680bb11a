-- a meets an uncommitted version of b, and b rolls back later.
-- a cannot know that: it is refused as a conflict. It has written the row in the first chunk already, and that is
-- undone; so is b's row. The order is empty, and the table is as it was.
-- Run as hy run --chunks 2 --rows 1.

CREATE TABLE acc (id INT PRIMARY KEY, bal INT);
INSERT INTO acc VALUES (1,100);
INSERT INTO acc VALUES (2,100);

SESSION a;
BEGIN;
UPDATE acc SET bal = bal + 1;
COMMIT;

SESSION b;
BEGIN;
UPDATE acc SET bal = 0 WHERE id = 2;
ROLLBACK;

SCHEDULE b! b! a! a!;
END;
