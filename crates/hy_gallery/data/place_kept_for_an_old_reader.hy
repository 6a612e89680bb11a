-- A place that is kept for an old reader: the table has two positions, both taken, and r began before a deleted a
-- row. r can still see that row, so its place is not free: a's INSERT is refused as `full`.
-- r counts both rows after all that.
-- Run as hy run --chunks 1 --rows 2.

CREATE TABLE acc (id INT PRIMARY KEY, bal INT);
INSERT INTO acc VALUES (1,100);
INSERT INTO acc VALUES (2,100);

SESSION a;
BEGIN;
DELETE FROM acc WHERE id = 1;
COMMIT;
BEGIN;
INSERT INTO acc VALUES (3,7);
COMMIT;

SESSION r;
BEGIN READ ONLY;
SELECT COUNT(*) FROM acc;
COMMIT;

SCHEDULE r! a! a! a! a! a!;
END;
