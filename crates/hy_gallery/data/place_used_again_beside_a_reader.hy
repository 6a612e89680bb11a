-- A place that is used again beside a reader: r begins when a's delete has committed. r cannot see the deleted
-- row, so a's second transaction may take its place, and r does not see the new row either.
-- r reads one row before the INSERT and the same after its commit.
-- Run as hy run --chunks 1 --rows 2.

CREATE TABLE acc (id INT PRIMARY KEY, bal INT);
INSERT INTO acc VALUES (1,100);
INSERT INTO acc VALUES (2,100);

SESSION a;
BEGIN;
DELETE FROM acc WHERE id = 1;
COMMIT;
BEGIN;
INSERT INTO acc VALUES (3,7);
COMMIT;

SESSION r;
BEGIN READ ONLY;
SELECT * FROM acc;
SELECT * FROM acc;
COMMIT;

SCHEDULE a! a! a! r! r! a! a! a! r! r!;
END;
