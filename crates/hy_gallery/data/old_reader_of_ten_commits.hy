-- An old reader beside ten commits: r begins; w adds 1 to a row ten times and commits each time; then r reads.
-- r sees the row as it was at its BEGIN: 100. The versions between can be seen by nobody, and the engine may drop
-- them: with `--no-prune` the text is the same.

CREATE TABLE acc (id INT PRIMARY KEY, bal INT);
INSERT INTO acc VALUES (1,100);
INSERT INTO acc VALUES (2,100);

SESSION r;
BEGIN READ ONLY;
SELECT bal FROM acc WHERE id = 1;
COMMIT;

SESSION w;
BEGIN;
UPDATE acc SET bal = bal + 1 WHERE id = 1;
COMMIT;
BEGIN;
UPDATE acc SET bal = bal + 1 WHERE id = 1;
COMMIT;
BEGIN;
UPDATE acc SET bal = bal + 1 WHERE id = 1;
COMMIT;
BEGIN;
UPDATE acc SET bal = bal + 1 WHERE id = 1;
COMMIT;
BEGIN;
UPDATE acc SET bal = bal + 1 WHERE id = 1;
COMMIT;
BEGIN;
UPDATE acc SET bal = bal + 1 WHERE id = 1;
COMMIT;
BEGIN;
UPDATE acc SET bal = bal + 1 WHERE id = 1;
COMMIT;
BEGIN;
UPDATE acc SET bal = bal + 1 WHERE id = 1;
COMMIT;
BEGIN;
UPDATE acc SET bal = bal + 1 WHERE id = 1;
COMMIT;
BEGIN;
UPDATE acc SET bal = bal + 1 WHERE id = 1;
COMMIT;

SCHEDULE
r!
w! w! w! w! w! w! w! w! w! w!
w! w! w! w! w! w! w! w! w! w!
w! w! w! w! w! w! w! w! w! w!
r! r!;
END;
