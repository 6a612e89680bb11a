-- a inserts a row and deletes it again, and commits: it wrote a position, so it stands in the order, but its
-- entry has no change.
-- What hits a read is what a transaction changed in the end. b read the whole table meanwhile, and commits.

CREATE TABLE acc (id INT PRIMARY KEY, bal INT);
INSERT INTO acc VALUES (1,100);
INSERT INTO acc VALUES (2,100);
CREATE TABLE note (n INT);

SESSION a;
BEGIN;
INSERT INTO acc VALUES (3,1);
DELETE FROM acc WHERE id = 3;
COMMIT;

SESSION b;
BEGIN;
SELECT * FROM acc;
INSERT INTO note VALUES (7);
COMMIT;

END;
