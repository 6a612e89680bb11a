-- Phantom: b counts the rows of which bal > 50, a inserts one more such row and commits, and b writes down
-- that it counted 2.
-- The row was not there when b counted, so no row that b saw has changed. But what b has read is its WHERE,
-- and the new row makes it true: b is refused as invalid.

CREATE TABLE acc (id INT PRIMARY KEY, bal INT);
INSERT INTO acc VALUES (1,100);
INSERT INTO acc VALUES (2,100);
CREATE TABLE note (n INT);

SESSION a;
BEGIN;
INSERT INTO acc VALUES (3,70);
COMMIT;

SESSION b;
BEGIN;
SELECT COUNT(*) FROM acc WHERE bal > 50;
INSERT INTO note VALUES (7);
COMMIT;

END;
