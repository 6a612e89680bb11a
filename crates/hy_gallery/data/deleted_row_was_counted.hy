-- b counts all rows, and a deletes one of them.
-- COUNT(*) names no column, but a row that goes hits it: b is refused as invalid.

CREATE TABLE acc (id INT PRIMARY KEY, bal INT);
INSERT INTO acc VALUES (1,100);
INSERT INTO acc VALUES (2,100);
CREATE TABLE note (n INT);

SESSION a;
BEGIN;
DELETE FROM acc WHERE id = 1;
COMMIT;

SESSION b;
BEGIN;
SELECT COUNT(*) FROM acc;
INSERT INTO note VALUES (7);
COMMIT;

END;
