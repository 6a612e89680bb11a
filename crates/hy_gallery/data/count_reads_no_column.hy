-- b counts all rows, and a changes a value of one of them.
-- COUNT(*) without a WHERE names no column: only rows that come or go hit it. Both commit.

CREATE TABLE acc (id INT PRIMARY KEY, bal INT);
INSERT INTO acc VALUES (1,100);
INSERT INTO acc VALUES (2,100);
CREATE TABLE note (n INT);

SESSION a;
BEGIN;
UPDATE acc SET bal = 5 WHERE id = 1;
COMMIT;

SESSION b;
BEGIN;
SELECT COUNT(*) FROM acc;
INSERT INTO note VALUES (7);
COMMIT;

END;
