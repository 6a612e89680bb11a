-- Left predicate: b counts the rows of which bal = 100, and a changes one of them so that it no longer is.
-- A change hits a read where the WHERE is true of the row before it or after it. It was true before, and b is
-- refused as invalid.

CREATE TABLE acc (id INT PRIMARY KEY, bal INT);
INSERT INTO acc VALUES (1,100);
INSERT INTO acc VALUES (2,100);
CREATE TABLE note (n INT);

SESSION a;
BEGIN;
UPDATE acc SET bal = 5 WHERE id = 1;
COMMIT;

SESSION b;
BEGIN;
SELECT COUNT(*) FROM acc WHERE bal = 100;
INSERT INTO note VALUES (7);
COMMIT;

END;
