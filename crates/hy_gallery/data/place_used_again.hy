-- A place that is used again: the table has two positions, both taken. a deletes a row and commits; then a
-- inserts another, which takes the deleted row's place.
-- Nobody can see the deleted row any more, so its place is free.
-- Run as hy run --chunks 1 --rows 2.

CREATE TABLE acc (id INT PRIMARY KEY, bal INT);
INSERT INTO acc VALUES (1,100);
INSERT INTO acc VALUES (2,100);

SESSION a;
BEGIN;
DELETE FROM acc WHERE id = 1;
COMMIT;
BEGIN;
INSERT INTO acc VALUES (3,7);
COMMIT;

END;
