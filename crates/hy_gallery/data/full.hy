-- A table that is full: it has one chunk of 4 positions, 2 of them taken. a's third INSERT finds no room.
-- The first transaction is refused as `full` and undone, and its positions are free again: the second one's row
-- takes the first of them.
-- Run as hy run --chunks 1 --rows 4.

CREATE TABLE acc (id INT PRIMARY KEY, bal INT);
INSERT INTO acc VALUES (1,100);
INSERT INTO acc VALUES (2,100);

SESSION a;
BEGIN;
INSERT INTO acc VALUES (3,1);
INSERT INTO acc VALUES (4,1);
INSERT INTO acc VALUES (5,1);
COMMIT;
BEGIN;
INSERT INTO acc VALUES (5,1);
COMMIT;

END;
