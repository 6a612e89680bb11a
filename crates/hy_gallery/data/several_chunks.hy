-- Several chunks: a table of 3 chunks of 2 positions, the first three taken by first rows. Positions 0 and 1 are in the
-- first chunk, 2 and 3 in the second, 4 and 5 in the third.
-- Each INSERT takes the first free position of the first chunk that has one: 3, and then 4. The UPDATE goes through
-- all chunks. The deleted row's position 0 stays empty, since only a later transaction may take it.
-- Run as hy run --chunks 3 --rows 2.

CREATE TABLE acc (id INT PRIMARY KEY, bal INT);
INSERT INTO acc VALUES (1,100);
INSERT INTO acc VALUES (2,100);
INSERT INTO acc VALUES (3,100);

SESSION a;
BEGIN;
DELETE FROM acc WHERE id = 1;
INSERT INTO acc VALUES (4,100);
INSERT INTO acc VALUES (5,100);
UPDATE acc SET bal = bal + id;
SELECT * FROM acc;
COMMIT;

END;
