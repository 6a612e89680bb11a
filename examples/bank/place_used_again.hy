-- A table that is full: the place of a deleted row is used again.
--
--   ./hy run --chunks 1 --rows 3 < examples/bank/place_used_again.hy

CREATE TABLE acc (id INT PRIMARY KEY, owner TEXT, bal INT);
INSERT INTO acc VALUES (1, 'ann', 100);
INSERT INTO acc VALUES (2, 'ann', 100);
INSERT INTO acc VALUES (3, 'bob', 50);

SESSION a;
BEGIN;
DELETE FROM acc WHERE id = 3;
COMMIT;

SESSION b;
BEGIN;
INSERT INTO acc VALUES (4, 'eve', 70);
COMMIT;

SCHEDULE a! a! a! b! b! b!;
END;
