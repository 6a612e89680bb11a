-- The same with a reader that still sees the deleted row: its place is not free.
--
--   ./hy run --chunks 1 --rows 3 < examples/bank/place_beside_an_old_reader.hy

CREATE TABLE acc (id INT PRIMARY KEY, owner TEXT, bal INT);
INSERT INTO acc VALUES (1, 'ann', 100);
INSERT INTO acc VALUES (2, 'ann', 100);
INSERT INTO acc VALUES (3, 'bob', 50);

SESSION a;
BEGIN;
DELETE FROM acc WHERE id = 3;
COMMIT;

SESSION b;
BEGIN;
INSERT INTO acc VALUES (4, 'eve', 70);
COMMIT;
BEGIN;
INSERT INTO acc VALUES (4, 'eve', 70);
COMMIT;

SESSION r;
BEGIN;
SELECT owner FROM acc WHERE id = 3;
COMMIT;

SCHEDULE r! a! a! a! b! b! r! r! b! b! b!;
END;
