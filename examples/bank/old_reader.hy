-- A reader that began before a commit goes on seeing the tables of its start.
--
--   ./hy run --chunks 1 --rows 4 < examples/bank/old_reader.hy

CREATE TABLE acc (id INT PRIMARY KEY, owner TEXT, bal INT);
INSERT INTO acc VALUES (1, 'ann', 100);
INSERT INTO acc VALUES (2, 'ann', 100);
INSERT INTO acc VALUES (3, 'bob', 50);

SESSION r;
BEGIN;
SELECT SUM(bal) FROM acc;
SELECT bal FROM acc WHERE id = 3;
COMMIT;

SESSION w;
BEGIN;
UPDATE acc SET bal = bal - 30 WHERE id = 1;
UPDATE acc SET bal = bal + 30 WHERE id = 3;
COMMIT;

SCHEDULE r! r! w! w! w! w! r! r!;
END;
