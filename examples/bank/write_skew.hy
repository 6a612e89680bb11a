-- Two writers of different rows, each of which read what the other wrote.
--
--   ./hy run --chunks 1 --rows 4 < examples/bank/write_skew.hy

CREATE TABLE acc (id INT PRIMARY KEY, owner TEXT, bal INT);
INSERT INTO acc VALUES (1, 'ann', 100);
INSERT INTO acc VALUES (2, 'ann', 100);
INSERT INTO acc VALUES (3, 'bob', 50);

SESSION a;
BEGIN;
SELECT SUM(bal) FROM acc WHERE owner = 'ann';
UPDATE acc SET bal = bal - 150 WHERE id = 1;
COMMIT;

SESSION b;
BEGIN;
SELECT SUM(bal) FROM acc WHERE owner = 'ann';
UPDATE acc SET bal = bal - 150 WHERE id = 2;
COMMIT;

END;
