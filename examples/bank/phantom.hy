-- A row that comes where a transaction had looked and found fewer.
--
--   ./hy run --chunks 1 --rows 4 < examples/bank/phantom.hy

CREATE TABLE acc (id INT PRIMARY KEY, owner TEXT, bal INT);
INSERT INTO acc VALUES (1, 'ann', 100);
INSERT INTO acc VALUES (2, 'ann', 100);
INSERT INTO acc VALUES (3, 'bob', 50);

SESSION a;
BEGIN;
INSERT INTO acc VALUES (4, 'bob', 10);
COMMIT;

SESSION b;
BEGIN;
SELECT COUNT(*) FROM acc WHERE owner = 'bob';
UPDATE acc SET bal = bal + 5 WHERE id = 3;
COMMIT;

END;
