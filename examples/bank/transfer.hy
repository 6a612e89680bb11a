-- A transaction that writes: its changes stand in the commit order.
--
--   ./hy run --chunks 1 --rows 4 < examples/bank/transfer.hy

CREATE TABLE acc (id INT PRIMARY KEY, owner TEXT, bal INT);
INSERT INTO acc VALUES (1, 'ann', 100);
INSERT INTO acc VALUES (2, 'ann', 100);
INSERT INTO acc VALUES (3, 'bob', 50);

SESSION a;
BEGIN;
UPDATE acc SET bal = bal - 30 WHERE id = 1;
UPDATE acc SET bal = bal + 30 WHERE id = 3;
COMMIT;

END;
