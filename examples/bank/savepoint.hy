-- A savepoint: what was written since is taken back, and stays its transaction's own.
--
--   ./hy run --chunks 1 --rows 4 < examples/bank/savepoint.hy

CREATE TABLE acc (id INT PRIMARY KEY, owner TEXT, bal INT);
INSERT INTO acc VALUES (1, 'ann', 100);
INSERT INTO acc VALUES (2, 'ann', 100);
INSERT INTO acc VALUES (3, 'bob', 50);

SESSION a;
BEGIN;
UPDATE acc SET bal = bal - 30 WHERE id = 1;
SAVEPOINT paid;
UPDATE acc SET bal = bal + 30 WHERE id = 2;
ROLLBACK TO paid;
UPDATE acc SET bal = bal + 30 WHERE id = 3;
COMMIT;

SESSION b;
BEGIN;
UPDATE acc SET bal = 0 WHERE id = 2;
COMMIT;

SCHEDULE a! a! a! a! a! b! b! a! a!;
END;
