-- Two writers of one row: the second is refused at once, and told who was first.
--
--   ./hy run --chunks 1 --rows 4 < examples/bank/conflict.hy

CREATE TABLE acc (id INT PRIMARY KEY, owner TEXT, bal INT);
INSERT INTO acc VALUES (1, 'ann', 100);
INSERT INTO acc VALUES (2, 'ann', 100);
INSERT INTO acc VALUES (3, 'bob', 50);

SESSION a;
BEGIN;
UPDATE acc SET bal = bal - 30 WHERE id = 1;
COMMIT;

SESSION b;
BEGIN;
SELECT bal FROM acc WHERE id = 1;
UPDATE acc SET bal = bal - 80 WHERE id = 1;
COMMIT;

SCHEDULE b! b! a! a! a! b!;
END;
