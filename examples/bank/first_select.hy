-- A transaction that reads, and what each line of the output says.
--
--   ./hy run --chunks 1 --rows 4 < examples/bank/first_select.hy

CREATE TABLE acc (id INT PRIMARY KEY, owner TEXT, bal INT);
INSERT INTO acc VALUES (1, 'ann', 100);
INSERT INTO acc VALUES (2, 'ann', 100);
INSERT INTO acc VALUES (3, 'bob', 50);

SESSION a;
BEGIN;
SELECT owner, bal FROM acc WHERE bal >= 100;
SELECT SUM(bal) FROM acc;
COMMIT;

END;
