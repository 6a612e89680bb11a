-- Write skew at a bank: each transaction reads both balances, 200 together, and takes 150 from an account of
-- its own. One such withdrawal is covered, two are not.
-- a commits. b read the balance that a changed: it is refused as invalid and leaves no trace, and the line
-- names the position of the change, who made it, and the statement of b that had read it.

CREATE TABLE acc (id INT PRIMARY KEY, bal INT);
INSERT INTO acc VALUES (1,100);
INSERT INTO acc VALUES (2,100);

SESSION a;
BEGIN;
SELECT bal FROM acc WHERE id = 1 OR id = 2;
UPDATE acc SET bal = bal - 150 WHERE id = 1;
COMMIT;

SESSION b;
BEGIN;
SELECT bal FROM acc WHERE id = 1 OR id = 2;
UPDATE acc SET bal = bal - 150 WHERE id = 2;
COMMIT;

END;
