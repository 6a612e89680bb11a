-- Joins and sums: owners by account, the sum of balances over all pairs of a join, and a sum over no rows.
-- The rows come ascending. Account 2 has two owners, so that its balance counts twice in the sum. A text is
-- printed with each quote doubled.

CREATE TABLE acc (id INT PRIMARY KEY, bal INT);
INSERT INTO acc VALUES (1,100);
INSERT INTO acc VALUES (2,100);
CREATE TABLE own (aid INT, who TEXT);
INSERT INTO own VALUES (1,'ann');
INSERT INTO own VALUES (2,'bob');
INSERT INTO own VALUES (2,'o''hara');

SESSION a;
BEGIN;
SELECT who, bal FROM acc JOIN own ON id = own.aid WHERE bal >= 100 AND who <> 'bob';
SELECT SUM(bal) FROM acc JOIN own ON id = aid;
SELECT SUM(bal) FROM acc WHERE id > 9;
COMMIT;

END;
