-- Every kind of statement, once or more.
CREATE TABLE acc (id INT PRIMARY KEY, bal INT);
INSERT INTO acc VALUES (1, 100);
INSERT INTO acc VALUES (2, 100);
INSERT INTO acc VALUES (3, NULL);
CREATE TABLE own (aid INT, who TEXT);
INSERT INTO own VALUES (1, 'ann');
INSERT INTO own VALUES (2, 'bob');

SESSION a;
BEGIN;
INSERT INTO own VALUES (2, 'o''hara');
SELECT * FROM own;
SELECT who, bal FROM acc JOIN own ON id = own.aid WHERE bal >= 100 AND NOT who = 'bob';
SELECT SUM(bal) FROM acc WHERE bal IS NOT NULL;
SELECT COUNT(*) FROM acc WHERE bal > 50;
UPDATE acc SET bal = bal * 2 - (id + 1) WHERE id < 9;
DELETE FROM own WHERE who = 'ann' OR aid = 3;
INSERT INTO acc VALUES (1, 7);
COMMIT;

SESSION b;
BEGIN READ ONLY;
SELECT who, SUM(aid) FROM own GROUP BY who;
SELECT who, COUNT(*) FROM own WHERE aid < 3 GROUP BY who;
COMMIT;
BEGIN;
SAVEPOINT s;
DELETE FROM acc;
ROLLBACK TO s;
RELEASE s;
ROLLBACK;

SCHEDULE a! a! a! a! a! a! a! a! a! a!;
END;
