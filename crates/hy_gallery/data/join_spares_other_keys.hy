-- A join by key: b reads the balance of ann's account, found by the key of acc. a changes another account.
-- b has read acc at the keys that it looked up, and no further: both commit.

CREATE TABLE acc (id INT PRIMARY KEY, bal INT);
INSERT INTO acc VALUES (1,100);
INSERT INTO acc VALUES (2,100);
CREATE TABLE note (n INT);
CREATE TABLE own (aid INT, who TEXT);
INSERT INTO own VALUES (1,'ann');
INSERT INTO own VALUES (2,'bob');

SESSION a;
BEGIN;
UPDATE acc SET bal = 50 WHERE id = 2;
COMMIT;

SESSION b;
BEGIN;
SELECT who, bal FROM own JOIN acc ON aid = id WHERE who = 'ann';
INSERT INTO note VALUES (7);
COMMIT;

END;
