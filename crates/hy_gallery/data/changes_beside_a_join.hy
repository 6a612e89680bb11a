-- Which changes hit what a join by key has read. In each round r reads the balances of ann and eve, whose accounts
-- are 1 and 7, w commits one change, and then r commits or is refused as `invalid`.
-- Rounds 1 to 8 change acc: account 2 is never hit, and account 1 only where something changes (round 2 sets what is
-- there); account 7 isn't there, but was looked up (round 8). Rounds 9 and 10 change own, which is read by its
-- WHERE. In rounds 11 and 12 the column bal isn't read: a change of it misses, and that the row goes hits.

CREATE TABLE own (aid INT, who TEXT);
INSERT INTO own VALUES (1,'ann');
INSERT INTO own VALUES (2,'bob');
INSERT INTO own VALUES (7,'eve');
INSERT INTO own VALUES (NULL,'kim');
CREATE TABLE acc (id INT PRIMARY KEY, bal INT);
INSERT INTO acc VALUES (1,100);
INSERT INTO acc VALUES (2,100);
CREATE TABLE note (n INT);

SESSION r;
BEGIN;
SELECT who, bal FROM own JOIN acc ON aid = id WHERE who = 'ann' OR who = 'eve';
INSERT INTO note VALUES (1);
COMMIT;
BEGIN;
SELECT who, bal FROM own JOIN acc ON aid = id WHERE who = 'ann' OR who = 'eve';
INSERT INTO note VALUES (2);
COMMIT;
BEGIN;
SELECT who, bal FROM own JOIN acc ON aid = id WHERE who = 'ann' OR who = 'eve';
INSERT INTO note VALUES (3);
COMMIT;
BEGIN;
SELECT who, bal FROM own JOIN acc ON aid = id WHERE who = 'ann' OR who = 'eve';
INSERT INTO note VALUES (4);
COMMIT;
BEGIN;
SELECT who, bal FROM own JOIN acc ON aid = id WHERE who = 'ann' OR who = 'eve';
INSERT INTO note VALUES (5);
COMMIT;
BEGIN;
SELECT who, bal FROM own JOIN acc ON aid = id WHERE who = 'ann' OR who = 'eve';
INSERT INTO note VALUES (6);
COMMIT;
BEGIN;
SELECT who, bal FROM own JOIN acc ON aid = id WHERE who = 'ann' OR who = 'eve';
INSERT INTO note VALUES (7);
COMMIT;
BEGIN;
SELECT who, bal FROM own JOIN acc ON aid = id WHERE who = 'ann' OR who = 'eve';
INSERT INTO note VALUES (8);
COMMIT;
BEGIN;
SELECT who, bal FROM own JOIN acc ON aid = id WHERE who = 'ann' OR who = 'eve';
INSERT INTO note VALUES (9);
COMMIT;
BEGIN;
SELECT who, bal FROM own JOIN acc ON aid = id WHERE who = 'ann' OR who = 'eve';
INSERT INTO note VALUES (10);
COMMIT;
BEGIN;
SELECT who FROM own JOIN acc ON aid = id WHERE who = 'eve';
INSERT INTO note VALUES (11);
COMMIT;
BEGIN;
SELECT who FROM own JOIN acc ON aid = id WHERE who = 'eve';
INSERT INTO note VALUES (12);
COMMIT;

SESSION w;
BEGIN;
UPDATE acc SET bal = 50 WHERE id = 2;
COMMIT;
BEGIN;
UPDATE acc SET bal = 100 WHERE id = 1;
COMMIT;
BEGIN;
UPDATE acc SET bal = 50 WHERE id = 1;
COMMIT;
BEGIN;
DELETE FROM acc WHERE id = 2;
COMMIT;
BEGIN;
DELETE FROM acc WHERE id = 1;
COMMIT;
BEGIN;
INSERT INTO acc VALUES (2,100);
COMMIT;
BEGIN;
INSERT INTO acc VALUES (1,100);
COMMIT;
BEGIN;
INSERT INTO acc VALUES (7,0);
COMMIT;
BEGIN;
INSERT INTO own VALUES (9,'zoe');
COMMIT;
BEGIN;
UPDATE own SET who = 'ann' WHERE aid = 2;
COMMIT;
BEGIN;
UPDATE acc SET bal = 1 WHERE id = 7;
COMMIT;
BEGIN;
DELETE FROM acc WHERE id = 7;
COMMIT;

SCHEDULE
r! r! r! w! w! w! r!
r! r! r! w! w! w! r!
r! r! r! w! w! w! r!
r! r! r! w! w! w! r!
r! r! r! w! w! w! r!
r! r! r! w! w! w! r!
r! r! r! w! w! w! r!
r! r! r! w! w! w! r!
r! r! r! w! w! w! r!
r! r! r! w! w! w! r!
r! r! r! w! w! w! r!
r! r! r! w! w! w! r!;
END;
