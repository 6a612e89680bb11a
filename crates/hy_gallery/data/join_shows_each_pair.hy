-- A join shows each pair of rows that ON takes, equal pairs as often as they are; NULL meets nothing, and an empty
-- table meets nothing. * is all columns, those of the first table first, and a column may be listed twice.
-- A sum goes over the pairs, so that a row counts once for each partner.

CREATE TABLE a (x INT);
INSERT INTO a VALUES (1);
INSERT INTO a VALUES (1);
INSERT INTO a VALUES (NULL);
CREATE TABLE b (y INT, z INT);
INSERT INTO b VALUES (1,7);
INSERT INTO b VALUES (1,7);
INSERT INTO b VALUES (NULL,7);
CREATE TABLE e (v INT);
CREATE TABLE acc (id INT PRIMARY KEY, bal INT);
INSERT INTO acc VALUES (1,100);
INSERT INTO acc VALUES (2,100);
CREATE TABLE own (aid INT, who TEXT);
INSERT INTO own VALUES (1,'ann');
INSERT INTO own VALUES (2,'bob');
INSERT INTO own VALUES (2,'o''hara');

SESSION a;
BEGIN READ ONLY;
SELECT x, z FROM a JOIN b ON x = y;
SELECT x, z FROM b JOIN a ON x = y;
SELECT SUM(x) FROM a JOIN b ON x = y;
SELECT SUM(z) FROM a JOIN b ON x = y;
SELECT * FROM a JOIN e ON x = v;
SELECT * FROM e JOIN a ON x = v;
SELECT SUM(x) FROM a JOIN e ON x = v;
SELECT SUM(x) FROM a JOIN e ON x = x;
SELECT * FROM own JOIN acc ON aid = id;
SELECT bal, id, bal FROM acc;
SELECT who FROM acc JOIN own ON id = aid WHERE id = 1 OR who = 'bob';
SELECT who, bal FROM acc JOIN own ON id = own.aid WHERE bal >= 100 AND who <> 'bob';
SELECT SUM(bal) FROM acc JOIN own ON id = own.aid;
SELECT SUM(bal) FROM acc JOIN own ON id = aid WHERE id > 9;
COMMIT;

END;
