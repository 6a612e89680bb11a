-- A key comes once: an INSERT whose key is there is answered `duplicate`, also where the transaction itself put it
-- there. A key that it deleted is free for it again. Texts are keys too, byte for byte.

CREATE TABLE t (k INT PRIMARY KEY, v INT);
INSERT INTO t VALUES (1,10);
INSERT INTO t VALUES (2,20);
CREATE TABLE w (s TEXT PRIMARY KEY);
INSERT INTO w VALUES ('a');

SESSION a;
BEGIN;
INSERT INTO t VALUES (2,0);
INSERT INTO t VALUES (3,0);
INSERT INTO t VALUES (3,1);
INSERT INTO t VALUES (0,NULL);
SELECT * FROM t;
DELETE FROM t WHERE k = 2;
INSERT INTO t VALUES (2,5);
SELECT * FROM t;
INSERT INTO w VALUES ('a');
INSERT INTO w VALUES ('A');
INSERT INTO w VALUES ('');
SELECT s FROM w;
COMMIT;

END;
