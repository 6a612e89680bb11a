-- NULL: a comparison with it is unknown, and so is NOT of that, so that the first SELECT finds no row. IS NULL is
-- true or false. SUM passes NULL over, and NULL + 1 is NULL: the UPDATE writes both rows, and changes one.

CREATE TABLE t (k INT PRIMARY KEY, v INT, s TEXT);
INSERT INTO t VALUES (1,NULL,'a');
INSERT INTO t VALUES (2,5,NULL);

SESSION a;
BEGIN;
SELECT k FROM t WHERE NOT v = 5;
SELECT * FROM t WHERE v IS NULL OR s IS NULL;
SELECT SUM(v) FROM t;
UPDATE t SET v = v + 1;
COMMIT;

END;
