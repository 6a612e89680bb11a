-- GROUP BY in a transaction that is not READ ONLY: the script is refused at the SELECT, line 11.

CREATE TABLE t (g TEXT, v INT);
INSERT INTO t VALUES ('a',1);
INSERT INTO t VALUES ('b',2);
INSERT INTO t VALUES ('a',3);
INSERT INTO t VALUES (NULL,4);

SESSION a;
BEGIN;
SELECT g, SUM(v) FROM t GROUP BY g;
COMMIT;

END;
