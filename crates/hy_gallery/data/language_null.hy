-- What NULL does in conditions, in an order, in sums and counts, and in SET.
CREATE TABLE t (k INT PRIMARY KEY, v INT);
INSERT INTO t VALUES (1, NULL);
INSERT INTO t VALUES (2, 5);
INSERT INTO t VALUES (3, 6);
SESSION a;
BEGIN;
SELECT k FROM t WHERE v = 5;                -- true of 2 alone
SELECT k FROM t WHERE NOT v = 5;            -- true of 3; of 1 it is unknown
SELECT k FROM t WHERE v = NULL;             -- unknown of each
SELECT k FROM t WHERE v IS NULL OR v = 5;
SELECT k, v FROM t;                         -- NULL comes first in an order of values
SELECT SUM(v) FROM t;
SELECT COUNT(*) FROM t;
UPDATE t SET v = v + 1;                     -- writes three rows, and NULL + 1 is NULL
COMMIT;
END;
