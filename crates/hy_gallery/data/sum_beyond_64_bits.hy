-- A sum beyond 64 bits: the largest INT counts twice, since it meets two rows in the join. SUM is exact.

CREATE TABLE t (a INT, b INT);
INSERT INTO t VALUES (9223372036854775807,1);
CREATE TABLE u (c INT);
INSERT INTO u VALUES (1);
INSERT INTO u VALUES (1);

SESSION a;
BEGIN;
SELECT SUM(a) FROM t JOIN u ON b = c;
COMMIT;

END;
