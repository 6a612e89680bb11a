-- Sums over a join beyond 64 bits: the largest INT meets two rows and the least INT three. Each sum is exact, also
-- the one in which both ends stand against each other.

CREATE TABLE t (a INT, b INT);
INSERT INTO t VALUES (9223372036854775807,1);
INSERT INTO t VALUES (-9223372036854775808,2);
CREATE TABLE u (c INT);
INSERT INTO u VALUES (1);
INSERT INTO u VALUES (1);
INSERT INTO u VALUES (2);
INSERT INTO u VALUES (2);
INSERT INTO u VALUES (2);

SESSION a;
BEGIN READ ONLY;
SELECT SUM(a) FROM t JOIN u ON b = c WHERE b = 1;
SELECT SUM(a) FROM t JOIN u ON b = c WHERE a < 0;
SELECT SUM(a) FROM t JOIN u ON b = c;
SELECT SUM(a) FROM t;
COMMIT;

END;
