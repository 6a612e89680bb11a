-- GROUP BY over two chunks: a line for each value, ascending, NULL first, with the sum of the group.
-- Run as hy run --chunks 2 --rows 2.

CREATE TABLE t (g TEXT, v INT);
INSERT INTO t VALUES ('a',1);
INSERT INTO t VALUES ('b',2);
INSERT INTO t VALUES ('a',3);
INSERT INTO t VALUES (NULL,4);

SESSION a;
BEGIN READ ONLY;
SELECT g, SUM(v) FROM t GROUP BY g;
COMMIT;

END;
