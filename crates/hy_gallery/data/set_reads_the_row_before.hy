-- The right sides of SET read the row as it was before the statement: the first UPDATE swaps two columns, and the
-- second one swaps them back. a.2 sets b by the old a, which it raises as well.

CREATE TABLE t (k INT PRIMARY KEY, a INT, b INT);
INSERT INTO t VALUES (1,10,20);
INSERT INTO t VALUES (2,30,40);

SESSION a;
BEGIN;
UPDATE t SET a = b, b = a;
SELECT * FROM t;
UPDATE t SET a = b, b = a;
SELECT * FROM t;
COMMIT;
BEGIN;
UPDATE t SET a = a + 1, b = a * 3 WHERE k = 1;
SELECT * FROM t;
COMMIT;

END;
