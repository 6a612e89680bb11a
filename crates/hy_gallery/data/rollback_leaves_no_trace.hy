-- a writes a row and rolls back; b reads the row between the two.
-- b sees the row as it was, the order is empty, and the table is as it was. `wrote` tells where a had written.

CREATE TABLE t (n INT);
INSERT INTO t VALUES (1);

SESSION a;
BEGIN;
UPDATE t SET n = 5 WHERE n = 1;
ROLLBACK;

SESSION b;
BEGIN;
SELECT n FROM t WHERE n > 0;
COMMIT;

END;
