-- Of two savepoints of a name the newest counts, until it is released.
CREATE TABLE t (n INT);
INSERT INTO t VALUES (1);

SESSION a;
BEGIN;
SAVEPOINT s;
UPDATE t SET n = 2;
SAVEPOINT s;
UPDATE t SET n = 3;
ROLLBACK TO s;
SELECT n FROM t;
RELEASE s;
ROLLBACK TO s;
SELECT n FROM t;
ROLLBACK;

END;
