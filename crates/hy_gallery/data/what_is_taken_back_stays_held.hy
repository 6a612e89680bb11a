-- A position that a transaction went back at stays its own until it ends: another writer is in conflict with it.
CREATE TABLE t (n INT);
INSERT INTO t VALUES (1);

SESSION a;
BEGIN;
SAVEPOINT s;
UPDATE t SET n = 5;
ROLLBACK TO s;
COMMIT;

SESSION b;
BEGIN;
UPDATE t SET n = 7;
COMMIT;

SCHEDULE a! a! b! a! a! b!;
END;
