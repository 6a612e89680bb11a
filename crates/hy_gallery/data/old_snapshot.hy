-- A reader that began before a writer's commit goes on seeing the old version.
-- b begins; a begins, updates and commits; then b reads 1. b's COMMIT follows in the rounds, after the schedule.

CREATE TABLE t (n INT);
INSERT INTO t VALUES (1);

SESSION a;
BEGIN;
UPDATE t SET n = 5 WHERE n = 1;
COMMIT;

SESSION b;
BEGIN;
SELECT n FROM t WHERE n > 0;
COMMIT;

SCHEDULE b! a! a! a! b!;
END;
