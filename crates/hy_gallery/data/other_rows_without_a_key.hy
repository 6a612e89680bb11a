-- Two transactions write different rows of a table that has no key.
-- What an UPDATE has read is its WHERE, whether there is a key or not. The row that a set from 1 to 5 was
-- never one of n = 2: both commit.

CREATE TABLE t (n INT);
INSERT INTO t VALUES (1);
INSERT INTO t VALUES (2);

SESSION a;
BEGIN;
UPDATE t SET n = 5 WHERE n = 1;
COMMIT;

SESSION b;
BEGIN;
UPDATE t SET n = 7 WHERE n = 2;
COMMIT;

END;
