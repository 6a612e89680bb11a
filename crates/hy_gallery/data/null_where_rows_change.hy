-- Rows with NULL beside each kind of statement: a condition that is unknown selects no row to show, to change or to
-- delete, and a new row may have NULL in each column but the key.
-- No transaction commits a change, so that each begins with the same two rows.

CREATE TABLE t (k INT PRIMARY KEY, v INT, s TEXT);
INSERT INTO t VALUES (1,NULL,'a');
INSERT INTO t VALUES (2,5,NULL);

SESSION a;
BEGIN READ ONLY;
SELECT k FROM t WHERE NOT v = 5;
SELECT k FROM t WHERE NOT v = 6;
SELECT k FROM t WHERE v = NULL OR v <> NULL;
SELECT k FROM t WHERE v = 5 OR s = 'a';
SELECT k FROM t WHERE v = 5 AND s = 'a';
SELECT k FROM t WHERE NOT (v = 6 AND s = 'a');
SELECT k FROM t WHERE v IS NOT NULL;
SELECT * FROM t WHERE v IS NULL OR s IS NULL;
SELECT v, s FROM t WHERE k = 1;
COMMIT;
BEGIN;
UPDATE t SET v = v + 1;
SELECT * FROM t;
UPDATE t SET v = 0 - v;
SELECT * FROM t;
UPDATE t SET v = v * NULL;
SELECT * FROM t;
ROLLBACK;
BEGIN;
UPDATE t SET v = 0 WHERE v <> 6;
SELECT * FROM t;
UPDATE t SET s = NULL, v = k;
SELECT * FROM t;
ROLLBACK;
BEGIN;
UPDATE t SET v = v * (9223372036854775807 + 1) WHERE k = 1;
ROLLBACK;
BEGIN;
DELETE FROM t WHERE v = NULL;
DELETE FROM t WHERE NOT v = 6;
SELECT * FROM t;
ROLLBACK;
BEGIN;
DELETE FROM t WHERE v IS NULL;
SELECT * FROM t;
ROLLBACK;
BEGIN;
INSERT INTO t VALUES (0,NULL,NULL);
INSERT INTO t VALUES (1,NULL,NULL);
SELECT * FROM t;
ROLLBACK;

END;
