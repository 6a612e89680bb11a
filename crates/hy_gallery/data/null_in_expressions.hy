-- Expressions with NULL. With NULL on a side each of +, - and * makes NULL, also 0 * NULL; between them the same
-- signs make numbers of numbers, so that each SELECT shows something else.
-- But a side outside 64 bits is never passed over: each transaction from a.2 to a.9 is refused as `range`, although
-- the other side is NULL.

CREATE TABLE t (n INT, v INT, a INT, b INT, c INT, d INT);
INSERT INTO t VALUES (NULL,5,0,0,0,0);

SESSION a;
BEGIN;
UPDATE t SET a = n + v, b = v + n, c = n + n, d = v + NULL;
SELECT a, b, c, d FROM t;
UPDATE t SET a = v + v, b = v + 1, c = 1 + v, d = 0 + 0;
SELECT a, b, c, d FROM t;
UPDATE t SET a = n - v, b = v - n, c = n - n, d = v - NULL;
SELECT a, b, c, d FROM t;
UPDATE t SET a = v - v, b = v - 1, c = 1 - v, d = 0 - 0;
SELECT a, b, c, d FROM t;
UPDATE t SET a = n * v, b = v * n, c = 0 * n, d = v * NULL;
SELECT a, b, c, d FROM t;
UPDATE t SET a = v * v, b = v * 2, c = 0 * v, d = 0 * 0;
SELECT a, b, c, d FROM t;
UPDATE t SET a = n * 9223372036854775807, b = (n + 1) * 2, c = NULL, d = 9223372036854775807 - 1 + 1;
SELECT a, b, c, d FROM t;
COMMIT;
BEGIN;
UPDATE t SET a = n + (9223372036854775807 + 1);
COMMIT;
BEGIN;
UPDATE t SET a = (9223372036854775807 + 1) + n;
COMMIT;
BEGIN;
UPDATE t SET a = n - (9223372036854775807 + 1);
COMMIT;
BEGIN;
UPDATE t SET a = (9223372036854775807 + 1) - n;
COMMIT;
BEGIN;
UPDATE t SET a = n * (9223372036854775807 + 1);
COMMIT;
BEGIN;
UPDATE t SET a = (9223372036854775807 + 1) * n;
COMMIT;
BEGIN;
UPDATE t SET a = v * NULL * (9223372036854775807 - 1 + 1 + 1);
COMMIT;
BEGIN;
UPDATE t SET a = n - 9223372036854775807 - (-9223372036854775808 - 1);
COMMIT;

END;
