-- Which values refuse a transaction: those outside 64 bits, in the midst of an expression too, at a row that the
-- WHERE selects. 30 times 307445734561825860 is 7 below the largest INT.
-- So a.1 to a.5 are refused as `range`: a.1 at its third statement, a.2 since minus the least INT isn't one, a.3
-- below the least INT, a.4 although its value comes back, and a.5 at the second row. a.6 to a.8 are not: no value of
-- a row that they select is outside.

CREATE TABLE t (k INT PRIMARY KEY, a INT, b INT);
INSERT INTO t VALUES (1,10,20);
INSERT INTO t VALUES (2,30,40);

SESSION a;
BEGIN;
UPDATE t SET a = 1 WHERE k = 1;
SELECT a FROM t WHERE k = 1;
UPDATE t SET b = 0, a = 9223372036854775807 + a;
DELETE FROM t;
COMMIT;
BEGIN;
UPDATE t SET a = -9223372036854775808 WHERE k = 1;
UPDATE t SET a = a * -1;
COMMIT;
BEGIN;
UPDATE t SET a = -9223372036854775808 WHERE k = 1;
UPDATE t SET a = a - 1;
COMMIT;
BEGIN;
UPDATE t SET a = 9223372036854775807 + 1 - 1 WHERE k = 1;
COMMIT;
BEGIN;
UPDATE t SET a = a * 307445734561825861;
COMMIT;
BEGIN;
UPDATE t SET a = a * 307445734561825860;
SELECT a FROM t;
ROLLBACK;
BEGIN;
UPDATE t SET a = a * 307445734561825861 WHERE k = 1;
SELECT a FROM t;
ROLLBACK;
BEGIN;
UPDATE t SET a = 9223372036854775807 + 1 WHERE k = 9;
DELETE FROM t WHERE k = 2;
COMMIT;

END;
