-- Write skew by predicate: both transactions find no row of which value = 30, and each inserts one. There is
-- no row that both touch; but the second in a serial order would have found the first one's row.
-- b's SELECT is kept as its WHERE. The row that a inserted makes it true, and b is refused as invalid.
--
--   ./hy run examples/anomalies/write_skew_by_predicate.hy

CREATE TABLE test (id INT PRIMARY KEY, value INT);
INSERT INTO test VALUES (1,10);
INSERT INTO test VALUES (2,20);

SESSION a;
BEGIN;
SELECT * FROM test WHERE value = 30;
INSERT INTO test VALUES (3,30);
COMMIT;

SESSION b;
BEGIN;
SELECT * FROM test WHERE value = 30;
INSERT INTO test VALUES (4,30);
COMMIT;

SCHEDULE a! b! a! b! a! b! a! b!;
END;
