-- Write skew on items: both transactions read two rows, and each writes another one of them. No row is
-- written twice, so that snapshot isolation lets both commit; but in no serial order do both read what they
-- read here.
-- a commits. b read the row that a changed, and is refused as invalid: `statement 1` is its SELECT.
--
--   ./hy run examples/anomalies/write_skew_on_items.hy

CREATE TABLE test (id INT PRIMARY KEY, value INT);
INSERT INTO test VALUES (1,10);
INSERT INTO test VALUES (2,20);

SESSION a;
BEGIN;
SELECT * FROM test WHERE id = 1 OR id = 2;
UPDATE test SET value = 11 WHERE id = 1;
COMMIT;

SESSION b;
BEGIN;
SELECT * FROM test WHERE id = 1 OR id = 2;
UPDATE test SET value = 21 WHERE id = 2;
COMMIT;

SCHEDULE a! b! a! b! a! b! a! b!;
END;
