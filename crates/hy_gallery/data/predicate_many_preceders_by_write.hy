-- Predicate-many-preceders with a write: b deletes the rows of which value = 20, while a raises all values by
-- 10, so that another row has the value 20 when a has committed. Were b to delete none, or the row that its SELECT
-- did not find, its two statements would speak of two states.
-- The row that b sees and selects has a's uncommitted version: b is refused as a conflict.
--
--   ./hy run examples/anomalies/predicate_many_preceders_by_write.hy

CREATE TABLE test (id INT PRIMARY KEY, value INT);
INSERT INTO test VALUES (1,10);
INSERT INTO test VALUES (2,20);

SESSION a;
BEGIN;
UPDATE test SET value = value + 10;
COMMIT;

SESSION b;
BEGIN;
SELECT * FROM test WHERE value = 20;
DELETE FROM test WHERE value = 20;
COMMIT;

SCHEDULE a! b! a! b! a! b! b!;
END;
