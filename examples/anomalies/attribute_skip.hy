-- Attribute skip: b reads the column id of all rows; a changes the column bal of one of them.
-- A change hits a read only where it changes a column that the read names. b never asked for bal: both commit,
-- and b stands after a in the order.
--
--   ./hy run --chunks 1 --rows 4 examples/anomalies/attribute_skip.hy

CREATE TABLE acc (id INT PRIMARY KEY, bal INT);
INSERT INTO acc VALUES (1,100);
INSERT INTO acc VALUES (2,100);
CREATE TABLE note (n INT);

SESSION a;
BEGIN;
UPDATE acc SET bal = 50 WHERE id = 2;
COMMIT;

SESSION b;
BEGIN;
SELECT id FROM acc WHERE id < 10;
INSERT INTO note VALUES (7);
COMMIT;

SCHEDULE b! b! a! a! a! b! b!;
END;
