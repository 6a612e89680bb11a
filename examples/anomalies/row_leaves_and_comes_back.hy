-- A row leaves a WHERE and comes back: b counts the rows of which bal = 100; a takes one of them away, and c
-- gives it back, so that b's count is right again when b commits.
-- Each commit is tested by itself: a's change hits b's read, and b is refused as invalid. Another engine may
-- let b commit here, and be right.
--
--   ./hy run examples/anomalies/row_leaves_and_comes_back.hy

CREATE TABLE acc (id INT PRIMARY KEY, bal INT);
INSERT INTO acc VALUES (1,100);
INSERT INTO acc VALUES (2,100);
CREATE TABLE note (n INT);

SESSION a;
BEGIN;
UPDATE acc SET bal = 5 WHERE id = 1;
COMMIT;

SESSION c;
BEGIN;
UPDATE acc SET bal = 100 WHERE id = 1;
COMMIT;

SESSION b;
BEGIN;
SELECT COUNT(*) FROM acc WHERE bal = 100;
INSERT INTO note VALUES (7);
COMMIT;

SCHEDULE b! b! a! a! a! c! c! c! b! b!;
END;
