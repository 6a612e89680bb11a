-- Write skew: two accounts of one owner, who may overdraw one of them as long as both together hold the money.
--
--   ./hy run < examples/write_skew.hy

CREATE TABLE acc (id INT PRIMARY KEY, bal INT);
INSERT INTO acc VALUES (1, 100);
INSERT INTO acc VALUES (2, 100);

-- Session a sees 200 in both, and takes 150 from account 1.
SESSION a;
BEGIN;
SELECT bal FROM acc WHERE id = 1 OR id = 2;
UPDATE acc SET bal = bal - 150 WHERE id = 1;
COMMIT;

-- Session b sees 200 in both, too, and takes 150 from account 2.
SESSION b;
BEGIN;
SELECT bal FROM acc WHERE id = 1 OR id = 2;
UPDATE acc SET bal = bal - 150 WHERE id = 2;
COMMIT;

-- There is no schedule, so the two take turns, a statement each. They write different rows, so neither write is in
-- conflict, and snapshot isolation lets both commit: -50 in each account. Run alone, whichever comes second would
-- have seen 50. Here a commits first, and b's COMMIT is refused, since a's change hits what b read.
END;
