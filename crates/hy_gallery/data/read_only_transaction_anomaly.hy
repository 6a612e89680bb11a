-- The read-only transaction anomaly: w and d alone are well in the order w, d, under snapshot isolation too.
-- The reader r, which only reads, spoils it: it sees d's deposit and not w's withdrawal.
-- r is not refused, and is told what d left. So w is: what it read is hit by d's change.
--
--   ./hy run examples/anomalies/read_only_transaction_anomaly.hy

CREATE TABLE acc (id INT PRIMARY KEY, bal INT);
INSERT INTO acc VALUES (1,100);
INSERT INTO acc VALUES (2,100);

-- The withdrawal, by the balance of both accounts.
SESSION w;
BEGIN;
SELECT bal FROM acc WHERE id = 1 OR id = 2;
UPDATE acc SET bal = bal - 11 WHERE id = 1;
COMMIT;

-- The deposit.
SESSION d;
BEGIN;
UPDATE acc SET bal = bal + 20 WHERE id = 2;
COMMIT;

-- The reader.
SESSION r;
BEGIN;
SELECT bal FROM acc;
COMMIT;

SCHEDULE w! w! d! d! d! r! r! r! w! w!;
END;
