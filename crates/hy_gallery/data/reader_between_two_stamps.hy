-- A reader between two stamps: c adds 1 to both rows, which lie in two chunks, and its commit has stamped the
-- first chunk and not the second when r sums them up.
-- r began before, and sees neither change: 200, and not 201.
-- Run as hy run --chunks 2 --rows 1.

CREATE TABLE acc (id INT PRIMARY KEY, bal INT);
INSERT INTO acc VALUES (1,100);
INSERT INTO acc VALUES (2,100);

SESSION c;
BEGIN;
UPDATE acc SET bal = bal + 1;
COMMIT;

SESSION r;
BEGIN READ ONLY;
SELECT SUM(bal) FROM acc;
COMMIT;

SCHEDULE r! c! c! c c r!;
END;
