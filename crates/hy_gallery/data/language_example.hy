-- A table, a session with one transaction, and a schedule.
CREATE TABLE acc (id INT PRIMARY KEY, bal INT);     -- a table
INSERT INTO acc VALUES (1, 100);                    -- its first rows
INSERT INTO acc VALUES (2, -5);
SESSION a;                                          -- a session and its transactions
BEGIN;
SELECT id, bal FROM acc WHERE bal > 0 OR id = 2;
UPDATE acc SET bal = bal + 10 WHERE id = 1;
COMMIT;
SCHEDULE a! a a!;                                   -- whose turn it is
END;
