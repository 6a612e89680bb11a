-- b begins when a has committed.
-- b's snapshot has a's version, so that b may write over it: both commit, and the order has both changes.

CREATE TABLE acc (id INT PRIMARY KEY, bal INT);
INSERT INTO acc VALUES (1,100);
INSERT INTO acc VALUES (2,100);

SESSION a;
BEGIN;
UPDATE acc SET bal = 90 WHERE id = 1;
COMMIT;

SESSION b;
BEGIN;
UPDATE acc SET bal = 80 WHERE id = 1;
SELECT * FROM acc;
COMMIT;

SCHEDULE a! a! a!;
END;
