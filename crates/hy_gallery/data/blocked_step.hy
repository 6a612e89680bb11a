-- A blocked step: c has entered its commit when d would begin. The first `d!` does nothing: no transaction begins
-- while another stands in its commit. Then c leaves it, and d begins after c and sees c's row.
-- The last item is of a session that has ended, and does nothing either.

CREATE TABLE acc (id INT PRIMARY KEY, bal INT);
INSERT INTO acc VALUES (1,100);
INSERT INTO acc VALUES (2,100);

SESSION c;
BEGIN;
UPDATE acc SET bal = 90 WHERE id = 1;
COMMIT;

SESSION d;
BEGIN;
SELECT bal FROM acc WHERE id = 1;
COMMIT;

SCHEDULE c! c! c d! c! d! d! d! c;
END;
