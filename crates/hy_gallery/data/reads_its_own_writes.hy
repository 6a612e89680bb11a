-- A transaction sees what it wrote itself: a reads the table, sets a balance, and reads it again.

CREATE TABLE acc (id INT PRIMARY KEY, bal INT);
INSERT INTO acc VALUES (1,100);
INSERT INTO acc VALUES (2,100);

SESSION a;
BEGIN;
SELECT * FROM acc;
UPDATE acc SET bal = 90 WHERE id = 1;
SELECT bal FROM acc WHERE id = 1;
COMMIT;

END;
