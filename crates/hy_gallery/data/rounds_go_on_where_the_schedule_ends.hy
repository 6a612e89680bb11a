-- The schedule ends when b has begun and a has not. Then the sessions go round in file order, a statement each:
-- a begins, b reads, a writes, b ends, a commits.
-- b began first and reads the row as it was. a has its first turn only after the schedule.

CREATE TABLE acc (id INT PRIMARY KEY, bal INT);
INSERT INTO acc VALUES (1,100);

SESSION a;
BEGIN;
UPDATE acc SET bal = 90 WHERE id = 1;
COMMIT;

SESSION b;
BEGIN READ ONLY;
SELECT * FROM acc;
COMMIT;

SCHEDULE b!;
END;
