-- Each chunk that was written since a savepoint takes a step of its own, and the answer is one more, at the core.
CREATE TABLE acc (id INT PRIMARY KEY, bal INT);
INSERT INTO acc VALUES (1, 100);
INSERT INTO acc VALUES (2, 100);

SESSION a;
BEGIN;
SAVEPOINT s;
UPDATE acc SET bal = 0 WHERE id = 2;
ROLLBACK TO s;
SELECT bal FROM acc;
ROLLBACK;

SESSION b;
BEGIN;
UPDATE acc SET bal = 1 WHERE id = 1;
COMMIT;

SCHEDULE a! a! a! b! b! b a a b b a;
END;
