-- Without a key rows may be equal. Each of them is shown, counted, changed and deleted.

CREATE TABLE u (x INT);
INSERT INTO u VALUES (1);
INSERT INTO u VALUES (2);

SESSION a;
BEGIN;
INSERT INTO u VALUES (1);
SELECT x FROM u;
SELECT COUNT(*) FROM u WHERE x = 1;
UPDATE u SET x = 0 - x;
SELECT x FROM u;
DELETE FROM u WHERE x > -2;
SELECT x FROM u;
ROLLBACK;
BEGIN;
UPDATE u SET x = 1;
DELETE FROM u WHERE x = 1;
DELETE FROM u;
COMMIT;

END;
