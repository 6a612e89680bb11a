-- An ON may name one table alone. It takes the pairs in which that table's row fits, whatever the other one is: the
-- first SELECT pairs the row 5|5 of b with each row of a, also with the one of NULLs.

CREATE TABLE a (x INT, u INT);
INSERT INTO a VALUES (1,1);
INSERT INTO a VALUES (2,3);
INSERT INTO a VALUES (NULL,NULL);
CREATE TABLE b (y INT, z INT);
INSERT INTO b VALUES (5,5);
INSERT INTO b VALUES (6,7);

SESSION a;
BEGIN READ ONLY;
SELECT x, y FROM a JOIN b ON y = z;
SELECT x, y FROM a JOIN b ON x = u;
SELECT x, y FROM a JOIN b ON x = x WHERE y = z AND u = x;
SELECT x, y FROM a JOIN b ON x = x;
SELECT COUNT(*) FROM a WHERE x = u;
COMMIT;

END;
