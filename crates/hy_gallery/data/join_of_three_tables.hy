-- Joins of three tables, in four orders: the same pairs of x and w each time, and sums over them. In the second
-- SELECT the last ON names the last table and the first, and what joins the two before it is said by WHERE.

CREATE TABLE a (x INT);
INSERT INTO a VALUES (1);
INSERT INTO a VALUES (2);
CREATE TABLE b (y INT, z INT);
INSERT INTO b VALUES (1,10);
INSERT INTO b VALUES (2,20);
INSERT INTO b VALUES (2,30);
CREATE TABLE c (w INT);
INSERT INTO c VALUES (30);
INSERT INTO c VALUES (10);
INSERT INTO c VALUES (30);

SESSION a;
BEGIN READ ONLY;
SELECT x, w FROM a JOIN b ON x = y JOIN c ON w = z;
SELECT x, w FROM a JOIN c ON w = w JOIN b ON y = x WHERE z = w;
SELECT SUM(w) FROM a JOIN b ON x = y JOIN c ON z = w;
SELECT SUM(x) FROM b JOIN c ON z = w JOIN a ON y = x;
COMMIT;

END;
