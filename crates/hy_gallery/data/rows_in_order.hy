-- The order of rows: by their first differing column, NULL before all numbers, numbers by size, and texts by their
-- bytes, so that capitals come before small letters, and those before letters outside ASCII. A SELECT of the columns
-- in another order shows the rows in another order.

CREATE TABLE p (a INT, b INT);
INSERT INTO p VALUES (10,1);
INSERT INTO p VALUES (9,NULL);
INSERT INTO p VALUES (-10,2);
INSERT INTO p VALUES (9,-1);
INSERT INTO p VALUES (-9,3);
INSERT INTO p VALUES (NULL,4);
INSERT INTO p VALUES (9,-1);
CREATE TABLE w (n INT, s TEXT);
INSERT INTO w VALUES (1,'a');
INSERT INTO w VALUES (1,'ab');
INSERT INTO w VALUES (1,'b');
INSERT INTO w VALUES (1,'');
INSERT INTO w VALUES (1,NULL);
INSERT INTO w VALUES (1,'é');
INSERT INTO w VALUES (1,'B');
CREATE TABLE one (m INT);
INSERT INTO one VALUES (1);

SESSION a;
BEGIN READ ONLY;
SELECT * FROM p;
SELECT b, a FROM p;
SELECT s FROM w;
SELECT s FROM w JOIN one ON n = m;
SELECT s FROM one JOIN w ON n = m;
COMMIT;

END;
