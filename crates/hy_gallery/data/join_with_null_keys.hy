-- Joins where both sides have a NULL: a comparison with NULL is unknown, and an ON takes a pair of rows only where
-- it is true.
-- So NULL meets nothing, not even NULL: the join has one row. To find the rows without a partner's key, IS NULL
-- says so.

CREATE TABLE emp (name TEXT, dept INT);
INSERT INTO emp VALUES ('ann',1);
INSERT INTO emp VALUES ('bob',NULL);
CREATE TABLE dep (dno INT, title TEXT);
INSERT INTO dep VALUES (1,'sales');
INSERT INTO dep VALUES (NULL,'none');

SESSION a;
BEGIN READ ONLY;
SELECT name, title FROM emp JOIN dep ON dept = dno;
SELECT name FROM emp WHERE dept IS NULL;
SELECT COUNT(*) FROM emp WHERE dept = NULL;
COMMIT;

END;
