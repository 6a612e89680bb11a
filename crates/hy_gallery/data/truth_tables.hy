-- AND, OR and NOT of conditions that are true, false or unknown. Of each row p = 1 is true where p is 1, false where
-- it is 0, and unknown where it is NULL; q = 1 likewise.
-- The first SELECT of a pair shows where the whole is true, and the second where it is false. It is unknown of the
-- rows that neither shows. IS NULL is never unknown.

CREATE TABLE t (p INT, q INT);
INSERT INTO t VALUES (1,1);
INSERT INTO t VALUES (1,0);
INSERT INTO t VALUES (1,NULL);
INSERT INTO t VALUES (0,1);
INSERT INTO t VALUES (0,0);
INSERT INTO t VALUES (0,NULL);
INSERT INTO t VALUES (NULL,1);
INSERT INTO t VALUES (NULL,0);
INSERT INTO t VALUES (NULL,NULL);

SESSION a;
BEGIN READ ONLY;
SELECT p, q FROM t WHERE p = 1 AND q = 1;
SELECT p, q FROM t WHERE NOT (p = 1 AND q = 1);
SELECT p, q FROM t WHERE p = 1 OR q = 1;
SELECT p, q FROM t WHERE NOT (p = 1 OR q = 1);
SELECT p, q FROM t WHERE NOT p = 1;
SELECT p, q FROM t WHERE NOT (NOT p = 1);
SELECT p, q FROM t WHERE p IS NULL;
SELECT p, q FROM t WHERE NOT p IS NULL;
SELECT p, q FROM t WHERE p IS NULL AND q = 1 OR NOT q = 1;
COMMIT;

END;
