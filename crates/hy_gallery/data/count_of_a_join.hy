-- COUNT(*) has one table: a JOIN after it is refused, at the line of the word JOIN, which is line 9.

CREATE TABLE t (n INT);
CREATE TABLE u (m INT);

SESSION a;
BEGIN;
SELECT COUNT(*) FROM t
JOIN u ON n = m;
COMMIT;

END;
