-- The number of line 5 is one more than the largest INT: the script is refused there.

CREATE TABLE t (n INT);
-- As a negative number it would fit.
INSERT INTO t VALUES (9223372036854775808);

END;
