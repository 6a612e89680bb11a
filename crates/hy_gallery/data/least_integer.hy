-- The least INT is written with its sign, and fits.

CREATE TABLE t (n INT);
INSERT INTO t VALUES (-9223372036854775808);

END;
