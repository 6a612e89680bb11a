-- The first row of line 4 has NULL for its key: the script is refused there.

CREATE TABLE t (k INT PRIMARY KEY, v INT, s TEXT);
INSERT INTO t VALUES (NULL,1,'b');

END;
