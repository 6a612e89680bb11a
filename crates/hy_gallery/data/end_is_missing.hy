-- The script ends where a statement could begin, and END has not come: refused at its last line, which is empty
-- and is line 5.

CREATE TABLE t (n INT);
