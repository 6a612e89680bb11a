-- The DELETE of line 8 stands in a READ ONLY transaction: the script is refused there, and nothing is run.

CREATE TABLE t (n INT);

SESSION a;

BEGIN READ ONLY;
DELETE FROM t;
COMMIT;

END;
