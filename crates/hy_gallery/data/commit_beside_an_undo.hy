-- A commit beside an undo: c has entered its commit when b rolls back. An item without `!` is a single step.
-- c enters its commit. b's undo of its row goes through, since a chunk never waits. b's next two steps are blocked, for
-- no transaction begins or ends while another stands in its commit. Then c stamps and leaves, and b ends in the
-- rounds. Each has the ending that it would have had alone.

CREATE TABLE acc (id INT PRIMARY KEY, bal INT);
INSERT INTO acc VALUES (1,100);
INSERT INTO acc VALUES (2,100);

SESSION c;
BEGIN;
UPDATE acc SET bal = 90 WHERE id = 1;
COMMIT;

SESSION b;
BEGIN;
UPDATE acc SET bal = 0 WHERE id = 2;
ROLLBACK;

SCHEDULE c! c! b! b! c b b b c;
END;
