-- A value that leaves 64 bits: a's second UPDATE adds the largest INT to 100.
-- a is refused as `range`, with the position of that row. Its first UPDATE is undone too: `wrote` tells where it
-- had written, and the table is as it was.

CREATE TABLE acc (id INT PRIMARY KEY, bal INT);
INSERT INTO acc VALUES (1,100);
INSERT INTO acc VALUES (2,100);

SESSION a;
BEGIN;
UPDATE acc SET bal = 90 WHERE id = 2;
UPDATE acc SET bal = bal + 9223372036854775807 WHERE id = 1;
COMMIT;

END;
