-- Single steps: a SELECT of two chunks around a commit, and a BEGIN that is blocked.
CREATE TABLE acc (id INT PRIMARY KEY, bal INT);
INSERT INTO acc VALUES (1, 100);
INSERT INTO acc VALUES (2, 100);
SESSION r;
BEGIN READ ONLY;
SELECT SUM(bal) FROM acc;
COMMIT;
SESSION w;
BEGIN;
UPDATE acc SET bal = bal + 1;
COMMIT;
SESSION x;
BEGIN;
SELECT SUM(bal) FROM acc;
COMMIT;
SCHEDULE
r!          -- r begins
r           -- and reads the first chunk
w! w!       -- w begins, and changes both rows
w w         -- w enters its commit, and stamps the first chunk
x!          -- x is blocked: w stands in its commit
r           -- r reads the second chunk, and so is answered
w w;        -- w stamps the second chunk, and leaves
END;        -- in the rounds r ends, and x begins, reads and ends
