"""Times SQLite, in memory and through Python's module, at the questions that measure.c puts to the chunks.

run: python3 bench/beside_sqlite.py (bench/measure.sh does so where python3 is there)
"""

import sqlite3
import time

ROWS = 65536
LIMIT = 504
SUM = "SELECT sum(bal) FROM acc WHERE bal > ?"
FIND = "SELECT bal FROM acc WHERE id = ?"
UPDATE = "UPDATE acc SET bal = ? WHERE id = 1"


def balance_of(number):
    """The balance of a row, as in measure.c."""
    return number * 7919 % 1009


def table():
    """The same rows."""
    connection = sqlite3.connect(":memory:", isolation_level=None)
    connection.execute("CREATE TABLE acc (id INTEGER PRIMARY KEY, bal INTEGER)")
    connection.execute("BEGIN")
    rows = ((number, balance_of(number)) for number in range(ROWS))
    connection.executemany("INSERT INTO acc VALUES (?, ?)", rows)
    connection.execute("COMMIT")
    return connection


def timed(call, keys):
    """The seconds of the processor that each call takes, and the sum of the answers."""
    start = time.process_time()
    answered = sum(call(key) for key in keys)
    return (time.process_time() - start) / len(keys), answered


def checked(is_right):
    """What a line ends in."""
    return "" if is_right else ", AND THE SUM IS WRONG"


def main():
    """The sum with a condition, the look-up by primary key, and the update of one row."""
    connection = table()

    def ask(sql):
        return lambda key: connection.execute(sql, (key,)).fetchone()[0]

    def write(number):
        return connection.execute(UPDATE, (number,)).rowcount

    version = sqlite3.sqlite_version
    limits = [LIMIT] * 200
    spent, answered = timed(ask(SUM), limits)
    wanted = sum(b for b in map(balance_of, range(ROWS)) if b > LIMIT) * len(limits)
    print(f"SQLite {version}, sum with a condition over 65,536 rows: {spent * 1e6:.0f} us{checked(answered == wanted)}")
    keys = [number * 7919 % ROWS for number in range(50000)]
    spent, answered = timed(ask(FIND), keys)
    right = answered == sum(map(balance_of, keys))
    print(f"SQLite {version}, look-up by primary key: {spent * 1e9:.0f} ns{checked(right)}")
    spent, answered = timed(write, range(100000))
    print(f"SQLite {version}, update of one row, no reader beside it: {spent * 1e9:.0f} ns{checked(answered == 100000)}")


if __name__ == "__main__":
    main()
