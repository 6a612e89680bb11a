"""Times commits that are made sure in a file: 1, 4, 8, 20 and 64 sessions of short transactions, none in another's way.

run: python3 bench/commits.py PROGRAM FOLDER [TURNS [SESSIONS..]]      PROGRAM is hy_main; the files lie in FOLDER

A transaction updates one row, in a chunk of its session's own. A line for each count of sessions has the commits a second of
`hy run --log --threads`; of `hy run --log`, by the schedule, where each is sure before the next step; and of SQLite with a
write-ahead log and synchronous=FULL: one connection, which commits one after another, since SQLite has one writer at a time.
Those two have fewer commits of the same kind.

What is timed of hy is the whole run by the clock, with what is read before and told behind; what the run on threads takes
without a log is told beside it. Of SQLite, called from Python, it is the commits alone. So where a C compiler is there, which
makes syncs.c, the same is told of hy: the commits between the beginning of the first sync and the end of the last one, how many
syncs there are, and how long one takes, both of the middle turn. All else is the best of so many turns, and behind it, of the runs
on threads, stands the middle one. A turn measures all counts of sessions, so that a slow moment of the machine meets them alike.
"""

import os
import shutil
import sqlite3
import statistics
import struct
import subprocess
import sys
import tempfile
import time

TABLES = 16
COUNTS = {1: 2000, 4: 1000, 8: 1000, 20: 500, 64: 250}
FEWER = 4
SYNCS = 200


def place_of(session):
    """The table and the key of a session's row."""
    return session % TABLES, session // TABLES + 1


def chunks_of(count):
    """How many rows a table has, each of which is a chunk."""
    return (count + TABLES - 1) // TABLES


def update_of(session):
    """The statement of each transaction of a session."""
    table, key = place_of(session)
    return f"UPDATE t{table} SET n = n + 1 WHERE id = {key};"


def tables_of(count):
    """The tables, and a row for each session."""
    yield from (f"CREATE TABLE t{table} (id INT PRIMARY KEY, n INT);" for table in range(min(count, TABLES)))
    for table, key in sorted(place_of(session) for session in range(count)):
        yield f"INSERT INTO t{table} VALUES ({key},0);"


def script_of(count, each):
    """The script in which each of so many sessions commits so often."""
    lines = list(tables_of(count))
    for session in range(count):
        lines.append(f"SESSION s{session};")
        lines += [f"BEGIN; {update_of(session)} COMMIT;"] * each
    lines.append("END;")
    return "\n".join(lines).encode()


def run(words, log, count, each, more=()):
    """The seconds of one run, in which each session has to commit so often. The environment has more variables, where they are given."""
    script = script_of(count, each)
    start = time.perf_counter()
    ran = subprocess.run(words, input=script, stdout=subprocess.PIPE, env={"HY_LOG": log, **dict(more)}, check=True)
    seconds = time.perf_counter() - start
    if os.path.exists(log):
        os.remove(log)
    if f"\norder {count * each}\n".encode() not in ran.stdout:
        sys.exit(f"{' '.join(words)}: not all of {count * each} transactions have committed")
    return seconds


def syncs_library(room):
    """The library that tells of syncs, made in a folder. None where no compiler is there."""
    if not shutil.which("cc"):
        return None
    library = f"{room}/syncs.so"
    source = os.path.join(os.path.dirname(os.path.abspath(__file__)), "syncs.c")
    subprocess.run(["cc", "-shared", "-fPIC", "-O2", "-o", library, source, "-ldl"], check=True)
    return library


def told_of_syncs(words, log, count, each, library):
    """Of one run: the seconds from the first sync to the end of the last one, the syncs, and the microseconds of one."""
    told = os.path.join(os.path.dirname(log), "syncs")
    run(words, log, count, each, [("SYNCS", told), ("LD_PRELOAD", library)])
    with open(told, "rb") as file:
        syncs, first, last, within = struct.unpack("qqqq", file.read(32))
    return (last - first) / 1e9, syncs, within / syncs / 1e3


def by_sqlite(folder, count, each):
    """The seconds in which SQLite commits the same updates, one session's after another's."""
    with tempfile.TemporaryDirectory(dir=folder) as room:
        connection = sqlite3.connect(f"{room}/beside", isolation_level=None)
        connection.execute("PRAGMA journal_mode=WAL")
        connection.execute("PRAGMA synchronous=FULL")
        for line in tables_of(count):
            connection.execute(line)
        start = time.perf_counter()
        for session in [*range(count)] * each:
            connection.execute("BEGIN IMMEDIATE")
            connection.execute(update_of(session))
            connection.execute("COMMIT")
        seconds = time.perf_counter() - start
        connection.close()
    return seconds


def sync_alone(folder):
    """The seconds of a write of 64 bytes behind a file's end, and its sync."""
    with tempfile.TemporaryFile(dir=folder) as file:
        start = time.perf_counter()
        for _ in range(SYNCS):
            os.write(file.fileno(), bytes(64))
            os.fdatasync(file.fileno())
        return (time.perf_counter() - start) / SYNCS


class Sessions:
    """What is measured of so many sessions, in seconds of each turn."""

    def __init__(self, program, count):
        self.by_schedule = [program, "run", "--chunks", str(chunks_of(count)), "--rows", "1"]
        self.on_threads = [*self.by_schedule, "--threads"]
        self.count = count
        self.each = COUNTS.get(count, 250)
        self.fewer = max(1, self.each // FEWER)
        self.threads, self.without, self.schedule, self.beside, self.alone = [], [], [], [], []

    def measure(self, folder, library):
        """One turn."""
        with tempfile.TemporaryDirectory(dir=folder) as room:
            log = f"{room}/hy.log"
            self.threads.append(run([*self.on_threads, "--log"], log, self.count, self.each))
            self.without.append(run(self.on_threads, log, self.count, self.each))
            self.schedule.append(run([*self.by_schedule, "--log"], log, self.count, self.fewer))
            if library:
                self.alone.append(told_of_syncs([*self.on_threads, "--log"], log, self.count, self.each, library))
        self.beside.append(by_sqlite(folder, self.count, self.fewer))

    def of_syncs(self):
        """The commits a second from the first sync to the last, and the syncs, in words."""
        if not self.alone:
            return ""
        spans, syncs, times = zip(*self.alone)
        commits = self.count * self.each
        best, middle = commits / min(spans), commits / statistics.median(spans)
        sync = statistics.median(times)
        return f"from the first sync to the last {best:.0f}, {middle:.0f} ({statistics.median(syncs):.0f} syncs of {sync:.0f} us); "

    def tell(self):
        """All of it, in a line."""
        commits, some = self.count * self.each, self.count * self.fewer
        best, middle, schedule, beside = min(self.threads), statistics.median(self.threads), min(self.schedule), min(self.beside)
        print(
            f"{self.count} session{'s' * (self.count > 1)}: on threads {commits / best:.0f} commits a second, {commits / middle:.0f} "
            f"({commits} in {best:.3f} s, without a log {min(self.without):.3f} s); {self.of_syncs()}"
            f"by the schedule {some / schedule:.0f} ({some} in {schedule:.3f} s); SQLite {some / beside:.0f} ({some} in {beside:.3f} s)",
            flush=True,
        )


def main():
    program, folder, turns, *counts = sys.argv[1:] + ["3"] * (len(sys.argv) < 4)
    print(f"SQLite {sqlite3.sqlite_version}; a write behind a file's end and its sync take {sync_alone(folder) * 1e3:.2f} ms", flush=True)
    measured = [Sessions(os.path.abspath(program), count) for count in map(int, counts or COUNTS)]
    with tempfile.TemporaryDirectory() as room:
        library = syncs_library(room)
        for _ in range(int(turns)):
            for sessions in measured:
                sessions.measure(folder, library)
    for sessions in measured:
        sessions.tell()


if __name__ == "__main__":
    main()
