"""Times sessions on threads, without what is read before and told behind: the same work by 1, 2, 4 and 8 sessions.

run: python3 bench/threads.py PROGRAM [TURNS [WORK..]]      PROGRAM is hy_timed; works: scan own bank

A line for each count of sessions: seconds by the clock and by the processor without threads and with them, each the least of
so many turns, in which the counts come one after another, how many times as fast by the clock as one session on threads, and
how often threads slept, woke others and yielded, where strace is there to count. What a run without threads takes is what its
call takes beyond what the same script's call takes on threads besides its sessions.
"""

import contextlib
import shutil
import subprocess
import sys
import tempfile
from collections import namedtuple

from count import begin_of, draws

ROWS = 65536
TABLES = 8
ACCOUNTS = 64
COUNTS = (1, 2, 4, 8)

Work = namedtuple("Work", "words transactions first session")
Told = namedtuple("Told", "clock processor whole_clock whole_processor")


def big_rows():
    """One table of many rows."""
    yield "CREATE TABLE big (k INT, v INT);"
    yield from (f"INSERT INTO big VALUES ({number},{number * 7919 % 1000});" for number in range(ROWS))


def sums(_session, numbers):
    """Sums over all rows."""
    for number in numbers:
        yield [f"SELECT SUM(v) FROM big WHERE v < {number % 1000};"]


def accounts(table):
    """A table of accounts with 1,000 each."""
    yield f"CREATE TABLE acc{table} (id INT PRIMARY KEY, bal INT);"
    yield from (f"INSERT INTO acc{table} VALUES ({number + 1},1000);" for number in range(ACCOUNTS))


def own_tables():
    """A table of accounts for each session."""
    for table in range(TABLES):
        yield from accounts(table)


def transfers(table, seed, numbers):
    """Transfers between accounts that are drawn."""
    drawn = draws(seed)
    for _ in numbers:
        giver = next(drawn) % ACCOUNTS
        taker = (giver + 1 + next(drawn) % (ACCOUNTS - 1)) % ACCOUNTS
        amount = 1 + next(drawn) % 100
        yield [
            f"UPDATE acc{table} SET bal = bal - {amount} WHERE id = {giver + 1};",
            f"UPDATE acc{table} SET bal = bal + {amount} WHERE id = {taker + 1};",
        ]


WORKS = {
    "scan": Work("--chunks 64 --rows 1024", 4000, big_rows, sums),
    "own": Work("--chunks 1 --rows 64", 16000, own_tables, lambda session, numbers: transfers(session, session + 1, numbers)),
    "bank": Work("--chunks 4 --rows 16", 16000, lambda: accounts(0), lambda session, numbers: transfers(0, session + 1, numbers)),
}


def script_of(work, count):
    """The script in which so many sessions share a work."""
    lines = list(work.first())
    each = work.transactions // count
    for session in range(count):
        lines.append(f"SESSION s{session};")
        for statements in work.session(session, range(session * each, (session + 1) * each)):
            lines.append(f"{begin_of(statements)} {' '.join(statements)} COMMIT;")
    lines.append("END;")
    return "\n".join(lines)


def timed(words, script):
    """What a call tells, in seconds."""
    script.seek(0)
    ran = subprocess.run(words, stdin=script, stdout=subprocess.DEVNULL, stderr=subprocess.PIPE, text=True, check=True)
    return Told(*(int(word) / 1e9 for word in ran.stderr.split()))


def calls_of(words, script):
    """How many futex and yield calls a call of the program makes. None where they can't be counted."""
    if not shutil.which("strace"):
        return None
    script.seek(0)
    counted = ["strace", "-f", "-c", "-e", "trace=futex,sched_yield", *words]
    ran = subprocess.run(counted, stdin=script, stdout=subprocess.DEVNULL, stderr=subprocess.PIPE, text=True, check=False)
    found = {name: 0 for name in ("futex", "sched_yield")}
    for line in ran.stderr.splitlines():
        line = line.split()
        if len(line) > 3 and line[-1] in found:
            found[line[-1]] = int(line[3])
    return found


def counts_in_turn(heads, scripts, turns):
    """Times each count of sessions on threads and without, turn by turn, so that a slow minute of the machine meets all alike."""
    told = {count: ([], []) for count in COUNTS}
    for _ in range(turns):
        for count in COUNTS:
            on_threads, by_turns = told[count]
            on_threads.append(timed([*heads[count], "--threads"], scripts[count]))
            by_turns.append(timed(heads[count], scripts[count]))
    return told


def measure(program, name, turns):
    """Measures a work, and tells it line by line."""
    work = WORKS[name]
    heads = {count: [program, str(work.transactions // count), "run", *work.words.split()] for count in COUNTS}
    with contextlib.ExitStack() as opened:
        scripts = {count: opened.enter_context(tempfile.TemporaryFile("w+")) for count in COUNTS}
        for count, script in scripts.items():
            script.write(script_of(work, count))
            script.flush()
        told = counts_in_turn(heads, scripts, turns)
        calls = {count: calls_of([*heads[count], "--threads"], scripts[count]) for count in COUNTS}
    alone = min(one.clock for one in told[1][0])
    for count, (on_threads, by_turns) in told.items():
        clock = min(one.clock for one in on_threads)
        processor = min(one.processor for one in on_threads)
        beside_clock = min(one.whole_clock - one.clock for one in on_threads)
        beside = min(one.whole_processor - one.processor for one in on_threads)
        without_clock = min(one.whole_clock for one in by_turns) - beside_clock
        without = min(one.whole_processor for one in by_turns) - beside
        found = calls[count]
        said = "not counted" if found is None else f"futex {found['futex']}, yield {found['sched_yield']}"
        print(
            f"{name} {count}: without threads {without_clock:.4f} ({without:.4f}); with {clock:.4f} ({processor:.4f}), "
            f"{alone / clock:.2f} times one, processor {processor / without:.2f} times without; {said}",
            flush=True,
        )


def main():
    program, turns, *names = sys.argv[1:] + ["5"] * (len(sys.argv) < 3)
    for name in names or WORKS:
        measure(program, name, int(turns))


if __name__ == "__main__":
    main()
