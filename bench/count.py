"""Makes the workloads of count.sh, and tells what callgrind counted of one.

run: python3 bench/count.py words WORKLOAD
     python3 bench/count.py script WORKLOAD
     python3 bench/count.py tell WORKLOAD PROFILE SCRIPT TEXT

What the compiler put into a caller counts as the caller's, so a unit is told by what is called of its crates from outside.
"""

import os
import re
import sys
from collections import Counter, namedtuple

ACCOUNTS = 64
ROWS = 65536
MOST_FUNCTIONS = 25

# The crates that turn the bytes of a script into what is run, and the crate of its text.
READING = ("hy_outside", "hy_script", "hy_parse", "hy_token", "hy_ast", "hy_bind", "hy_schema")
TELLING = ("hy_render",)

# The program itself, which calls them.
TOP = ("hy_main", "hy_top")

# A session's visits of a chunk and of what commits.
VISITS = ("visit_chunk", "visit_core")

# What takes memory.
TAKES = ("malloc", "realloc", "calloc", "aligned_alloc", "posix_memalign")

Workload = namedtuple("Workload", "words transactions lines cells")
Entry = namedtuple("Entry", "calls instructions")


def draws(seed):
    """Numbers of 32 bits, from a seed on."""
    state = seed
    while True:
        state = (state * 6364136223846793005 + 1442695040888963407) % 2**64
        yield state >> 32


def session(begin, transactions):
    """A script's lines from its one session on, a line for each transaction."""
    yield "SESSION s;"
    for statements in transactions:
        yield f"{begin(statements)} {' '.join(statements)} COMMIT;"
    yield "END;"


def begin_of(statements):
    """How a transaction begins: one of SELECTs alone is READ ONLY."""
    return "BEGIN READ ONLY;" if all(s.startswith("SELECT") for s in statements) else "BEGIN;"


def transfers(count):
    """Three transfers and an audit in four, over accounts that are drawn."""
    drawn = draws(7)
    for _ in range(count):
        if next(drawn) % 4 == 0:
            yield ["SELECT SUM(bal) FROM acc;"]
        else:
            giver = next(drawn) % ACCOUNTS
            taker = (giver + 1 + next(drawn) % (ACCOUNTS - 1)) % ACCOUNTS
            amount = 1 + next(drawn) % 100
            yield [
                f"SELECT bal FROM acc WHERE id = {giver + 1};",
                f"UPDATE acc SET bal = bal - {amount} WHERE id = {giver + 1};",
                f"UPDATE acc SET bal = bal + {amount} WHERE id = {taker + 1};",
            ]


def bank(count):
    """Transfers and audits of one session over accounts that begin with 1,000 each."""
    yield "CREATE TABLE acc (id INT PRIMARY KEY, bal INT);"
    yield from (f"INSERT INTO acc VALUES ({number + 1},1000);" for number in range(ACCOUNTS))
    yield from session(begin_of, transfers(count))


def scan(count):
    """Sums over many rows, each with a condition that selects some more of them than the last."""
    yield "CREATE TABLE big (k INT, v INT);"
    yield from (f"INSERT INTO big VALUES ({number},{number * 7919 % 1000});" for number in range(ROWS))
    yield from session(begin_of, ([f"SELECT SUM(v) FROM big WHERE v < {5 * number};"] for number in range(count)))


def churn(count):
    """A row that comes and one that goes, in each transaction."""
    yield "CREATE TABLE q (k INT PRIMARY KEY, v INT);"
    yield from session(
        begin_of,
        ([f"INSERT INTO q VALUES ({number},{number});", f"DELETE FROM q WHERE k = {number - 30};"] for number in range(count)),
    )


PEOPLE = 64
LETTERS = "abcdefghijklmnopqrstuvwxyz"


def name_of(drawn):
    """A name of 5 to 40 letters."""
    return "".join(LETTERS[next(drawn) % len(LETTERS)] for _ in range(5 + next(drawn) % 36))


def texts(count):
    """Of rows with a name as their key one is looked up, and one moves to a town whose name is drawn."""
    drawn = draws(11)
    people = [name_of(drawn) for _ in range(PEOPLE)]
    yield "CREATE TABLE people (name TEXT PRIMARY KEY, town TEXT, moves INT);"
    yield from (f"INSERT INTO people VALUES ('{name}','{name_of(drawn)}',0);" for name in people)
    yield from session(
        begin_of,
        (
            [
                f"SELECT town FROM people WHERE name = '{people[next(drawn) % PEOPLE]}';",
                f"UPDATE people SET town = '{name_of(drawn)}', moves = moves + 1 WHERE name = '{people[next(drawn) % PEOPLE]}';",
            ]
            for _ in range(count)
        ),
    )


WORKLOADS = {
    "bank": Workload("run --chunks 4 --rows 16", 6000, bank, 0),
    "scan": Workload("run --chunks 64 --rows 1024", 200, scan, 200 * ROWS),
    "churn": Workload("run --chunks 1 --rows 64", 20000, churn, 0),
    "texts": Workload("run --chunks 4 --rows 16", 6000, texts, 0),
    "gen": Workload("gen --seed 1 --sessions 64 --transactions 1000", 64000, lambda _: (), 0),
}


class Profile:
    """What callgrind wrote: the instructions of each function's own, and of each call from one function to another."""

    def __init__(self, path):
        self.own = Counter()
        self.calls = Counter()
        self.below = Counter()
        self.names = {}
        with open(path, encoding="utf-8", errors="replace") as lines:
            self.read(lines)

    def name_of(self, text):
        """The function that `(7) name` names, or `(7)` where it was named before, without its type arguments."""
        number, name = re.match(r"\((\d+)\)(?: (.*))?", text).groups()
        if name:
            self.names[number] = re.sub(r"::<#.*|'\d+$", "", name)
        return self.names[number]

    def read(self, lines):
        """Reads the profile line by line. The cost line behind a line `calls=` is that of the calls."""
        caller = callee = None
        called = 0
        for line in lines:
            key, _, value = line.strip().partition("=")
            if key == "fn":
                caller = self.name_of(value)
            elif key == "cfn":
                callee = self.name_of(value)
            elif key == "calls":
                called = int(value.split()[0])
            elif re.match(r"[0-9+*-]\S* \d+$", key):
                cost = int(key.split()[1])
                if called:
                    self.calls[caller, callee] += called
                    self.below[caller, callee] += cost
                    called = 0
                else:
                    self.own[caller] += cost

    def entry(self, is_caller, is_callee):
        """The calls from functions of one kind to functions of another, and the instructions from there on."""
        edges = [edge for edge in self.calls if is_caller(edge[0]) and is_callee(edge[1])]
        return Entry(sum(self.calls[e] for e in edges), sum(self.below[e] for e in edges))


def is_of(crates):
    """Whether a function is of these crates."""
    return lambda name: name.split("::")[0] in crates


def is_visit(name):
    """Whether a function is a visit."""
    return name.split("::")[-1] in VISITS


def units(profile, workload, script, text):
    """Each unit with its name, how many of them there are and the instructions that they take."""
    reading = profile.entry(is_of(TOP), is_of(READING)).instructions
    visits = profile.entry(lambda name: not is_visit(name), is_visit)
    telling = profile.entry(is_of(TOP), is_of(TELLING)).instructions
    return [
        ("a byte read", os.path.getsize(script), reading),
        ("a visit", visits.calls, visits.instructions),
        ("a cell of a scan", workload.cells, visits.instructions),
        ("a byte written", os.path.getsize(text), telling),
    ]


def tell(name, path, script, text):
    """Prints what was counted."""
    profile, workload = Profile(path), WORKLOADS[name]
    count = workload.transactions
    whole = sum(profile.own.values())
    taken = profile.entry(lambda caller: caller not in TAKES, lambda callee: callee in TAKES).calls
    print(f"{name}: {count:,} transactions, {whole:,} instructions, {whole / count:,.0f} a transaction; ", end="")
    print(f"{taken / count:,.1f} allocations a transaction")
    for unit, units_there, cost in units(profile, workload, script, text):
        if units_there and cost:
            print(f"  {unit:17}{cost / units_there:10,.1f}   {units_there:14,} of them, {cost / count:,.0f} a transaction")
    print("  a transaction, by function, without what each calls:")
    for function, cost in profile.own.most_common(MOST_FUNCTIONS):
        print(f"  {cost / count:13,.1f} {cost / whole:8.1%}   {function}")


def main():
    command, name, *paths = sys.argv[1:]
    if command == "words":
        print(WORKLOADS[name].words)
    elif command == "script":
        sys.stdout.writelines(line + "\n" for line in WORKLOADS[name].lines(WORKLOADS[name].transactions))
    else:
        tell(name, *paths)


if __name__ == "__main__":
    main()
