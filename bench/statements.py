#!/usr/bin/env python3
"""Times statements over tables of 1,000, 10,000 and 100,000 rows, beside sqlite3 in memory on the same statements.

Both programs read a script that fills a table, in an order of keys by chance, and then does one kind of statement again and again, each
statement a transaction of its own. What they print goes nowhere. The time of the script that only fills the table is taken off, and there
is work enough to take about as long. Times are of the processor, the least of several rounds in which both take turns, which other work on the
machine disturbs least.

Prints for each kind and size the statements per second of both (of a sum, the rows per second), the ratio, and how much a statement's
cost grew from the size before. Ends with 1 where Salt is slower than sqlite3 at a statement on one row of up to 10,000, slower than 0.7 of it
at a range of 100 rows of up to 10,000, or than a third of it at a sum of up to 10,000 rows and a sixth of more. With another program of Salt's,
which takes turns with both, also where a statement on one row takes more than 1.05 times as long as in that one over up to 10,000 rows, and
more than 1.6 times over more: a table of more pages than frames reads a page for most rows.

    bench/statements.py [PROGRAM [OTHER]]                    with the programs of other commits
    bench/statements.py --folder [PROGRAM [OTHER]]           over a folder in memory, in place of devices in memory
    bench/statements.py --points [PROGRAM [OTHER]]           statements on one row alone, over up to 10,000 rows
    bench/statements.py --instructions [PROGRAM]             what a statement on one row costs, in instructions, which do not vary; judges nothing
"""
import random, shutil, sys, tempfile
from pathlib import Path

from timing import instructions, least_in_turns, made, usage

ROUNDS = 5
# Of statements on one row, which take less, there are more rounds.
POINT_ROUNDS = 20
SIZES = [1_000, 10_000, 100_000]
POINTS = 30_000
RANGES = 10_000
SUMMED = 10_000_000
WIDTH = 100
# How fast each kind has to be over tables of these sizes, where sqlite3 is 1.
SLOWEST = {"insert": [1.0, 1.0], "point select": [1.0, 1.0], "point update": [1.0, 1.0], "delete": [1.0, 1.0], "range of 100": [0.7, 0.7], "sum of all": [1 / 3, 1 / 3, 1 / 6]}
# How many times as long as in another program a statement on one row may take over these sizes.
LONGEST = [1.05, 1.05, 1.6]
# Statements that are counted of each kind, and the seconds that a count may take.
COUNTED = 2_000
LIMIT = 60

# How often a kind of statement is done over so many rows, and its text at a key. What fills the table is taken off, so of statements on one row there are at least as many.
KINDS = {
    "point select": (lambda rows: max(rows, POINTS), lambda key: f"select * from t where key = {key}"),
    "point update": (lambda rows: max(rows, POINTS), lambda key: f"update t set n = n + 1 where key = {key}"),
    "delete": (lambda rows: rows, lambda key: f"delete from t where key = {key}"),
    "range of 100": (lambda rows: RANGES, lambda key: f"select * from t where key between {key} and {key + WIDTH - 1} and n < 500"),
    "sum of all": (lambda rows: SUMMED // rows, lambda key: "select sum(n) from t"),
}
ON_ONE_ROW = ["point select", "point update", "delete"]


def inserts(rows):
    """A statement for each row; the keys go up from 0, in an order by chance."""
    numbers = random.Random(rows)
    return [f"insert into t values ({key}, {numbers.randrange(1_000)}, 'item {key}')" for key in numbers.sample(range(rows), rows)]


def asked(kind, rows):
    """The statements that are timed, at keys by chance; each of a delete's is another."""
    often, text_at = KINDS[kind]
    numbers = random.Random(rows)
    if kind == "delete":
        keys = numbers.sample(range(rows), often(rows))
    else:
        keys = [numbers.randrange(max(1, rows - WIDTH)) for _ in range(often(rows))]
    return [text_at(key) for key in keys]


def salt_script(statements):
    return "\n".join(["create table t (k int key, n int, s text)", *[f"@1 {text}" for text in statements], ""]).encode()


def sqlite_script(statements):
    texts = [text.replace("key ", "k ") + ";" for text in statements]
    return "\n".join(["create table t (k integer primary key, n int, s text);", *texts, ""]).encode()


class Measured:
    """A program, the folder that it keeps its database in, if it has one, and what its statements cost at the size before."""

    def __init__(self, command, script_of, folder=None):
        self.command, self.script_of, self.folder, self.costs = command, script_of, folder, {}

    def seconds(self, script):
        """The time of the processor, over nothing that was there before. What is the program's own of it some systems count by ticks, too long for this."""
        if self.folder:
            shutil.rmtree(self.folder, ignore_errors=True)
        used = usage(self.command, script)
        return used.ru_utime + used.ru_stime

    def growth(self, kind, cost):
        """How much the cost of a statement grew from the size before."""
        costs = self.costs.setdefault(kind, [])
        costs.append(cost)
        return f"{costs[-1] / costs[-2]:5.2f}" if len(costs) > 1 else "    -"


def least_seconds(programs, statements, rounds):
    """The least time in each program, of so many rounds in which they take turns."""
    scripts = [(program, program.script_of(statements)) for program in programs]
    return least_in_turns([lambda program=program, script=script: program.seconds(script) for program, script in scripts], rounds)


def tell(kind, rows, count, programs, took):
    """Prints a row; answers how fast the first program is, where the second is 1, and where the third is, if there is one."""
    rates = [count / seconds for seconds in took]
    growths = [program.growth(kind, seconds / count) for program, seconds in zip(programs, took)]
    ratios = [rates[0] / rate for rate in rates[1:]]
    beside = "".join(f"; the other {rate:11.0f}, ratio {ratio:5.2f}" for rate, ratio in zip(rates[2:], ratios[1:]))
    print(f"{kind:12} {rows:7} rows: {rates[0]:11.0f} a second, sqlite3 {rates[1]:11.0f}, ratio {ratios[0]:5.2f}, cost grew {growths[0]} and {growths[1]}{beside}", flush=True)
    return ratios


def counted(program):
    """Prints what a statement on one row costs the program, and sqlite3 beside it."""
    for rows in SIZES[:2]:
        filled = inserts(rows)
        more = [f"insert into t values ({rows + key}, {key % 1_000}, 'item {key}')" for key in range(COUNTED)]
        points = {kind: asked(kind, rows)[:COUNTED] for kind in ON_ONE_ROW}
        for kind, work in {"insert": more, **points}.items():
            costs = []
            for command, script_of in [([program, "run"], salt_script), (["sqlite3", ":memory:"], sqlite_script)]:
                fewer, all_of_it = (instructions(command, script_of(statements), LIMIT) for statements in [filled, filled + work])
                costs.append((all_of_it - fewer) / len(work))
            print(f"{kind:12} {rows:7} rows: {costs[0]:7.0f} instructions, sqlite3 {costs[1]:7.0f}, ratio {costs[1] / costs[0]:5.2f}", flush=True)


def timed(programs, sizes, kinds, rounds):
    """Prints how fast the programs are; answers the ratios of each kind, size by size."""
    ratios = {}
    for rows in sizes:
        filled = inserts(rows)
        filling, nothing = least_seconds(programs, filled, rounds), least_seconds(programs, [], rounds)
        ratios.setdefault("insert", []).append(tell("insert", rows, rows, programs, [whole - start for whole, start in zip(filling, nothing)]))
        for kind in kinds:
            work = asked(kind, rows)
            took = [whole - start for whole, start in zip(least_seconds(programs, filled + work, rounds), filling)]
            count = len(work) * rows if kind == "sum of all" else len(work)
            ratios.setdefault(kind, []).append(tell(kind, rows, count, programs, took))
    return ratios


def judged(ratios):
    """Prints what is slower than it has to be; answers the status."""
    slow = [(kind, rows, found[0], least) for kind, sizes in ratios.items() for rows, found, least in zip(SIZES, sizes, SLOWEST[kind]) if found[0] < least]
    for kind, rows, ratio, least in slow:
        print(f"{kind} over {rows} rows: {ratio:.2f} of sqlite3, and is to be at least {least:.2f}")
    beside = [(kind, rows, found[1:], most) for kind in ["insert", *ON_ONE_ROW] for rows, found, most in zip(SIZES, ratios[kind], LONGEST)]
    longer = [(kind, rows, 1 / ratio, most) for kind, rows, others, most in beside for ratio in others if most < 1 / ratio]
    for kind, rows, times, most in longer:
        print(f"{kind} over {rows} rows: {times:.2f} times as long as in the other program, and is to take at most {most}")
    return 1 if slow or longer else 0


def main():
    salts = [Path(word) for word in sys.argv[1:] if not word.startswith("--")] or [made("salt", "run")]
    if "--instructions" in sys.argv:
        counted(salts[0])
        return 0
    with tempfile.TemporaryDirectory(dir="/dev/shm") as top:
        folder = f"{top}/rows" if "--folder" in sys.argv else None
        place = ["--dir", folder] if folder else []
        here, *other = [Measured([salt, "run", *place], salt_script, folder) for salt in salts]
        programs = [here, Measured(["sqlite3", ":memory:"], sqlite_script), *other]
        points = "--points" in sys.argv
        ratios = timed(programs, SIZES[:2], ON_ONE_ROW, POINT_ROUNDS) if points else timed(programs, SIZES, KINDS, ROUNDS)
    return judged(ratios)


if __name__ == "__main__":
    sys.exit(main())
