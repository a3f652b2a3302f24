#!/usr/bin/env python3
"""How what a run costs grows with what it is given: an exponent for each case, by instructions of the processor.

A case is a script at three sizes, doubled twice. Instructions are counted by valgrind (cachegrind without its caches) and do not vary with
what else the machine does; so these need no rounds, and small sizes are enough. What the script costs up to its mark is taken off. Of three
costs the two differences are taken, in which what does not grow is gone: the exponent is how often the second has doubled the first. 1.0 is
linear; of cases with a statement beside each of n things, it is linear where a statement costs the same beside few and beside many.

Prints for each case its least size, the instructions of one of its n at each size, and the exponent. Ends with 1 where an exponent of the
first program is over the bound, or a run takes more seconds of the processor under valgrind than its limit.

    bench/growth.py [CASE ..] [--program PATH ..] [--limit SECONDS]     all cases, or those; the program of PATH, of two one beside the other
"""
import argparse, math, re, subprocess, sys, tempfile
from functools import lru_cache

from timing import instructions, made

BOUND = 1.15
LIMIT = 60
# behind this the work of a case begins
MARK = None
TABLES = ["create table t (k int key, v int)", "create table u (k int key, v int)", "@1 insert into u values (1, 0)"]
TAKE, BRING = "update t set v = v - 1 where key = :a", "update t set v = v + 1 where key = :b"
READ = "select v into :seen from t where key = :b"
# a later part that writes another row; one that reads another row; and a first part that has read another row
MOVE = f"program move(a int, b int) base part {{ {TAKE} }} part {{ {BRING} }} on failure end end"
LOOK = f"program look(a int, b int) var seen int base part {{ {TAKE} }} part {{ {READ} }} on failure end end"
CHAIN = f"program chain(a int, b int) var seen int base part {{ {TAKE}; {READ} }} part {{ ensure :seen < 1 }} on failure end end"
ASIDE = "@63 select * from u where key = 1"
SUM = "select sum(v) from t"
CASES = {}


def script(lines):
    return "".join(line + "\n" for line in lines).encode()


def done_well(program, lines):
    """Ends the measure where a line of a case is refused, or a unit does not commit."""
    told = subprocess.run([program, "run"], input=lines, capture_output=True, check=True).stdout.decode()
    wrong = re.search(r"^(refused .*|.* failed .*|.* branched .*|.* victim)$", told, re.M)
    if wrong:
        sys.exit(f"bench/growth.py: {wrong[0]}")


@lru_cache(maxsize=None)
def counted(program, lines, limit):
    return instructions([program, "run"], lines, limit)


def script_cost(program, lines, limit):
    """The instructions of a script behind its mark; none where they take too long."""
    mark = lines.index(MARK)
    before, whole = script(lines[:mark]), script(lines[:mark] + lines[mark + 1 :])
    done_well(program, whole)
    costs = [counted(program, each, limit) for each in [before, whole]]
    return None if None in costs else costs[1] - costs[0]


def opening_cost(program, lines, limit):
    """The instructions of an opening of a folder in which these lines were done."""
    done_well(program, script(lines))
    with tempfile.TemporaryDirectory(dir="/dev/shm") as top:
        opening = [program, "run", "--dir", f"{top}/bank"]
        subprocess.run(opening, input=script(lines), stdout=subprocess.DEVNULL, check=True)
        return instructions(opening, b"", limit)


def case(least, cost=script_cost):
    """Puts the lines of a case into the table, with their least size and what is counted of them."""
    def put(function):
        CASES[function.__name__.replace("_", "-")] = (least, function, cost)
        return function
    return put


def opened(statements):
    """A unit of session 1, and all that it holds."""
    return ["@1 begin", *[f"@1 {statement}" for statement in statements]]


def unit(statements):
    return [*opened(statements), "@1 commit"]


def inserts(keys, table="t"):
    return [f"insert into {table} values ({key}, 0)" for key in keys]


def rows(n):
    """The tables, and n rows."""
    return [*TABLES, *unit(inserts(range(n)))]


def calls(name, pairs):
    """Calls of a program whose first part has one statement, by sessions in turn."""
    return [f"@{1 + n % 60} call {name}({a}, {b})" for n, (a, b) in enumerate(pairs)]


def accepted(n):
    """So many programs behind their first parts, each on a row of its own."""
    return [*rows(n), MOVE, *calls("move", [(key, key) for key in range(n)])]


# What has grown faster than its size


@case(500)
def show_locks(n):
    """The locks of one unit with n of them."""
    yield from TABLES
    yield from opened(inserts(range(n)))
    yield MARK
    yield "show locks"


@case(125)
def hot_row(n):
    """Programs that all take from one row, and their release."""
    yield from rows(n)
    yield MOVE
    yield MARK
    yield from calls("move", [(0, key) for key in range(n)])
    yield "go all"


@case(60)
def sum_waits(n):
    """A sum that waits for n programs, and goes on behind the last."""
    yield from accepted(n)
    yield MARK
    yield f"@64 {SUM}"
    yield "go all"


@case(500)
def below_locks(n):
    """A statement of another session for each of n held locks, below them all."""
    yield from TABLES
    yield from opened(inserts(range(1_000_000, 1_000_000 + n)))
    yield MARK
    yield from (f"@2 select * from t where key = {key}" for key in range(n))


@case(1_000)
def falling_inserts(n):
    """Rows of one unit, each with a lower key than the one before."""
    yield from TABLES
    yield MARK
    yield from unit(inserts(reversed(range(n))))


@case(1_000)
def one_row(n):
    """One row that one unit changes n times."""
    yield from rows(1)
    yield MARK
    yield from unit(["update t set v = v + 1 where key = 0"] * n)


@case(125)
def beside_programs(n):
    """A statement for each of n accepted programs, on a table that none uses."""
    yield from accepted(n)
    yield MARK
    yield from [ASIDE] * n


@case(15)
def beside_waiting(n):
    """Four statements for each of n units that wait for another, on a table that none uses."""
    yield from rows(1)
    yield "@64 begin"
    yield "@64 update t set v = v + 1 where key = 0"
    yield from (f"@{session} update t set v = v + 1 where key = 0" for session in range(1, n + 1))
    yield MARK
    yield from [ASIDE] * (4 * n)


@case(30)
def beside_waiter(n):
    """A statement for each of n programs for which one unit waits, on a table that none uses."""
    yield from accepted(n)
    yield f"@64 {SUM}"
    yield MARK
    yield from [ASIDE] * n


def released_together(n, sums):
    """Programs each of which reads what the next has written, the last what the first has; all are released with the last one's end."""
    yield from rows(n)
    yield LOOK
    yield from calls("look", [(key, (key + 1) % n) for key in range(n)])
    yield from (f"@{64 - s} {SUM}" for s in range(sums))
    yield MARK
    yield "go all"


@case(30)
def together_1_sum(n):
    """The ends of programs that read each other's rows, while a sum waits for them."""
    return released_together(n, 1)


@case(15)
def together_32_sums(n):
    """The ends of programs that read each other's rows, while 32 sums wait for them."""
    return released_together(n, 32)


@case(125)
def go_all(n):
    """The later parts of n programs, each on a row of its own."""
    yield from accepted(n)
    yield MARK
    yield "go all"


@case(125)
def show_bases(n):
    yield from accepted(n)
    yield MARK
    yield "show bases"


@case(125)
def chain(n):
    """Programs each of which has read what the one before has written; the last one ends first, and the first one's end releases all."""
    yield from rows(n + 1)
    yield CHAIN
    for name in range(1, n + 1):
        yield f"@{1 + name % 60} call chain({name}, {name - 1})"
        yield f"@{1 + name % 60} step"
    yield MARK
    yield from (f"go 1.{name}" for name in range(n, 0, -1))


# What has been linear


@case(500)
def rising_inserts(n):
    """Rows of one unit, each with a higher key than the one before."""
    yield from TABLES
    yield MARK
    yield from unit(inserts(range(n)))


def whole_table(n, statement):
    yield from rows(n)
    yield MARK
    yield f"@1 {statement}"


@case(500)
def update_all(n):
    """A statement that changes all rows."""
    return whole_table(n, "update t set v = v + 1")


@case(500)
def delete_all(n):
    return whole_table(n, "delete from t")


@case(500)
def select_all(n):
    return whole_table(n, "select * from t")


@case(60)
def long_texts(n):
    """A hundred rows with texts of n bytes."""
    yield "create table t (k int key, v text)"
    yield MARK
    yield from (f"@1 insert into t values ({key}, '{'x' * n}')" for key in range(100))


@case(64)
def definitions_of_programs(n):
    yield from TABLES
    yield MARK
    yield from (MOVE.replace("move", f"move{number}") for number in range(n))


@case(16)
def definitions_of_tables(n):
    """Tables, with a row for each."""
    yield MARK
    yield from (f"create table t{number} (k int key, v int)" for number in range(n))
    yield from (f"@1 {statement}" for number in range(n) for statement in inserts([1], f"t{number}"))


@case(500, cost=opening_cost)
def openings(n):
    """An opening behind n decisions in a folder."""
    yield from rows(1)
    yield from ["@1 update t set v = v + 1 where key = 0"] * n


def exponent(costs):
    """The power of the size by which the part of the cost grows that is not the same at all sizes."""
    first, second = costs[1] - costs[0], costs[2] - costs[1]
    if second <= 0:
        return 0.0
    return math.log2(second / first) if first > 0 else math.inf


def measured(name, program, limit, label):
    """Prints the row of a case; answers whether it keeps the bound."""
    least, lines_of, cost_of = CASES[name]
    sizes, costs = [least, 2 * least, 4 * least], []
    for size in sizes:
        cost = cost_of(program, list(lines_of(size)), limit)
        if cost is None:
            print(f"{label:24} {least:6} skipped: at {size} a run takes more than {limit} s under valgrind", flush=True)
            return False
        costs.append(cost)
    grown = exponent(costs)
    each = " ".join(f"{cost / size:12,.0f}" for cost, size in zip(costs, sizes))
    print(f"{label:24} {least:6} {each}   {grown:5.2f}{'  over' if grown > BOUND else ''}", flush=True)
    return grown <= BOUND


def main():
    parser = argparse.ArgumentParser(usage="bench/growth.py [CASE ..] [--program PATH ..] [--limit SECONDS]")
    parser.add_argument("cases", nargs="*", metavar="CASE", help=f"one of {', '.join(CASES)}")
    parser.add_argument("--limit", type=int, default=LIMIT, help="seconds of the processor that a run may take under valgrind")
    parser.add_argument("--program", action="append", metavar="PATH", help="a program that is built already; given twice, one beside the other")
    words = parser.parse_args()
    unknown = set(words.cases) - set(CASES)
    if unknown:
        parser.error(f"no case is called {' or '.join(sorted(unknown))}")
    paths = words.program or [made("salt", "run")]
    print(f"{'case':24} {'n':>6} {'each at n':>12} {'at 2 n':>12} {'at 4 n':>12}   grows (allowed: {BOUND})")
    kept = True
    for name in words.cases or CASES:
        for place, path in enumerate(paths):
            kept &= measured(name, path, words.limit, "  beside it" if place else name) or place > 0
    return 0 if kept else 1


if __name__ == "__main__":
    sys.exit(main())
