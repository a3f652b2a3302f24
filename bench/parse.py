#!/usr/bin/env python3
"""Times the proved parser: 100,000 statements of mixed kinds and 20,000 programs, one expression of 16, 32 and 64 terms, and lines of
up to 65,536 bytes with one list each.

The program `bench_parse` reads a statement or a program from each line. Beside it stands `explain` of the same statements in sqlite3,
which parses and plans them (`key` is the column `id` there, ENSURE a SELECT, and INTO is left out). Ends with 1 where the time for
a term grew by more than 1.1 from 16 terms to 64, or that for a byte by more than 1.3 from a quarter of the longest line to the whole.

    bench/parse.py [OTHER]     with the bench_parse of another commit, the same statements by both, in turns
"""
import random, shutil, subprocess, sys

from timing import CRATES, made, seconds

STATEMENTS = 100_000
EXPRESSIONS = 20_000
TERMS = [16, 32, 64]
GROWTH = 1.1
PROGRAMS = 20_000
LINE = 65_536
LINES = 40
BYTE_GROWTH = 1.3
TURNS = 3
PROGRAM = CRATES / "bench_parse/out/bench_parse"

FORMS = [
    "insert into t values ({0}, 'it''s', {1} + 2 * {0})",
    "select * from t where key = {0}",
    "select a, b from t where key between {0} and {1} and not b = 'x'",
    "select sum(a) from t where a < {0} or a >= {1} and b <> 'y'",
    "select a into :x from t where key = {0}",
    "update t set a = a - {0}, b = b || 'z' where key = {1}",
    "delete from t where a = {0} * (a + {1})",
    "ensure {0} <= {1} or {0} > {1}",
]


# before a list's items, an item, and behind them; the last two spell nothing, so that each item is read twice
LISTS = [
    ("values", "insert into t values (1", ",1", ")"),
    ("null values", "insert into t values (null", ",null", ")"),
    ("sets", "update t set a=1", ",a=1", ""),
    ("names", "select a", ",a", " from t"),
    ("terms", "ensure 1", "+1", ""),
    ("nots", "ensure ", "not ", "a"),
    ("parameters", "program p(a int", ",a int", ")acid{ensure 1}end"),
    ("variables", "program p()var a int", ",a int", " acid{ensure 1}end"),
    ("statements", "program p()acid{ensure 1", ";ensure 1", "}end"),
    ("parts", "program p()base ", "part{ensure 1} ", "end"),
    ("statements, unended", "program p()acid{ensure 1", ";ensure 1", "}"),
    ("parts, unended", "program p()base ", "part{ensure 1} ", "part"),
]


def programs():
    numbers = random.Random(2)
    found = []
    for n in range(PROGRAMS):
        block = "; ".join(FORMS[(n + k) % len(FORMS)].format(numbers.randrange(2**40), k) for k in range(3))
        part = f"part {{ {block} }} then end on failure retry 3 then go 1"
        found.append(f"program p{n}(a int, b text) var x int base {part} {part} end")
    return found


def listed(before, item, behind, size):
    return before + item * ((size - len(before) - len(behind)) // len(item)) + behind


def statements():
    numbers = random.Random(1)
    return [FORMS[n % len(FORMS)].format(numbers.randrange(2**40), numbers.randrange(2**40)) for n in range(STATEMENTS)]


def expressions(terms):
    return ["ensure " + " + ".join(str(n + k) for k in range(terms)) for n in range(EXPRESSIONS)]


def in_sqlite(statement):
    words = statement.replace("ensure ", "select ").replace(" into :x", "").replace("where key ", "where id ")
    return f"explain {words};"


def script(lines):
    return "".join(line + "\n" for line in lines).encode()


def long_lines():
    """Times lines with one list each, and tells whether each kind takes time in proportion."""
    linear = True
    for name, before, item, behind in LISTS:
        costs = [seconds([PROGRAM], script([listed(before, item, behind, size)] * LINES)) / size / LINES for size in [LINE // 4, LINE]]
        growth = costs[1] / costs[0]
        linear = linear and growth <= BYTE_GROWTH
        print(f"salt     {name:20} {costs[1] * 1e9:6.1f} ns a byte, {growth:.2f} of that at a quarter (allowed: {BYTE_GROWTH})", flush=True)
    return linear


def beside(other, lines):
    """Times the same lines by this program and another, in turns."""
    text = script(lines)
    ours, theirs = zip(*((seconds([PROGRAM], text), seconds([other], text)) for _ in range(TURNS)))
    print(f"here {min(ours):.3f} s, by {other} {min(theirs):.3f} s: {min(ours) / min(theirs):.2f} of that", flush=True)


def main():
    made("bench_parse")
    mixed = statements()
    took = seconds([PROGRAM], script(mixed))
    print(f"salt     {STATEMENTS} statements {took:8.3f} s {STATEMENTS / took:10.0f} statements/s", flush=True)
    if shutil.which("sqlite3"):
        tables = ["create table t (id integer primary key, b text, a int);"]
        took = seconds(["sqlite3", ":memory:"], script(tables + [in_sqlite(statement) for statement in mixed]))
        print(f"sqlite3  {STATEMENTS} statements {took:8.3f} s {STATEMENTS / took:10.0f} statements/s (explain)", flush=True)
    else:
        print("sqlite3 is not installed: nothing to compare with (apt-get install sqlite3)")
    if len(sys.argv) > 1:
        beside(sys.argv[1], mixed)
    took = seconds([PROGRAM], script(programs()))
    print(f"salt     {PROGRAMS} programs   {took:8.3f} s {PROGRAMS / took:10.0f} programs/s of six statements", flush=True)
    costs = []
    for terms in TERMS:
        took = seconds([PROGRAM], script(expressions(terms)))
        costs.append(took / EXPRESSIONS / terms)
        print(f"salt     {terms:3} terms {took:8.3f} s {costs[-1] * 1e9:8.0f} ns a term", flush=True)
    growth = costs[-1] / costs[0]
    print(f"a term's cost at {TERMS[-1]} terms is {growth:.2f} of that at {TERMS[0]} (allowed: {GROWTH})")
    linear = long_lines()
    return 0 if growth <= GROWTH and linear else 1


if __name__ == "__main__":
    sys.exit(main())
