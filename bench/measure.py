#!/usr/bin/env python3
"""Times the proved program on scripts of 10,000, 20,000 and 40,000 lines, beside sqlite3 in memory.

A script is one `create table`, then inserts for its first half and selects of random keys for the
rest; every line is a transaction of its own. Prints lines per second and how much a line's cost grew
from one size to the next; ends with 1 where it grew by more than 1.3 from the first size to the last.
"""
import random, shutil, subprocess, sys
from pathlib import Path

from timing import seconds

SIZES = [10_000, 20_000, 40_000]
GROWTH = 1.3
TOP = Path(__file__).resolve().parent.parent


def statements(lines):
    """The statements of a script of so many lines, without their sessions."""
    numbers = random.Random(lines)
    keys = numbers.sample(range(-2**40, 2**40), lines // 2)
    inserts = [f"insert into t values ({key}, {n})" for n, key in enumerate(keys)]
    selects = [f"select * from t where key = {numbers.choice(keys)}" for _ in range(lines - len(keys) - 1)]
    return inserts + selects


def salt_script(lines):
    spread = [f"@{1 + n % 64} {text}" for n, text in enumerate(statements(lines))]
    return "\n".join(["create table t (id int key, v int)", *spread, ""]).encode()


def sqlite_script(lines):
    texts = [text.replace("key =", "id =") + ";" for text in statements(lines)]
    return "\n".join(["create table t (id integer primary key, v int);", *texts, ""]).encode()


def measure(name, command, script_of):
    """Prints a row for each size; answers the growth of a line's cost from the first size to the last."""
    costs = []
    for lines in SIZES:
        took = seconds(command, script_of(lines))
        costs.append(took / lines)
        growth = f"{costs[-1] / costs[-2]:.2f}" if len(costs) > 1 else "-"
        print(f"{name:8} {lines:7} lines {took:8.3f} s {lines / took:12.0f} lines/s   growth {growth}", flush=True)
    return costs[-1] / costs[0]


def main():
    subprocess.run([TOP / "salt", "run"], input=b"", stdout=subprocess.DEVNULL, check=True)
    growth = measure("salt", [TOP / "crates/salt/out/salt", "run"], salt_script)
    if shutil.which("sqlite3"):
        measure("sqlite3", ["sqlite3", ":memory:"], sqlite_script)
    else:
        print("sqlite3 is not installed: nothing to compare with (apt-get install sqlite3)")
    print(f"a line's cost at {SIZES[-1]} lines is {growth:.2f} of that at {SIZES[0]} (allowed: {GROWTH})")
    return 0 if growth <= GROWTH else 1


if __name__ == "__main__":
    sys.exit(main())
