#!/usr/bin/env python3
"""What an opening costs behind 1,000 accepted programs that a process left unfinished, with `--early` and without.

The programs have 1, 4 or 16 statements left. Instructions of the opening alone are counted, as in growth.py, over a folder in which the first
parts were done; each opening gets a copy of it. Ends with 1 where an early opening costs over 1.05 times as much behind programs with 16
statements left as behind those with 1, what their longer definition takes to be read aside.

    bench/early.py [--program PATH] [--programs N]
"""
import argparse, shutil, sys, tempfile
from pathlib import Path
from subprocess import DEVNULL, run

from timing import instructions, made

LEFT = [1, 4, 16]
GROWTH = 1.05
LIMIT = 600


def lines(programs, left):
    yield "create table t (k int key, v int)"
    rest = "; ".join(["update t set v = v + 1 where key = :a"] * left)
    yield f"program take(a int) base part {{ update t set v = v - 1 where key = :a }} part {{ {rest} }} on failure end end"
    for key in range(programs):
        yield f"@1 insert into t values ({key}, 0)"
    for key in range(programs):
        yield f"@{1 + key % 60} call take({key})"


def opening(program, folder, words):
    """The instructions of an opening over a copy of the folder."""
    with tempfile.TemporaryDirectory() as top:
        shutil.copytree(folder, f"{top}/db")
        return instructions([program, "run", "--dir", f"{top}/db", *words], b"", LIMIT)


def costs(program, programs, left):
    """Without `--early`, with it, and with it where no program was called."""
    found = []
    for calls in (True, False):
        with tempfile.TemporaryDirectory() as top:
            text = [line for line in lines(programs, left) if calls or " call " not in line]
            run([program, "run", "--dir", f"{top}/db"], input=("\n".join(text) + "\n").encode(), stdout=DEVNULL, check=True)
            found.append([opening(program, f"{top}/db", words) for words in ([], ["--early"])])
    (late, early), (_, none) = found
    return late, early, none


def main():
    parser = argparse.ArgumentParser()
    parser.add_argument("--program", help="a program that is built already")
    parser.add_argument("--programs", type=int, default=1000)
    words = parser.parse_args()
    program = Path(words.program or made("salt", "run")).resolve()
    print(f"{'statements left':>16} {'finished first':>16} {'early':>14} {'no program':>14}   millions of instructions of an opening, {words.programs} programs")
    early_costs = []
    for left in LEFT:
        late, early, none = costs(program, words.programs, left)
        early_costs.append(early - none)
        print(f"{left:16} {late / 1e6:16,.1f} {early / 1e6:14,.1f} {none / 1e6:14,.1f}", flush=True)
    growth = early_costs[-1] / early_costs[0]
    print(f"an early opening behind programs with {LEFT[-1]} statements left costs {growth:.2f} of one behind those with {LEFT[0]} (allowed: {GROWTH})")
    return 0 if growth <= GROWTH else 1


if __name__ == "__main__":
    sys.exit(main())
