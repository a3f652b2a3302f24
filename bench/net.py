#!/usr/bin/env python3
"""What commits cost over messages (`--net`), of which none is disturbed, beside commits that go over none.

A unit changes a row in each of so many partitions. Prints the instructions of a unit without `--net` and with it, what begins and ends a run taken off; the bytes that the
list of events takes for a unit, and those of memory that a unit takes more in all. Ends with 1 where the stories differ, units cost over 1.3 times as much, or the events of a
unit that changes two rows take over 400 bytes.

    bench/net.py [--program PATH] [--units N]
"""
import argparse, subprocess, sys
from pathlib import Path

from timing import instructions, made

CHANGED = [1, 2, 4, 8]
PARTS = 8
RATIO = 1.3
EVENT = 32
MOST = 400
LIMIT = 600


def script(units, changed):
    """A table with a row in each partition, and units that add to so many of them."""
    yield "create table t (k int key, v int)"
    for key in range(PARTS):
        yield f"@1 insert into t values ({key}, 0)"
    for unit in range(units):
        first = unit % PARTS
        updates = [f"@1 update t set v = v + 1 where key = {(first + n) % PARTS}" for n in range(changed)]
        yield from updates if changed == 1 else ["@1 begin", *updates, "@1 commit"]


def text(units, changed):
    return ("\n".join(script(units, changed)) + "\n").encode()


def command(program, words):
    return [program, "run", "--parts", str(PARTS), *words]


def story(program, words, asked):
    return subprocess.run(command(program, words), input=asked, stdout=subprocess.PIPE, check=True).stdout


def unit_cost(program, words, units, changed):
    """The instructions of a unit: of so many more of them than a run has that does few."""
    few = units // 10
    most, least = (instructions(command(program, words), text(n, changed), LIMIT) for n in (units, few))
    return (most - least) / (units - few)


def peak_memory(program, words, asked):
    """The most bytes that a run takes."""
    code = (
        "import resource, subprocess, sys; subprocess.run(sys.argv[1:], stdout=subprocess.DEVNULL, check=True); "
        "print(resource.getrusage(resource.RUSAGE_CHILDREN).ru_maxrss * 1024)"
    )
    told = subprocess.run([sys.executable, "-c", code, *map(str, command(program, words))], input=asked, capture_output=True, check=True).stdout
    return int(told)


def unit_memory(program, units, changed):
    """What a unit takes more of memory over messages."""
    asked = text(units, changed)
    without, over = (peak_memory(program, words, asked) for words in ([], ["--net"]))
    return (over - without) / units


def events_of(changed):
    """How many events an undisturbed commit has: its start, and of each node the deliveries of what asks it, of its vote, of the decision and that it is done."""
    return 1 + 4 * changed


def main():
    parser = argparse.ArgumentParser()
    parser.add_argument("--program", help="a program that is built already")
    parser.add_argument("--units", type=int, default=2000)
    words = parser.parse_args()
    program = Path(words.program or made("salt", "run")).resolve()
    print(f"{'rows changed':>12} {'direct':>10} {'over messages':>14} {'times':>6}   instructions of a unit; {'events':>6} {'memory':>7}   bytes of a unit")
    failed = 0
    for changed in CHANGED:
        asked = text(200, changed)
        if story(program, [], asked) != story(program, ["--net"], asked):
            print(f"{changed} rows: the stories differ", flush=True)
            failed = 1
        direct, over = (unit_cost(program, net, words.units, changed) for net in ([], ["--net"]))
        more = unit_memory(program, 10 * words.units, changed)
        print(f"{changed:12} {direct:10,.0f} {over:14,.0f} {over / direct:6.2f} {EVENT * events_of(changed):33} {more:7,.0f}", flush=True)
        failed |= over / direct > RATIO
    failed |= EVENT * events_of(2) > MOST
    return failed


if __name__ == "__main__":
    sys.exit(main())
