#!/usr/bin/env python3
"""Times logs and a partition on devices in memory: a million appends to logs of 1,000 to 1,000,000 entries, openings of logs of 1,000 to
100,000, and a partition of 1,000 to 100,000 rows that is opened and read by key.

The program `bench_devices` does each so often that a run takes long enough; of openings and reads the time of a run that does none is taken
off. Ends with 1 where an append to the longest log, an entry of it, or a row of the largest partition costs more than so many times one of
the smallest.

    bench/devices.py [OTHER]     with the bench_devices of another commit, the same by both, in turns
"""
import subprocess, sys

from timing import compared, seconds

APPENDS = [1_000, 20_000, 1_000_000]
WORK = 1_000_000
SIZES = [1_000, 10_000, 100_000]
APPEND_GROWTH = 1.5
OPEN_GROWTH = 1.5
# a map of a hundred times as many rows is deeper, and leaves the processor's caches
ROW_GROWTH = 3


def done(program, what, count, times):
    """The time of doing it, and nothing but that it was done."""
    words = f"{what}\n{count} {times}\n".encode()
    told = subprocess.run([program], input=words, capture_output=True, check=True).stdout
    if told != f"{count * times}\n".encode():
        sys.exit(f"bench/devices.py: {what} {count} {times} gives {told}")
    return seconds([program], words)


def appends(name, program):
    """Whether an append to a long log costs as much as one to a short log. As many are made of each length."""
    costs = []
    for size in APPENDS:
        cost = done(program, "append", size, WORK // size) / WORK
        costs.append(cost)
        print(f"append, {name}: to {size:7} entries, each {cost * 1e9:6.0f} ns", flush=True)
    return costs[-1] <= APPEND_GROWTH * costs[0]


def each_of(name, program, what, thing, growth):
    """Whether one costs as much among many as among few."""
    costs = []
    for size in SIZES:
        times = WORK // size
        cost = (done(program, what, size, times) - done(program, what, size, 0)) / (size * times)
        costs.append(cost)
        print(f"{what}, {name}: of {size:7} {thing} each {cost * 1e9:6.0f} ns", flush=True)
    return costs[-1] <= growth * costs[0]


def main():
    even = True
    for name, program in compared("bench_devices"):
        kept = [
            appends(name, program),
            each_of(name, program, "open", "entries", OPEN_GROWTH),
            each_of(name, program, "rows", "rows", ROW_GROWTH),
            each_of(name, program, "get", "rows", ROW_GROWTH),
        ]
        even = even and (name != "this" or all(kept))
    return 0 if even else 1


if __name__ == "__main__":
    sys.exit(main())
