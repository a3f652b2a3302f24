#!/usr/bin/env python3
"""Times what is kept of locks, programs and waits, in processor time.

- locks: `take`, and `drop_owner` of an owner with one lock, beside 10 to 10,000 locks on other keys, on the least key
  and on the greatest. There is no clock to ask, so a `take` is told by rounds that take a tenth as many locks as there are, at least ten,
  and drop them together (what that drop costs is in it); and a drop by rounds of one of each, less a `take`
- programs: 10 to 1,000 that read from each other in a chain, or all from one, from the first reading to the end of the last. Those
  of a chain finish from the last to the first, from the first on (hot), or from the second on and the first last (late)
- waits: the victim of 63 units that wait each for the next, each for all later ones, and in one circle

The program `bench_keeps` makes them and asks so often; for locks and waits the time of a run that asks never is taken off. Ends with 1
where an answer is wrong.

    bench/keeps.py [OTHER]     with the bench_keeps of another commit, the same by both, in turns
"""
import subprocess, sys

from timing import compared, processor_seconds

LOCKS = [10, 100, 1_000, 10_000]
LOCK_TIMES = {10: 400_000, 100: 200_000, 1_000: 40_000, 10_000: 4_000}
PROGRAMS = [10, 100, 1_000]
PROGRAM_TIMES = {10: 10_000, 100: 1_000, 1_000: 100}
UNITS = 63
WAIT_TIMES = 1_000


def answered(program, kind, many, times, answer):
    """The line that asks; its answer is looked at."""
    line = f"{kind} {many} {times}\n".encode()
    told = subprocess.run([program], input=line, capture_output=True, check=True).stdout
    if told != f"{answer}\n".encode():
        sys.exit(f"bench/keeps.py: {line} gives {told}")
    return line


def measured(program, kind, many, times, answer, nothing):
    """The processor time of one call, where `nothing` is the answer of a run that makes all and asks never."""
    asked = answered(program, kind, many, times, answer)
    return (processor_seconds([program], asked) - processor_seconds([program], answered(program, kind, many, 0, nothing))) / times


def rows():
    for kind in ["chain", "star", "hot", "late"]:
        for many in PROGRAMS:
            yield kind, many, PROGRAM_TIMES[many], many * PROGRAM_TIMES[many], 0
    for kind, found in [("next", 0), ("later", 0), ("circle", WAIT_TIMES)]:
        yield kind, UNITS, WAIT_TIMES, found, 0


def shown(kind, many, name, took):
    print(f"{kind:14} {many:6}, {name}: {took * 1e6:14.3f} µs", flush=True)


def locks(programs, key, many):
    """The times of a `take`, and of the drop of one lock."""
    taken = max(many // 10, 10)
    for name, program in programs:
        take = measured(program, f"many {key}", many, LOCK_TIMES[many] // taken, many, many) / taken
        shown(f"take {key}", many, name, take)
        shown(f"drop {key}", many, name, measured(program, f"one {key}", many, LOCK_TIMES[many], many, many) - take)


def main():
    programs = compared("bench_keeps")
    for key in ["least", "greatest"]:
        for many in LOCKS:
            locks(programs, key, many)
    for kind, many, times, answer, nothing in rows():
        for name, program in programs:
            shown(kind, many, name, measured(program, kind, many, times, answer, nothing))
    return 0


if __name__ == "__main__":
    sys.exit(main())
