#!/usr/bin/env python3
"""Times the proved evaluator: 100,000 rows through a filter of 1, 4 and 16 terms, whose names are found once for all rows.

The program `bench_eval` makes the rows and goes over them so often; the time of a run that goes over them never is taken off. Ends with
1 where the time for a row and a term grew by more than 1.1 from 4 terms to 16.

    bench/exprs.py [OTHER]     with the bench_eval of another commit, the same filters by both, in turns
"""
import subprocess, sys

from timing import compared, seconds

ROWS = 100_000
TIMES = 20
TERMS = [1, 4, 16]
GROWTH = 1.1
TABLE = "create table t (k int key, a int, b int null, s text)"
KINDS = [
    ("numbers", ["k >= 0", "a >= 0", "a < 1000000", "k <> -1"]),
    ("sums", ["k + a >= 0", "a - k < 7", "a * 3 >= k", "k + 1 > a"]),
    ("texts", ["s >= 'item'", "s < 'j'", "s <> 'x'", "s > 'a'"]),
    ("NULL", ["b is null or b >= 0", "b <> -1 or b is null", "b is null or k >= 0", "b >= 0 or b is null"]),
]


def filtered(terms, count):
    return " and ".join(f"({terms[n % len(terms)]})" for n in range(count))


def script(times, condition):
    return f"{TABLE}\n{ROWS} {times}\nselect * from t where {condition}\n".encode()


def measured(program, terms, count):
    """The time of going over the rows once, each of which the filter keeps."""
    condition = filtered(terms, count)
    gone_over = script(TIMES, condition)
    told = subprocess.run([program], input=gone_over, capture_output=True, check=True).stdout
    if told != f"{ROWS * TIMES} kept, 0 left out, 0 causes\n".encode():
        sys.exit(f"bench/exprs.py: {condition} gives {told}")
    return (seconds([program], gone_over) - seconds([program], script(0, condition))) / TIMES


def main():
    programs = compared("bench_eval")
    grew = False
    for kind, terms in KINDS:
        for name, program in programs:
            times = {count: measured(program, terms, count) for count in TERMS}
            for count, time in times.items():
                rate = ROWS / time / 1e6
                print(f"{kind:8} {count:3} terms, {name}: {rate:6.2f} million rows/s, {time / ROWS / count * 1e9:6.1f} ns a term", flush=True)
            grew = grew or name == "this" and times[16] / 16 > GROWTH * times[4] / 4
    return 1 if grew else 0


if __name__ == "__main__":
    sys.exit(main())
