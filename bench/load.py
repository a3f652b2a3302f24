#!/usr/bin/env python3
"""Times `salt load N` beside sqlite3 in memory on the same units, each a transaction of its own.

A workload has 100 deposits, N transfers, each a BASE program of two parts, and a sum behind each fiftieth; sqlite3 gets a statement for each unit. Prints units per
second of the processor for each size, the least of rounds in turns, the ratio, what sqlite3 does with statements that it has prepared, how much a unit's cost grew from
the first size to the last, and the memory that a unit takes, with its story. Ends with 1 where the total is wrong, two runs differ, Salt is at the last size less
than 1.2 times as fast as sqlite3, or the cost grew by more than 1.2.
"""
import sqlite3, subprocess, sys, time

from timing import least_in_turns, made, usage

SIZES = [2_000, 20_000]
GROWTH = 1.2
RATIO = 1.2
ROUNDS = 12
ACCOUNTS = 100
TABLE = "create table acct (id integer primary key, bal int, check (bal >= 0));"
STATEMENTS = {
    "take": "update acct set bal = bal - ? where id = ? and bal >= ?",
    "bring": "update acct set bal = bal + ? where id = ?",
    "sum": "select sum(bal) from acct",
}


def summary(program, calls):
    """The words of the line that is printed, by their names."""
    words = subprocess.run([program, "load", str(calls)], capture_output=True, check=True).stdout.decode().split()
    return dict(zip(words[::2], words[1::2]))


def units(calls):
    """The statement of each unit, by its name, with its values; the transfer is not made whose account has too little."""
    balances, under_way = [1000] * ACCOUNTS, []
    for call in range(1, calls + 1):
        taken, brought, amount = 7 * call % ACCOUNTS, (7 * call + 13) % ACCOUNTS, 1 + call % 50
        yield "take", (amount, taken, amount)
        if balances[taken] >= amount:
            balances[taken] -= amount
            under_way.append((brought, amount))
        if call % 8 == 0 or call % 50 == 0 or call == calls:
            for account, brings in under_way:
                balances[account] += brings
                yield "bring", (brings, account)
            under_way = []
        if call % 50 == 0:
            yield "sum", ()


def text_of(name, values):
    """The statement as the shell reads it."""
    parts = STATEMENTS[name].split("?")
    return "".join(part + str(value) for part, value in zip(parts, [*values, ";"]))


def sqlite_script(calls):
    yield TABLE
    for account in range(ACCOUNTS):
        yield f"insert into acct values ({account}, 1000);"
    for name, values in units(calls):
        yield text_of(name, values)


def prepared_seconds(calls):
    """The time of the processor in which sqlite3 does the units with statements that it has prepared, called by Python's own module: what Python does
    for a call is in it."""
    database = sqlite3.connect(":memory:", isolation_level=None)
    database.execute(TABLE)
    database.executemany("insert into acct values (?, 1000)", [(account,) for account in range(ACCOUNTS)])
    work = [(STATEMENTS[name], values) for name, values in units(calls)]
    start = time.process_time()
    for text, values in work:
        database.execute(text, values).fetchall()
    return time.process_time() - start


def processor_seconds(command, script):
    used = usage(command, script)
    return used.ru_utime + used.ru_stime


def peak_memory(program, calls):
    """The most bytes that a run takes."""
    code = (
        "import resource, subprocess, sys; subprocess.run(sys.argv[1:], stdout=subprocess.DEVNULL, check=True); "
        "print(resource.getrusage(resource.RUSAGE_CHILDREN).ru_maxrss * 1024)"
    )
    told = subprocess.run([sys.executable, "-c", code, program, "load", str(calls)], capture_output=True, check=True).stdout
    return int(told)


def main():
    program, costs, sizes, failed = made("salt", "run"), [], [], 0
    for calls in SIZES:
        told = summary(program, calls)
        if told != summary(program, calls) or told["total"] != str(1000 * ACCOUNTS):
            print(f"load {calls}: {told}", flush=True)
            failed = 1
        done, script = int(told["units"]), [*sqlite_script(calls)]
        runs = [
            lambda: processor_seconds([program, "load", str(calls)], b""),
            lambda: processor_seconds(["sqlite3", ":memory:"], "\n".join(script).encode()),
            lambda: prepared_seconds(calls),
        ]
        salt, shell, prepared = least_in_turns(runs, ROUNDS)
        units_of_shell, count = len(script) - 1, len([*units(calls)])
        costs.append(salt / done)
        sizes.append((done, peak_memory(program, calls)))
        ratio = (done / salt) / (units_of_shell / shell)
        print(f"load {calls:6}: {done:6} units, {done / salt:8.0f} a second; sqlite3 {units_of_shell:6}, {units_of_shell / shell:8.0f} a second, ratio {ratio:.2f}; with prepared statements {count / prepared:8.0f}", flush=True)
    failed |= ratio < RATIO
    (few, least), (many, most) = sizes
    print(f"a unit takes {(most - least) / (many - few):.0f} bytes of memory, with its story")
    growth = costs[-1] / costs[0]
    print(f"a unit costs {growth:.2f} times as much at {SIZES[-1]} as at {SIZES[0]}")
    return 1 if failed or growth > GROWTH else 0


if __name__ == "__main__":
    sys.exit(main())
