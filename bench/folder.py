#!/usr/bin/env python3
"""Times the lines of the workload over a folder, beside sqlite3 over a file with a log that is synced at each commit; and openings.

The lines of `load N` are run as a script over devices in memory and over a folder. Prints units per second of both and of sqlite3, how many
writes and syncs of devices a unit takes (by strace: 4 for its decision, and 4 for each partition that it changes), and how large the files are, and
how long an opening takes, behind 1,000 to 100,000 decisions, over a folder in memory. Ends with 1 where a unit takes more calls, or files or an
opening grow with the decisions.
"""
import os, re, shutil, subprocess, sys, tempfile, time
from pathlib import Path

from load import sqlite_script
from timing import made, processor_seconds, seconds

SIZES = [2_000, 20_000]
DECISIONS = [1_000, 10_000, 100_000]
PROGRAM = (
    "program transfer(a int, b int, amt int) base part { update acct set bal = bal - :amt where key = :a }"
    " part { update acct set bal = bal + :amt where key = :b } then end on failure go 3"
    " part { update acct set bal = bal + :amt where key = :a } on failure end end"
)


def lines(calls):
    yield "create table acct (id int key, bal int, check bal >= 0)"
    yield PROGRAM
    for account in range(100):
        yield f"@1 insert into acct values ({account}, 1000)"
    for i in range(1, calls + 1):
        yield f"@{1 + i % 63} call transfer({7 * i % 100}, {(7 * i + 13) % 100}, {1 + i % 50})"
        if i % 8 == 0:
            yield "go all"
        if i % 50 == 0:
            yield "@64 select sum(bal) from acct"
            yield "go all"
            yield "go all"
    yield "go all"
    yield "go all"
    yield "@64 select sum(bal) from acct"


def script(calls):
    return ("\n".join(lines(calls)) + "\n").encode()


def over(folder, program, text):
    """Seconds of a run over a new folder."""
    shutil.rmtree(folder, ignore_errors=True)
    start = time.monotonic()
    subprocess.run([program, "run", "--dir", folder], input=text, stdout=subprocess.DEVNULL, check=True)
    return time.monotonic() - start


def sqlite_over(path, calls):
    statements = "pragma journal_mode = wal; pragma synchronous = full;\n" + "\n".join(sqlite_script(calls))
    start = time.monotonic()
    subprocess.run(["sqlite3", path], input=statements.encode(), stdout=subprocess.DEVNULL, check=True)
    return time.monotonic() - start


def device_calls(folder, program, text):
    """Writes and syncs of files in the folder, by strace; those of the standard streams aside."""
    shutil.rmtree(folder, ignore_errors=True)
    # (strace tells a file by its whole path)
    folder = str(Path(folder).resolve())
    with tempfile.NamedTemporaryFile("r") as trace:
        subprocess.run(
            ["strace", "-f", "-y", "-e", "trace=write,pwrite64,fsync,fdatasync", "-o", trace.name, program, "run", "--dir", folder],
            input=text, stdout=subprocess.DEVNULL, check=True,
        )
        calls = [line for line in trace if folder in line]
    writes = sum(1 for call in calls if re.search(r"\b(write|pwrite64)\(", call))
    return writes, len(calls) - writes


def decided(program, text):
    told = subprocess.run([program, "run"], input=text, capture_output=True, check=True).stdout.decode()
    return len(re.findall(r" (?:committed|branched) \d+", told))


def openings(program):
    """Bytes of the files, and seconds of an opening, behind so many decisions, each an update of one of 100 rows."""
    found = []
    with tempfile.TemporaryDirectory(dir="/dev/shm") as top:
        for count in DECISIONS:
            folder = f"{top}/{count}"
            rows = ["create table t (id int key, v int)"] + [f"@1 insert into t values ({k}, 0)" for k in range(100)]
            rows += [f"@1 update t set v = v + 1 where key = {k % 100}" for k in range(count - 100)]
            over(folder, program, ("\n".join(rows) + "\n").encode())
            size = sum(file.stat().st_size for file in os.scandir(folder))
            found.append((count, size, seconds([program, "run", "--dir", folder], b"")))
    return found


def main():
    program, failed = made("salt", "run"), 0
    with tempfile.TemporaryDirectory(dir=".") as top:
        for calls in SIZES:
            text = script(calls)
            units = decided(program, text)
            memory = processor_seconds([program, "run"], text)
            files = over(f"{top}/bank", program, text)
            sqlite = sqlite_over(f"{top}/{calls}.db", calls)
            print(f"{calls:6} transfers, {units:6} decisions: in memory {units / memory:8.0f} a second, in a folder {units / files:6.0f}, sqlite3 with a synced log {units / sqlite:6.0f}", flush=True)
        text = script(200)
        units = decided(program, text)
        writes, syncs = device_calls(f"{top}/calls", program, text)
        first = 28
        print(f"{writes} writes and {syncs} syncs for an opening of {first} calls and {units} decisions: {(writes + syncs - first) / units:.2f} a decision", flush=True)
        failed |= not 0 < writes + syncs - first <= 12 * units
    found = openings(program)
    for count, size, took in found:
        print(f"behind {count:6} decisions {size:7} bytes, opened in {took:.4f} s", flush=True)
    (_, small, least), (_, large, most) = found[0], found[-1]
    return 1 if failed or large > 2 * small or most > 3 * least else 0


if __name__ == "__main__":
    sys.exit(main())
