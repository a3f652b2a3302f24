#!/usr/bin/env python3
"""What many rows in a folder take: of its files, of an opening, and of memory.

Fills a folder in memory with so many rows of two numbers and a short text, each by a transaction of its own, in an order of keys by chance. Prints how large the
files are, the time of an opening (by the clock, the least of a few), and the most memory that an opening takes, and one that sums all rows behind it. Ends
with 1 where 100,000 rows are opened in a second or more, or where an opening takes more than 100 bytes of memory a row besides what it takes of few rows.

    bench/many_rows.py [PROGRAM]
"""
import os, re, subprocess, sys, tempfile, time
from pathlib import Path

from statements import inserts, salt_script
from timing import made, seconds, usage

SIZES = [1_000, 100_000, 1_000_000]
AT_ONCE = 200_000
# A program waits where it has taken nothing of the processor for so many seconds.
QUIET = 1.0
OPENED_IN = 1.0
BYTES_OF_A_ROW = 100
SUM = b"@1 select sum(n) from t\n"


def filled(program, top, rows):
    """A folder of so many rows, which as many runs put there as are needed: a script has a length that it may not pass."""
    folder, statements = f"{top}/{rows}", inserts(rows)
    command = [program, "run", "--dir", folder]
    usage(command, salt_script(statements[:AT_ONCE]))
    for at in range(AT_ONCE, rows, AT_ONCE):
        usage(command, "".join(f"@1 {text}\n" for text in statements[at : at + AT_ONCE]).encode())
    return folder


def memory(command, script):
    """The most memory that a command has taken when it has done a script and waits for more."""
    running = subprocess.Popen(command, stdin=subprocess.PIPE, stdout=subprocess.DEVNULL)
    running.stdin.write(script)
    running.stdin.flush()
    busy, before = processor_time(running.pid), None
    while busy != before:
        time.sleep(QUIET)
        busy, before = processor_time(running.pid), busy
    most = re.search(r"VmHWM:\s+(\d+) kB", Path(f"/proc/{running.pid}/status").read_text())[1]
    running.stdin.close()
    if running.wait() != 0:
        sys.exit(f"bench: {command} ends with {running.returncode}")
    return 1024 * int(most)


def processor_time(process):
    """The ticks of the processor that a process has taken."""
    return Path(f"/proc/{process}/stat").read_text().rsplit(")")[-1].split()[11:13]


def measured(program, top, rows):
    """Bytes of the files, the seconds of an opening, and the bytes of memory of one, alone and with a sum behind it."""
    folder = filled(program, top, rows)
    command = [program, "run", "--dir", folder]
    size = sum(file.stat().st_size for file in os.scandir(folder))
    opened, summed = (memory(command, script) for script in [b"", SUM])
    return size, seconds(command, b""), opened, summed


def main():
    program = Path(sys.argv[1]) if len(sys.argv) > 1 else made("salt", "run")
    failed, few = False, None
    for rows in SIZES:
        with tempfile.TemporaryDirectory(dir="/dev/shm") as top:
            size, took, opened, summed = measured(program, top, rows)
        few = few or opened
        print(f"{rows:9,} rows: files of {size / 1e6:7.1f} MB, opened in {took:6.3f} s, memory {opened / 1e6:6.1f} MB, with a sum of all rows {summed / 1e6:6.1f} MB", flush=True)
        failed |= rows == 100_000 and OPENED_IN <= took or BYTES_OF_A_ROW * rows < opened - few
    return 1 if failed else 0


if __name__ == "__main__":
    sys.exit(main())
