#!/usr/bin/env python3
"""Measures the audit of a transcript beside the run that told it: seconds of the processor, and the most memory that each takes.

A script has transfers of two parts between 100 accounts, sums of all of them, of which a third wait for transfers that are under way, and reads of one account: so many units in all. Prints for each size
what a unit costs to tell and to audit. Ends with 1 where a transcript is not audited yes, where the audit of the greatest takes more than 4 times what telling it took, where a unit of it costs more
than 1.3 times what one of the least does, or where it takes more memory than the run did.

    bench/audit.py [SALT]
"""
import subprocess, sys
from pathlib import Path

from timing import made, processor_seconds, usage

SIZES = [2_000, 20_000]
TIMES, GROWTH = 4, 1.3
ACCOUNTS = 100
DEFINITIONS = [
    "create table acct (id int key, bal int, check (bal >= 0))",
    "program transfer(a int, b int, amt int) base part { update acct set bal = bal - :amt where key = :a } part { update acct set bal = bal + :amt where key = :b } "
    "then end on failure go 3 part { update acct set bal = bal + :amt where key = :a } on failure end end",
]


def script(units):
    """The lines of about so many units."""
    lines = DEFINITIONS + [f"@1 insert into acct values ({account}, 1000)" for account in range(ACCOUNTS)]
    done, call = ACCOUNTS, 0
    while done < units:
        call += 1
        lines.append(f"@{2 + call % 40} call transfer({7 * call % ACCOUNTS}, {(7 * call + 13) % ACCOUNTS}, {1 + call % 50})")
        done += 2
        if call % 8 == 0:
            if call % 3 == 0:
                lines.append("@60 select sum(bal) from acct")
                done += 1
            lines.append("go all")
        if call % 50 == 0:
            lines += ["go all", "@61 select sum(bal) from acct"]
            done += 1
        if call % 5 == 0:
            lines.append(f"@62 select bal from acct where key = {3 * call % ACCOUNTS}")
            done += 1
    return "".join(line + "\n" for line in lines).encode()


def peak(command, script):
    """The most memory that a command takes on a script, in MB."""
    return usage(command, script).ru_maxrss / 1024


def main():
    salt = Path(sys.argv[1]) if len(sys.argv) > 1 else made("salt", "run")
    costs, peaks, failed = [], [], 0
    for units in SIZES:
        lines = script(units)
        story = subprocess.run([salt, "run"], input=lines, capture_output=True, check=True).stdout
        verdict = subprocess.run([salt, "audit"], input=story, capture_output=True).stdout.decode().strip()
        begun = story.count(b" began ")
        ways = [([salt, "run"], lines), ([salt, "audit"], story)]
        told, audited = [processor_seconds(*way) for way in ways]
        peaks = [peak(*way) for way in ways]
        costs.append((told / begun, audited / begun))
        failed |= not verdict.startswith("audit yes ")
        print(f"{begun:6} units, {verdict}: a unit is told in {1e6 * told / begun:6.1f} microseconds and audited in {1e6 * audited / begun:6.1f}; "
              f"the run takes {peaks[0]:.0f} MB, the audit {peaks[1]:.0f} MB", flush=True)
    times, growth = costs[-1][1] / costs[-1][0], costs[-1][1] / costs[0][1]
    print(f"an audit takes {times:.2f} times what telling takes, and a unit of it {growth:.2f} times as much at {SIZES[-1]} as at {SIZES[0]}")
    return 1 if failed or times > TIMES or growth > GROWTH or peaks[1] > peaks[0] else 0


if __name__ == "__main__":
    sys.exit(main())
