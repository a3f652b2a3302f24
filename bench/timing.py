"""How the measures time a program, and count what it does."""
import os, re, resource, signal, subprocess, sys, tempfile, time
from pathlib import Path

ROUNDS = 3
CRATES = Path(__file__).resolve().parent.parent / "crates"


def made(name, *words):
    """The program of a crate, proved and built; the words are those of a run that ends well."""
    crate = CRATES / name
    with (crate / "stdin").open("rb") as example:
        subprocess.run(["rt", "run", "--", *words] if words else ["rt", "run"], cwd=crate, stdin=example, stdout=subprocess.DEVNULL, stderr=subprocess.DEVNULL, check=True)
    return crate / "out" / name


def compared(name):
    """The program of a crate, and beside it the one that the command line names."""
    programs = [("this", made(name))]
    if len(sys.argv) > 1:
        programs.append(("other", Path(sys.argv[1])))
    return programs


def seconds(command, script):
    """The least wall time of a few rounds; a program that fails ends the measure."""
    best = None
    for _ in range(ROUNDS):
        start = time.monotonic()
        subprocess.run(command, input=script, stdout=subprocess.DEVNULL, check=True)
        took = time.monotonic() - start
        best = took if best is None else min(best, took)
    return best


def usage(command, script):
    """What a command takes of the machine on a script; one that fails ends the measure."""
    with tempfile.TemporaryFile() as file:
        file.write(script)
        file.seek(0)
        running = subprocess.Popen(command, stdin=file, stdout=subprocess.DEVNULL)
        _, status, used = os.wait4(running.pid, 0)
    if status != 0:
        sys.exit(f"bench: {command} ends with {status}")
    return used


def processor_seconds(command, script, rounds=ROUNDS):
    """The least time of the processor that a command takes on a script, of a few rounds."""
    each = [usage(command, script) for _ in range(rounds)]
    return min(used.ru_utime + used.ru_stime for used in each)


def least_in_turns(runs, rounds):
    """The least of what each of these calls gives, of so many rounds in which they take turns."""
    times = [[run() for run in runs] for _ in range(rounds)]
    return [min(each) for each in zip(*times)]


def instructions(command, script, limit):
    """How many instructions of the processor a command takes on a script, as valgrind counts them; none where that takes it more than so many
    seconds of the processor.

    Of valgrind's tools cachegrind without its caches is the cheapest that counts; two counts of one run are the same, or nearly so.
    """
    with tempfile.NamedTemporaryFile("r") as log:
        counting = ["valgrind", "--tool=cachegrind", "--cache-sim=no", "--cachegrind-out-file=/dev/null", f"--log-file={log.name}"]
        # (one second more: valgrind may not end at the first signal)
        limits = resource.RLIMIT_CPU, (limit, limit + 1)
        ended = subprocess.run(
            [*counting, *command], input=script, stdout=subprocess.DEVNULL, preexec_fn=lambda: resource.setrlimit(*limits)
        ).returncode
        if ended in [-signal.SIGXCPU, -signal.SIGKILL]:
            return None
        if ended != 0:
            sys.exit(f"bench: {command} ends with {ended} under valgrind")
        return int(re.search(r"I +refs: +([\d,]+)", log.read())[1].replace(",", ""))
