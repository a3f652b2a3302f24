#!/usr/bin/env python3
"""What BASE is for, by a clock that counts rounds: sessions that all move money out of one hot row, as ACID and as BASE programs.

A round is one statement of each session that does not wait when it begins, as if all had sent theirs at the same time: the way of a statement
to the database and back. The sessions go on without a pause; who waits is read from the story, round by round. It is kept fair to ACID:

- A transfer is two statements either way, and a session has no more than one in a round: a later part of a BASE program takes its turn (`go`)
  in the place of its session, which calls the next program when this one is finished, not when it is accepted. `BASE, ahead` is what comes
  where the session goes on behind `accepted`, as it may; the later parts are done beside it then, each a statement in a round.
- A transfer is done where all its statements are committed; that a BASE program commits twice counts as one.
- A statement that waited is done in the round in which what it waited for ends, and takes none of its own. Were it to, ACID would do half.

Two things the clock does not see. Parts of one statement that meet at a row stand in line there only while each is done and decided, which
is no time by this clock; what they cost the processor is measured beside it. And the hot row comes first here, as where the rest depends on
what is found there: a program that can come to it last holds it as shortly as a part does, and need not be split (`ACID, hot row last`).

(a) all sessions call the transfer; (b) each calls it and ten others in turn, which are ACID, on rows of their own; (c) beside (a) one more
session reads the hot row, again and again, each time an ACID unit. Prints programs done a round, the longest wait of a unit, and the
processor time of a program, with the lines of all that time in one script. Ends with 1 where, with the most sessions on the hot row, BASE
does less than 6.5 times as many transfers a round as ACID, or takes more processor time for one; or where in (b) a unit of the others waits
longer beside BASE than beside ACID.

    bench/hot.py [--program PATH] [--plot FILE.svg]     the program of PATH, built already; a plot of (a)
"""
import argparse, subprocess, sys
from collections import Counter
from dataclasses import dataclass

from plot import Panel, plot
from timing import made, processor_seconds

SESSIONS = [2, 4, 8, 16, 32, 63]
READER = 64
DONE = 4_000
TIMES_AS_MANY = 6.5
ROUNDS = 9
OTHERS = 10
# a line that is refused, and what is told of it: the line before is done
MARK, MARKED = "?", "refused 3 syntax"

TAKE = "update account set balance = balance - :amount where key = 0"
BRING = "update account set balance = balance + :amount where key = :b"
GIVE_BACK = "update account set balance = balance + :amount where key = 0"
ACID = f"program transfer(b int, amount int) acid {{ {TAKE} ; {BRING} }} end"
LAST = f"program transfer(b int, amount int) acid {{ {BRING} ; {TAKE} }} end"
BASE = (
    f"program transfer(b int, amount int) base part {{ {TAKE} }} part {{ {BRING} }} then end on failure go 3 "
    f"part {{ {GIVE_BACK} }} on failure end end"
)
OTHER = "(a int) acid { update other set v = v - 1 where key = :a ; update other set v = v + 1 where key = :a + 1 } end"


@dataclass(frozen=True)
class Kind:
    """How the sessions transfer, and whether they call the next program before the last is finished."""

    name: str
    definition: str
    ahead: bool = False


KINDS = [Kind("ACID", ACID), Kind("BASE", BASE), Kind("BASE, ahead", BASE, ahead=True), Kind("ACID, hot row last", LAST)]


@dataclass
class Unit:
    """An open unit: the session, or the BASE program, whose statements it does, and what was called."""

    lane: object
    called: str
    base: object = None


class Sessions:
    """Sessions that do one act after another, and what the story tells of them."""

    def __init__(self, sessions, act_of, ahead):
        self.sessions, self.act_of, self.ahead = sessions, act_of, ahead
        self.round, self.acts = 0, Counter()
        self.units, self.open, self.waiting = {}, set(), {}
        self.bases, self.under_way = {}, {}
        self.done, self.longest = Counter(), Counter()

    def lines(self):
        """What is sent in the next round; half of the sessions begin a round later."""
        self.round += 1
        busy = set() if self.ahead else set(self.under_way.values())
        ready = [session for session in self.sessions if session not in self.waiting and session not in busy]
        sent = [self.line(session) for session in ready if self.round > 1 or session % 2 == 1]
        return sent + [f"go {base[1:]}" for base in self.under_way if base not in self.waiting]

    def line(self, session):
        if session in self.open:
            return f"@{session} step"
        self.acts[session] += 1
        return f"@{session} {self.act_of(session, self.acts[session])}"

    def begin(self, name, words):
        """A unit begins: of a session's statement, its call, its program's first part, or of a program's later part."""
        if words[0].startswith("b"):
            unit = Unit(words[0], self.bases[words[0]].called, words[0])
        elif len(words) == 1:
            unit = Unit(int(words[0][1:]), "statement")
        elif words[1] == "call":
            unit = Unit(int(words[0][1:]), words[2].split("(")[0])
        else:
            unit = Unit(int(words[0][1:]), words[5].split("(")[0], words[1])
            self.bases[words[1]] = unit
        self.units[name] = unit
        self.open.add(unit.lane)

    def waited(self, unit, since):
        """A unit does its statement for which it has waited, or waits for it still."""
        self.longest[unit.called] = max(self.longest[unit.called], self.round - since)

    def hear(self, event):
        """Follows what is told; a unit that ends otherwise than by its commit ends the measure."""
        name, what, *words = event.split()
        unit = self.units.get(name)
        if what == "began":
            self.begin(name, words)
        elif what == "waits":
            self.waiting[unit.lane] = unit, self.round
        elif what == "did":
            self.waited(*self.waiting.pop(unit.lane, (unit, self.round)))
        elif what == "committed":
            self.open.discard(unit.lane)
            self.done[unit.called] += unit.base is None
        elif what == "accepted":
            self.under_way[name] = self.bases[name].lane
        elif what == "finished":
            del self.under_way[name]
            self.done[self.bases[name].called] += 1
        elif name != "released":
            sys.exit(f"bench/hot.py: {event}")

    def end(self):
        """Those that wait still have waited so long, too."""
        for unit, since in self.waiting.values():
            self.waited(unit, since)

    def programs_done(self):
        return self.done.total() - self.done["statement"]


def told(running, lines):
    """Sends lines; what is told of them."""
    running.stdin.write("".join(line + "\n" for line in [*lines, MARK]))
    running.stdin.flush()
    found = []
    while (event := running.stdout.readline()) != f"{MARKED}\n":
        if event == "":
            sys.exit("bench/hot.py: the program has ended")
        found.append(event)
    return found


@dataclass
class Measured:
    """Sessions that have done enough, the script of all their lines, and that of those before them."""

    sessions: Sessions
    before: bytes
    script: bytes
    lines: int
    rate: float


def measured(program, before, sessions):
    """Has the sessions do their acts until so many programs are done; those of the second half tell how many are done in a round."""
    lines, story, half = [], [], None
    with subprocess.Popen([program, "run"], stdin=subprocess.PIPE, stdout=subprocess.PIPE, text=True) as running:
        for line in before:
            story += told(running, [line])
        while sessions.programs_done() < DONE:
            sent = sessions.lines()
            events = told(running, sent)
            for event in events:
                sessions.hear(event)
            lines += sent
            story += events
            if half is None and sessions.programs_done() >= DONE / 2:
                half = sessions.programs_done(), sessions.round
        running.stdin.close()
    sessions.end()
    script = text([*before, *lines])
    if subprocess.run([program, "run"], input=script, capture_output=True, check=True).stdout.decode() != "".join(story):
        sys.exit("bench/hot.py: the lines in one script tell another story")
    rate = (sessions.programs_done() - half[0]) / (sessions.round - half[1])
    return Measured(sessions, text(before), script, len(lines), rate)


def text(lines):
    return "".join(line + "\n" for line in lines).encode()


def times(program, runs):
    """The least processor time of what each does behind the lines before it, measured in turns."""
    command, taken = [program, "run"], [[] for _ in runs]
    for _ in range(ROUNDS):
        for run, found in zip(runs, taken):
            found.append((processor_seconds(command, run.script, 1), processor_seconds(command, run.before, 1)))
    return [min(whole for whole, _ in found) - min(before for _, before in found) for found in taken]


def accounts(sessions):
    """The hot row, and a row of each session."""
    yield "create table account (id int key, balance int, check balance >= 0)"
    for key in range(sessions + 1):
        yield f"@1 insert into account values ({key}, {1_000_000 if key == 0 else 0})"


def other_rows(sessions):
    """Two rows for each session and each of the other programs."""
    yield "create table other (id int key, v int)"
    for other in range(1, OTHERS + 1):
        yield f"program other{other}{OTHER}"
        for session in range(1, sessions + 1):
            yield f"@1 insert into other values ({1_000 * other + 2 * session}, 0)"
            yield f"@1 insert into other values ({1_000 * other + 2 * session + 1}, 0)"


def transfers(session, count):
    return f"call transfer({session}, 1)"


def in_turn(session, count):
    """The transfer and the others, one after another; the sessions do not begin with the same."""
    other = (session + count) % (OTHERS + 1)
    return f"call other{other}({1_000 * other + 2 * session})" if other else transfers(session, count)


def with_reader(session, count):
    return "select balance from account where key = 0" if session == READER else transfers(session, count)


def on_the_hot_row(program, sessions):
    """(a): prints a row for each kind; answers what was measured, and the processor time of it."""
    runs = [measured(program, [*accounts(sessions), kind.definition], Sessions(range(1, sessions + 1), transfers, kind.ahead)) for kind in KINDS]
    took = times(program, runs)
    for kind, run, seconds in zip(KINDS, runs, took):
        print(
            f"{sessions:8} {kind.name:20} {run.rate:8.1f} {run.sessions.longest['transfer']:6}"
            f" {seconds / run.sessions.programs_done() * 1e6:10.1f} {run.lines / seconds:10,.0f}",
            flush=True,
        )
    return {kind.name: (run, seconds) for kind, run, seconds in zip(KINDS, runs, took)}


def among_others(program, sessions):
    """(b): prints a row for ACID and for BASE; answers the longest waits of the others."""
    before = [*accounts(sessions), *other_rows(sessions)]
    runs = [measured(program, [*before, kind.definition], Sessions(range(1, sessions + 1), in_turn, False)) for kind in KINDS[:2]]
    longest = []
    for kind, run, seconds in zip(KINDS, runs, times(program, runs)):
        longest.append(max(rounds for called, rounds in run.sessions.longest.items() if called != "transfer"))
        print(
            f"{sessions:8} {kind.name:20} {run.rate:8.1f} {run.sessions.longest['transfer']:6} {longest[-1]:6}"
            f" {seconds / run.sessions.programs_done() * 1e6:10.1f}",
            flush=True,
        )
    return longest


def beside_a_reader(program, sessions):
    """(c): prints how often the reader has read, and how long it waits."""
    for kind in KINDS:
        lanes = Sessions([*range(1, sessions + 1), READER], with_reader, kind.ahead)
        measured(program, [*accounts(sessions), kind.definition], lanes)
        print(f"{sessions:8} {kind.name:20} {lanes.done['statement']:8} {lanes.longest['statement']:6} {lanes.round:8}", flush=True)


def drawn(path, found):
    """A plot of transfers a round and of lines a second, by sessions."""
    def line(name, of):
        return name, [(sessions, of(*rows[name])) for sessions, rows in found.items()]

    ticks, names = [0, 8, 16, 32, 48, 63], ["BASE", "ACID"]
    panels = [
        Panel("Transfers out of one row", "sessions", "transfers a round", ticks, [line(name, lambda run, _: run.rate) for name in names]),
        Panel("Lines of their script", "sessions", "lines a second", ticks, [line(name, lambda run, took: run.lines / took) for name in names]),
    ]
    points = [f"{name}: " + ", ".join(f"{y:,.{0 if y > 100 else 1}f} with {x}" for x, y in values) for panel in panels for name, values in panel.lines]
    description = (
        f"On the left transfers a round by the number of sessions. {points[0]}. {points[1]}. "
        f"On the right lines a second of processor time. {points[2]}. {points[3]}."
    )
    plot(path, "Sessions that all move money out of one hot row, as BASE and as ACID programs", description, panels)


def main():
    parser = argparse.ArgumentParser(usage="bench/hot.py [--program PATH] [--plot FILE.svg]")
    parser.add_argument("--program", metavar="PATH", help="a program that is built already")
    parser.add_argument("--plot", metavar="FILE.svg", help="where a plot of the hot row is written")
    words = parser.parse_args()
    program = words.program or made("salt", "run")
    print("(a) all on one hot row; µs of the processor a transfer\nsessions                      a round  waits         µs    lines/s")
    found = {sessions: on_the_hot_row(program, sessions) for sessions in SESSIONS}
    print("(b) one hot program among ten others; µs of the processor a program\nsessions                      a round  waits others         µs")
    waits = [among_others(program, sessions) for sessions in SESSIONS]
    print("(c) one more session reads the hot row\nsessions                        reads  waits of rounds")
    beside_a_reader(program, SESSIONS[-1])
    if words.plot:
        drawn(words.plot, found)
    (acid, acid_took), (base, base_took) = (found[SESSIONS[-1]][name] for name in ["ACID", "BASE"])
    as_many = base.rate / acid.rate
    as_long = base_took / base.sessions.programs_done() / (acid_took / acid.sessions.programs_done())
    print(f"with {SESSIONS[-1]} sessions BASE does {as_many:.1f} times as many transfers a round (allowed: {TIMES_AS_MANY} or more)")
    print(f"each in {as_long:.2f} of the processor time (allowed: 1)")
    return 1 if as_many < TIMES_AS_MANY or as_long > 1 or any(base > acid for acid, base in waits) else 0


if __name__ == "__main__":
    sys.exit(main())
