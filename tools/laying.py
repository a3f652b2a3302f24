"""Lays a story beside its script without the program, by the rules of docs/SCRIPT.md and docs/STORY.md.

Each line that does something begins with an event that its form and the sessions' state name, but a `go all` that finds no program to go on with; what
follows belongs to it as long as something has to come: a unit's first turn, its end, a program's acceptance, finish and release, an opening behind a
stop; and what waiting units do when they can go on.

Of a program that was defined before the story begins no statement is known: a stop within the line of a part's last one is laid to the line behind it.
"""
from dataclasses import dataclass, replace

from stories import ENDS, StoryError, words_of


class Parted(StoryError):
    """Where script and story can't belong together. `lines` are the pairs of a line and its events before that."""


@dataclass
class OpenUnit:
    name: str
    session: int  # None of a later part
    program: str  # None of an ACID unit
    block: tuple  # the statements of a called unit; empty where they are not known
    called: bool
    single: bool  # begun by a session's statement, with which it ends
    did: int = 0
    waits: bool = False
    asked: str = ""  # the session's statement that it waits to do


def spelled(text):
    """What a text and its canonical form have in common: all tokens but parentheses, numbers without leading zeros."""
    return [str(int(word)) if word[0] in "0123456789" else word for word in words_of(text) if word not in ("(", ")")]


def in_order(names):
    return sorted(names, key=lambda name: [int(number) for number in name[1:].split(".")])


class Laying:
    """The events of a story, of which lines take theirs in order."""

    def __init__(self, events, definitions):
        self.events, self.at, self.definitions = events, 0, definitions
        self.units, self.called, self.accepted = {}, {}, set()
        self.line, self.taken = None, []

    def peek(self, *kinds, unit=None, program=None):
        told = self.events[self.at] if self.at < len(self.events) else None
        fits = told and told.kind in kinds and unit in (None, told.unit) and program in (None, told.program)
        return told if fits else None

    def take(self):
        told = replace(self.events[self.at], line=self.line)
        written = self.written(told)
        if written and spelled(written) != spelled(told.statement or told.definition or told.arguments):
            self.part(self.line, f"of `{written}`")
        self.at += 1
        self.taken.append(told)
        self.keep(told)
        return told

    def written(self, told):
        """What the script, or the program's definition, has in the place of what an event tells; None where it is not known."""
        unit = self.units.get(told.unit)
        if told.kind == "did" and unit and unit.block:
            return unit.block[unit.did] if unit.did < len(unit.block) else "nothing more"
        if self.line is None:
            return None
        if told.kind == "did" and unit and not unit.called:
            return unit.asked or self.line.command
        if told.kind == "defined":
            return self.line.command
        is_call = told.kind == "began" and told.name and self.line.kind == "call"
        return self.line.command.partition("(")[2] if is_call else None

    # What is kept of the units and programs

    def keep(self, told):
        unit = self.units.get(told.unit)
        if told.kind == "began":
            self.units[told.unit] = self.begun(told)
        elif told.kind == "did" and unit:
            unit.did, unit.waits, unit.asked = unit.did + 1, False, ""
        elif told.kind == "waits" and unit:
            unit.waits, unit.asked = True, "" if unit.called or self.line is None else self.line.command
        elif told.kind in ENDS:
            self.units.pop(told.unit, None)
        elif told.kind == "accepted":
            self.accepted.add(told.program)
        elif told.kind == "finished":
            self.accepted.discard(told.program)
        elif told.kind == "down":
            self.units = {}

    def begun(self, told):
        if told.name and told.program:
            self.called[told.program] = told.name
        definition = self.definitions.get(told.name or self.called.get(told.program))
        block = definition.parts[(told.part or 1) - 1].statements if definition else ()
        single = self.line is not None and self.line.kind == "statement"
        return OpenUnit(told.unit, told.session, told.program, block, bool(told.name or told.program), single)

    def of_session(self, session):
        return next((unit for unit in self.units.values() if unit.session == session), None)

    def of_program(self, program):
        return next((unit for unit in self.units.values() if unit.program == program), None)

    # The first event of a line

    def begins_with(self, line):
        """The event in front, where the line can begin with it; else what it would begin with."""
        if self.peek("refused", "down"):
            return self.peek("refused", "down"), ""
        if line.session is not None:
            return self.act_begins(line, self.of_session(line.session))
        words = words_of(line.command)
        if line.kind == "go":
            return self.go_begins("b" + "".join(words[1:]))
        if line.kind in ("table", "program"):
            name = words[2 if line.kind == "table" else 1] if len(words) > 2 else ""
            told = self.peek("defined")
            return told if told and told.name == name else None, f"defined N {line.kind} {name}"
        if line.kind in ("show locks", "show bases"):
            item = "lock" if line.kind == "show locks" else "base"
            return self.peek(item, "shown"), f"{item} .. or shown"
        return self.peek("armed") if line.kind in ("crash", "net") else None, "armed" if line.kind == "crash" else "refused"

    def act_begins(self, line, unit):
        kind = line.kind
        if kind in ("commit", "rollback"):
            end = "committed" if kind == "commit" else "rolled back"
            return self.peek(end, unit=unit.name) if unit else None, f"{unit.name} {end}" if unit else "refused"
        if unit and kind in ("statement", "step"):
            return self.peek("did", "waits", unit=unit.name), f"{unit.name} did or waits"
        if kind in ("step", "unknown") or unit:
            return None, "refused"
        told = self.peek("began")
        fits = told and told.session == line.session and (told.name is not None) == (kind == "call")
        if fits and kind == "call":
            fits = told.name == (words_of(line.command) + [""])[1]
        return told if fits else None, f"uB.K began @{line.session}"

    def go_begins(self, program):
        unit = self.of_program(program)
        if unit:
            return self.peek("did", "waits", unit=unit.name), f"{unit.name} did or waits"
        return self.peek("began", program=program), f"uB.K began {program}"

    # What follows

    def follow(self):
        """Takes what has to come behind the last event taken, then what waiting units do; or the stop that comes instead, and its opening."""
        found = True
        while found and self.taken[-1].kind != "refused":
            told = self.taken[-1]
            found = self.due(told) or self.settling() or self.is_due(told) and self.peek("down")
            if found and self.take().kind == "down":
                return self.after_down()
            if not found and self.is_due(told):
                self.part(self.line, f"behind `{told.text}` what {told.unit} does next")

    def is_due(self, told):
        """Whether an event has to come behind this one, before the line is done."""
        unit = self.units.get(told.unit)
        if told.kind == "did":
            return bool(told.cause or unit and (unit.single or unit.block and unit.did == len(unit.block)))
        return told.kind == "began" and self.line.kind != "begin"

    def due(self, told):
        unit = self.units.get(told.unit)
        if told.kind == "began":
            return self.peek("did", "waits", unit=told.unit) if self.line.kind != "begin" else None
        if told.kind == "did":
            return self.peek("failed", "branched", "committed", unit=told.unit) if told.cause or unit and (unit.single or unit.called) else None
        if told.kind in ("lock", "base"):
            return self.peek(told.kind, "shown")
        return self.of_programs(told)

    def of_programs(self, told):
        if told.kind in ("committed", "branched"):
            return self.peek("accepted", "finished")
        if told.kind == "accepted":
            return self.peek("finished", program=told.program)
        return self.peek("released") if told.kind == "finished" else None

    def settling(self):
        told = self.peek("did", "victim")
        return told if told and told.unit in self.units and self.units[told.unit].waits else None

    def after_down(self):
        while self.taken[-1].kind != "ready" and self.at < len(self.events):
            self.take()

    # Lines

    def ask(self, line):
        """The events of a line; raises Parted."""
        self.line, self.taken = line, []
        if line.kind == "go all":
            self.go_all()
        elif line.kind != "nothing":
            told, wanted = self.begins_with(line)
            if told is None:
                self.part(line, f"`{wanted}`")
            self.run_on()
        return self.taken

    def run_on(self):
        if self.take().kind == "down":
            self.after_down()
        else:
            self.follow()

    def go_all(self):
        for program in in_order(self.accepted):
            unit = self.of_program(program)
            if program not in self.accepted or unit and unit.waits or any(told.kind == "down" for told in self.taken):
                continue
            told, wanted = self.go_begins(program)
            if told is None and not self.peek("down"):
                self.part(self.line, f"`{wanted}`")
            self.run_on()

    def part(self, line, wanted):
        where = f"line {line.number} of the script" if line else "the opening"
        if self.at == len(self.events):
            raise Parted(f"{where} would tell {wanted}; there the story ends")
        told = self.events[self.at]
        raise Parted(f"{where} would tell {wanted}; line {told.number} of the story is `{told.text}`")

    def open(self):
        while self.at < len(self.events) and (not self.taken or self.taken[-1].kind != "ready"):
            self.take()
        return self.taken


def laid_beside(lines, events, definitions):
    """The events of the first opening, and pairs of a line and its events. `definitions` are those of the story's programs, by name.

    Raises Parted, with what was laid in its `opening` and `lines`.
    """
    laying, opening, pairs = Laying(events, definitions), [], []
    try:
        opening = laying.open()
        for line in lines:
            pairs.append((line, laying.ask(line)))
        if laying.at < len(events):
            told = events[laying.at]
            raise Parted(f"the script ends before line {told.number} of the story, `{told.text}`")
    except Parted as parted:
        in_part = [(laying.line, laying.taken)] if laying.line and len(pairs) < len(lines) and laying.taken else []
        parted.opening, parted.lines = opening, pairs + in_part
        raise
    return opening, pairs
