"""Reads scripts and stories, by the grammar of docs/GRAMMAR.md, docs/SCRIPT.md and docs/STORY.md, and by nothing of Salt's code.

    script_lines(text)                      the logical lines of a script
    events(text)                            the lines of a story, each as an Event
    told_by_lines(program, text, words)     runs the program: which events each line told
    units(events)                           what each unit and each program went through, with its waits
    program_path()                          the built program

Texts are read with `read_text`, which keeps every byte of a file, CRs too.
"""
import re, subprocess, sys
from dataclasses import dataclass, field, replace
from pathlib import Path
from typing import Optional

SCRIPT_MOST = 16_777_216  # the bytes of a script
TOKEN = re.compile(r"'(?:[^']|'')*'|[0-9]+|[A-Za-z_][A-Za-z0-9_]*|\|\||<>|<=|>=|[^ \t]")
KEYWORDS = frozenset(
    "acid all and base bases begin between call check commit count crash create delete end ensure failure from go insert int into is key locks max min "
    "not null on or part program retry rollback select set show step sum table text then update values var where".split()
)


class StoryError(Exception):
    """What this module can't read or do, with the number of the line where there is one."""

    def __init__(self, why, number=None):
        super().__init__(why if number is None else f"line {number}: {why}")
        self.number = number


class UnknownLine(StoryError):
    """A line of a story that tells no event."""


def read_text(path):
    return Path(path).read_bytes().decode("utf-8", "surrogateescape")


def program_path():
    """The built program; where there is none, ends with status 2."""
    path = Path(__file__).resolve().parent.parent / "crates" / "salt" / "out" / "salt"
    if not path.is_file():
        print(f"{Path(sys.argv[0]).name}: there is no program: ./salt builds it, and says how long that takes", file=sys.stderr)
        sys.exit(2)
    return str(path)


# Tokens


@dataclass(frozen=True)
class Token:
    text: str  # as it is written, a keyword in small letters
    start: int
    end: int
    keyword: bool = False


def tokens(text):
    """The tokens of a text; what is none stands as a sign."""
    found = []
    for match in TOKEN.finditer(text):
        keyword = match[0].lower() in KEYWORDS
        found.append(Token(match[0].lower() if keyword else match[0], match.start(), match.end(), keyword))
    return found


def words_of(text):
    return [token.text for token in tokens(text)]


# Scripts

SESSION = re.compile(r"[ \t]*@[ \t]*([0-9]+)(.*)", re.S)
STATEMENTS = ("insert", "select", "update", "delete", "ensure")


@dataclass(frozen=True)
class ScriptLine:
    number: int  # of its first physical line, from 1
    text: str  # the joined line
    kind: str  # nothing, table, program, statement, begin, commit, rollback, step, call, go, go all, show locks, show bases, crash, net or unknown
    session: Optional[int]  # S of `@S`
    command: str  # what stands behind `@S`, else the whole line; without blanks around it
    starts: tuple = (0,)  # where each physical line begins in the text

    def place(self, offset):
        """The number of the physical line that has this place of the text, and which byte of it that is, from 1."""
        at = max(at for at, start in enumerate(self.starts) if start <= offset)
        return self.number + at, len(self.text[self.starts[at]:offset].encode("utf-8", "surrogateescape")) + 1


def joined_lines(text):
    """Of each logical line the number of its first physical line, its text, and where each physical line begins in it."""
    pieces = text.split("\n")
    lines, kept, first, starts = [], "", 1, [0]
    for number, piece in enumerate(pieces, 1):
        is_last = number == len(pieces)
        if piece.endswith("\r") and not is_last:
            piece = piece[:-1]
        if piece.endswith("\\"):
            kept += piece[:-1] + " "
            if not is_last:
                starts.append(len(kept))
                continue
            piece = ""
        if not is_last or kept + piece:
            lines.append((first, kept + piece, tuple(starts)))
        kept, first, starts = "", number + 1, [0]
    return lines


def kind_of_line(session, command):
    """What a line is by its first words, or by all where these are its form; whether the rest is right is the program's to say."""
    words = words_of(command)
    first = words[0] if words else ""
    if session is not None:
        is_act = first in STATEMENTS + ("call",) or words in (["begin"], ["commit"], ["rollback"], ["step"])
        return "unknown" if not is_act else "statement" if first in STATEMENTS else first
    if words in (["go", "all"], ["show", "locks"], ["show", "bases"]):
        return " ".join(words)
    if first == "create":
        return "table"
    return first if first in ("program", "crash", "net", "go") else "unknown"


def script_line(number, text, starts=(0,)):
    if not text.strip(" \t") or text.startswith("--"):
        return ScriptLine(number, text, "nothing", None, "", starts)
    match = SESSION.fullmatch(text)
    session, command = (int(match[1]), match[2]) if match else (None, text)
    command = command.strip(" \t")
    return ScriptLine(number, text, kind_of_line(session, command), session, command, starts)


def script_lines(text):
    """The logical lines of a script: joined at a trailing backslash; blank lines and comments too, as `nothing`."""
    return [script_line(*line) for line in joined_lines(text)]


# Stories

CAUSE = "duplicate|check|missing|ensure|overflow|toolong"
VALUE = r"-?[0-9]+|'(?:[^']|'')*'|null"
NAME = r"[A-Za-z_][A-Za-z0-9_]*"
UNIT, BASE = r"(?P<unit>u[0-9]+\.[0-9]+)", r"(?P<program>b[0-9]+\.[0-9]+)"
BASES = r"(?P<programs>(?: b[0-9]+\.[0-9]+)+)"
CALLED = rf"(?P<name>{NAME})\((?P<arguments>.*)\)"
FORMS = [
    ("opened", r"opened (?P<boot>[0-9]+) (?P<decision>[0-9]+)"),
    ("ready", "ready"),
    ("early", "early" + BASES),
    ("defined", rf"defined (?P<decision>[0-9]+) (?P<definition>(?:create table|program) (?P<name>{NAME}).*)"),
    ("began", rf"{UNIT} began @(?P<session>[0-9]+)"),
    ("began", rf"{UNIT} began @(?P<session>[0-9]+) call {CALLED}"),
    ("began", rf"{UNIT} began @(?P<session>[0-9]+) {BASE} part (?P<part>1) of {CALLED}"),
    ("began", rf"{UNIT} began {BASE} part (?P<part>[0-9]+)"),
    ("did", rf"{UNIT} did (?P<statement>(?:[^']|'[^']*')*?) -> (?P<answer>count [0-9]+|rows.*|value .+|stored .+|true|failed (?P<cause>{CAUSE}))"),
    ("waits", rf"{UNIT} waits(?P<owners>(?: [ub][0-9]+\.[0-9]+)+)"),
    ("committed", rf"{UNIT} committed (?P<decision>[0-9]+)"),
    ("failed", rf"{UNIT} failed (?P<cause>{CAUSE})"),
    ("branched", rf"{UNIT} branched (?P<decision>[0-9]+) (?P<cause>{CAUSE})"),
    ("rolled back", rf"{UNIT} rolled back"),
    ("victim", rf"{UNIT} victim"),
    ("cut", rf"{UNIT} cut"),
    ("accepted", rf"{BASE} accepted"),
    ("finished", rf"{BASE} finished"),
    ("released", "released" + BASES),
    ("down", "down (?P<why>stopped|fault)"),
    ("refused", r"refused (?P<refusal>[0-9]+ [a-z]+(?: .+)?)"),
    ("armed", r"armed(?P<pairs>(?: [0-9]+ [0-9]+)+)"),
    ("lock", rf"lock (?P<owner>[ub][0-9]+\.[0-9]+) (?P<family>acid|alkaline|saline) (?P<mode>read|write) (?P<table>{NAME}) "
             rf"(?P<range>(?:{VALUE})\.\.(?:{VALUE})|all)"),
    ("base", rf"base {BASE} (?P<name>{NAME}) (?P<place>first|next [0-9]+|finished)"),
    ("shown", "shown (?P<count>[0-9]+)"),
]
FORMS = [(kind, re.compile(form)) for kind, form in FORMS]
NUMBERS = ("boot", "decision", "session", "part", "count")
LISTS = ("owners", "programs", "pairs")
ENDS = ("committed", "failed", "branched", "rolled back", "victim", "cut")


@dataclass(frozen=True)
class Event:
    """One line of a story. What its kind does not tell is None."""

    number: int  # of the line in the story, from 1
    text: str
    kind: str  # one of FORMS; `lock` and `base` are the items before a `shown`
    unit: Optional[str] = None  # uB.K
    program: Optional[str] = None  # bB.K
    session: Optional[int] = None
    part: Optional[int] = None
    name: Optional[str] = None  # of the table or program that is defined, called or shown
    arguments: Optional[str] = None  # what stands in the parentheses of a call
    statement: Optional[str] = None
    answer: Optional[str] = None
    cause: Optional[str] = None
    owners: tuple = ()  # whom it waits for, units before programs
    programs: tuple = ()  # that are released, or early
    decision: Optional[int] = None  # of `opened`: how many stand
    boot: Optional[int] = None
    definition: Optional[str] = None  # the canonical text
    why: Optional[str] = None  # of `down`
    refusal: Optional[str] = None  # as `5 unknown t`
    pairs: tuple = ()  # of `armed`, the numbers as texts, one after another
    owner: Optional[str] = None  # of a lock, with the four below
    family: Optional[str] = None
    mode: Optional[str] = None
    table: Optional[str] = None
    range: Optional[str] = None  # as `1..5`, or `all`
    place: Optional[str] = None  # of a `base`
    count: Optional[int] = None  # of a `shown`
    line: Optional[ScriptLine] = None  # that told it, where that is known; None of the first opening


def event(number, text):
    for kind, form in FORMS:
        match = form.fullmatch(text)
        if match:
            told = match.groupdict()
            told.update({name: int(told[name]) for name in NUMBERS if told.get(name) is not None})
            told.update({name: tuple(told[name].split()) for name in LISTS if name in told})
            return Event(number, text, kind, **told)
    raise UnknownLine(f"no line of a story: {text}", number)


def events(text):
    """The events of a story, in order; raises UnknownLine."""
    return [event(number, line) for number, line in enumerate(text.split("\n"), 1) if line or number <= text.count("\n")]


def rows_of(answer):
    """The rows of an answer `rows (1, 'a') (2, null)`: tuples of ints, texts and None."""
    return [tuple(value_of(cell) for cell in re.findall(VALUE, row)) for row in re.findall(rf"\(((?:{VALUE}|, )*)\)", answer)]


def value_of(text):
    """The value that a literal spells."""
    if text == "null":
        return None
    return text[1:-1].replace("''", "'") if text.startswith("'") else int(text)


def text_of(value):
    if value is None:
        return "null"
    return str(value) if isinstance(value, int) else "'" + value.replace("'", "''") + "'"


# Runs


@dataclass
class Told:
    """A run, cut by the lines of its script."""

    opening: list  # the events before the first line
    lines: list  # pairs of a ScriptLine and its events, of the lines that were done, the last perhaps in part
    left: list  # the lines that were not done, as the run ended before them
    status: int
    message: str  # on standard error

    def events(self):
        return self.opening + [told for _, events_of in self.lines for told in events_of]


def absent_program(text):
    """A program that can't be there, and that the script does not name."""
    last = 2**63 - 1
    while str(last) in text:
        last -= 1
    return f"{2**63 - 1}.{last}"


def told_by_lines(program, text, words=()):
    """Runs `program run WORDS` on the script, with a line behind each that is refused and changes nothing: its refusal ends the line's events."""
    lines, absent = script_lines(text), absent_program(text)
    mark = f"go {absent}\n"
    sent = mark + "".join(line.text + ("\r\n" if line.text.endswith("\r") else "\n") + mark for line in lines)
    source = sent.encode("utf-8", "surrogateescape")
    if len(source) > SCRIPT_MOST:
        raise StoryError("the script is too long to be run line by line")
    run = subprocess.run([program, "run", *words], input=source, capture_output=True)
    told, number = [[]], 1
    for text_told in run.stdout.decode().split("\n")[:-1]:
        if text_told == f"refused 5 unknown b{absent}":
            told.append([])
            continue
        line = lines[len(told) - 2] if 1 < len(told) <= len(lines) + 1 else None
        told[-1].append(replace(event(number, text_told), line=line))
        number += 1
    done = told[1:] if told[-1] else told[1:-1]
    pairs = list(zip(lines, done))
    return Told(told[0], pairs, lines[len(pairs):], run.returncode, run.stderr.decode("utf-8", "replace"))


# Definitions of programs


@dataclass(frozen=True)
class Part:
    statements: tuple  # texts
    then: Optional[str] = None  # `end` or `go K`; None: the part that follows, or the end
    retry: int = 0
    failure: Optional[str] = None  # `end` or `go K`; None of a first part and of an ACID program


@dataclass(frozen=True)
class Definition:
    name: str
    parameters: tuple  # pairs of a name and a type
    variables: tuple
    is_base: bool
    parts: tuple  # one of an ACID program


class Reader:
    """Goes over the tokens of a text."""

    def __init__(self, text):
        self.text, self.tokens, self.at = text, tokens(text), 0

    def peek(self, ahead=0):
        return self.tokens[self.at + ahead].text if self.at + ahead < len(self.tokens) else ""

    def take(self, word):
        found = self.peek() == word
        self.at += found
        return found

    def next(self):
        self.at += 1
        if self.at > len(self.tokens):
            raise StoryError(f"ends too early: {self.text}")
        return self.tokens[self.at - 1].text

    def number(self):
        word = self.next()
        if not re.fullmatch("[0-9]+", word):
            raise StoryError(f"`{word}` is no number in: {self.text}")
        return int(word)

    def need(self, *words):
        for word in words:
            if not self.take(word):
                raise StoryError(f"`{word}` is missing before `{self.peek()}` in: {self.text}")

    def until(self, *words):
        """The text up to one of these words outside of parentheses, or to the end."""
        first, depth = self.at, 0
        while self.at < len(self.tokens) and (depth or self.peek() not in words):
            depth += (self.peek() == "(") - (self.peek() == ")")
            self.at += 1
        return self.text[self.tokens[first].start:self.tokens[self.at - 1].end] if self.at > first else ""


def pairs_in(reader, last):
    """Names with their types, up to one of these words."""
    found = []
    while reader.peek() not in last:
        found.append((reader.next(), reader.next()))
        reader.take(",")
    return tuple(found)


def block_in(reader):
    reader.need("{")
    found = [reader.until(";", "}")]
    while reader.take(";"):
        found.append(reader.until(";", "}"))
    reader.need("}")
    return tuple(found)


def way_in(reader):
    return "go " + reader.next() if reader.take("go") else reader.need("end") or "end"


def part_in(reader):
    block = block_in(reader)
    then = way_in(reader) if reader.take("then") else None
    retry, failure = 0, None
    if reader.take("on"):
        reader.need("failure")
        if reader.take("retry"):
            retry = reader.number()
            reader.need("then")
        failure = way_in(reader)
    return Part(block, then, retry, failure)


def definition_of(text):
    """The program that a text defines, as it is written or in its canonical form."""
    reader = Reader(text)
    reader.need("program")
    name = reader.next()
    reader.need("(")
    parameters = pairs_in(reader, (")", ""))
    reader.need(")")
    variables = pairs_in(reader, ("acid", "base", "")) if reader.take("var") else ()
    is_base = reader.next() == "base"
    parts = [] if is_base else [Part(block_in(reader))]
    while reader.take("part"):
        parts.append(part_in(reader))
    reader.need("end")
    return Definition(name, parameters, variables, is_base, tuple(parts))


# Reaches


class Unknown(Exception):
    """A value that the texts do not tell."""


class Cause(Exception):
    """What an expression fails by."""


@dataclass(frozen=True)
class Reach:
    """What a statement asks to hold: keys of one table, to read or to write."""

    mode: str  # read or write
    table: str
    low: object = None  # the least and the greatest key; both None: all keys
    high: object = None

    def keys(self):
        return "all" if self.low is None else f"{text_of(self.low)}..{text_of(self.high)}"

    def meets(self, other):
        return self.table == other.table and (None in (self.low, other.low) or (self.low <= other.high and other.low <= self.high))


def atom_in(reader, variables):
    word = reader.next()
    if word == "(":
        value = sum_in(reader, variables)
        reader.need(")")
        return value
    if word == ":":
        name = reader.next()
        if name not in variables:
            raise Unknown(name)
        return variables[name]
    if word == "-":
        return -int(reader.next())
    if not re.fullmatch(VALUE, word):
        raise Unknown(word)
    return value_of(word)


def prod_in(reader, variables):
    value = atom_in(reader, variables)
    while reader.take("*"):
        value = fitting(value * atom_in(reader, variables))
    return value


def sum_in(reader, variables):
    value = prod_in(reader, variables)
    while reader.peek() in ("+", "-", "||"):
        sign, right = reader.next(), prod_in(reader, variables)
        value = fitting(value - right if sign == "-" else value + right)
    return value


def fitting(value):
    if not (len(value) <= 255 if isinstance(value, str) else -(2**63) <= value < 2**63):
        raise Cause()
    return value


READS = {"select": "read", "insert": "write", "update": "write", "delete": "write"}


def table_of(statement):
    """The table that a statement names; None of `ensure`."""
    words = words_of(statement)
    behind = {"insert": "into", "select": "from", "delete": "from", "update": "update"}.get(words[0]) if words else None
    places = [place for place, word in enumerate(words[:-1]) if word == behind]
    return words[places[-1] + 1] if places else None


def bound_in(reader, variables):
    """The least and the greatest key of a `where`, which stands behind the reader."""
    if not reader.take("key"):
        return None, None
    if reader.take("="):
        key = sum_in(reader, variables)
        return key, key
    reader.need("between")
    low = sum_in(reader, variables)
    reader.need("and")
    return low, sum_in(reader, variables)


def reach_of(statement, variables):
    """What a statement reaches, with these values of parameters and variables; None: nothing. Raises Unknown."""
    reader, table = Reader(statement), table_of(statement)
    if table is None:
        return None
    mode = READS[reader.peek()]
    try:
        if reader.take("insert"):
            reader.need("into", table, "values", "(")
            low = high = sum_in(reader, variables)
        else:
            reader.until("where")
            low, high = bound_in(reader, variables) if reader.take("where") else (None, None)
    except Cause:
        return None
    return None if low is not None and low > high else Reach(mode, table, low, high)


# What units and programs went through


@dataclass
class Wait:
    unit: str
    asked: Event
    statement: Optional[str]  # that it asks for, where the story or the script tells it
    reach: Optional[Reach]  # what that reaches, where it is known
    holders: list = field(default_factory=list)  # the locks in its way when it was asked: pairs of an owner and a Lock
    freed: Optional[Event] = None  # behind which nothing is in its way any more
    ended: Optional[Event] = None  # did, or failed by the statement; rolled back, victim, or down

    @property
    def owners(self):
        return self.asked.owners


@dataclass
class UnitHistory:
    name: str
    began: Event
    definition: Optional[Definition]  # of a call, where the story has it
    variables: dict  # values of parameters and variables by now
    did: list = field(default_factory=list)
    waits: list = field(default_factory=list)
    ended: Optional[Event] = None  # None: open at the end; `down`: it left nothing

    def block(self):
        return self.definition.parts[(self.began.part or 1) - 1].statements if self.definition else ()


@dataclass
class ProgramHistory:
    name: str
    began: Event
    called: Optional[str]  # the name of the definition
    arguments: Optional[str]
    units: list = field(default_factory=list)  # UnitHistory of each part that began
    variables: dict = field(default_factory=dict)  # at its last commit
    accepted: Optional[Event] = None
    finished: Optional[Event] = None
    released: Optional[Event] = None  # `released`, or the `ready` of an opening behind it


@dataclass(frozen=True)
class Lock:
    unit: str  # that took it
    family: str  # acid, alkaline or saline
    reach: Reach
    taken: Event


class History:
    """What a story tells of units, programs, waits and locks: `units`, `programs`, `waits`, `definitions`, all in order.

    Locks by the parameters of a program that was defined before the story, as in a folder, are not known, and stand in no `held()`.
    """

    def __init__(self, to_come=()):
        """`to_come` are the events that will be told, where they are known: what a unit does behind its wait tells what it waited for."""
        self.units, self.programs, self.waits, self.definitions, self.taken = {}, {}, [], {}, []
        self.done_later = statements_done_later(to_come)

    def unit(self, told):
        if told.unit not in self.units:
            raise StoryError(f"{told.unit} has not begun: {told.text}", told.number)
        return self.units[told.unit]

    def program(self, told):
        if told.program not in self.programs:
            raise StoryError(f"{told.program} has not begun: {told.text}", told.number)
        return self.programs[told.program]

    # Locks, as docs/STORY.md and the definitions of salt_model have them: an open unit's are its own; those of a committed part are the program's,
    # saline, until it is released; a saline lock is in no part's way, and reads share.

    def owner_of(self, lock):
        """Who holds a lock now, and its family; None: nobody."""
        unit = self.units[lock.unit]
        if unit.ended is None:
            return lock.unit, lock.family
        program = self.programs.get(unit.began.program)
        is_kept = unit.ended.kind == "committed" and program is not None and program.released is None
        return (program.name, "saline") if is_kept else None

    def held(self):
        """The locks that are held: pairs of an owner and a Lock."""
        found = [(self.owner_of(lock), lock) for lock in self.taken]
        return [(owner[0], replace(lock, family=owner[1])) for owner, lock in found if owner]

    def in_way(self, unit, reach):
        """Those of them that are in the way of a unit that would reach this."""
        if reach is None:
            return []
        family = self.family(unit)
        return [
            (owner, lock) for owner, lock in self.held()
            if owner != unit and lock.reach.meets(reach) and "write" in (lock.reach.mode, reach.mode) and not (lock.family == "saline" and family == "alkaline")
        ]

    def family(self, unit):
        return "alkaline" if self.units[unit].began.program else "acid"

    # Events

    def tell(self, told):
        handler = getattr(self, "on_" + told.kind, None)
        if told.kind in ENDS:
            self.on_end(told)
        elif handler:
            handler(told)
        if told.kind in ENDS + ("released", "ready", "did"):
            self.watch(told)

    def watch(self, told):
        if told.kind != "did":
            self.taken = [lock for lock in self.taken if self.owner_of(lock)]
        for wait in self.waits:
            if wait.ended is None:
                self.watch_wait(wait, told)

    def watch_wait(self, wait, told):
        """Where all that is in the way is known, the wait is free when nothing of it is left; else when the last of its owners has let go."""
        if {owner for owner, _ in wait.holders} == set(wait.owners):
            is_free = not self.in_way(wait.unit, wait.reach)
            wait.freed = (wait.freed or told) if is_free else None
        elif told.kind in ENDS and told.unit in wait.owners or set(told.programs) & set(wait.owners):
            wait.freed = told

    def on_defined(self, told):
        if told.definition.startswith("program"):
            self.definitions[told.name] = definition_of(told.definition)

    def on_began(self, told):
        if told.program and told.program not in self.programs:
            self.programs[told.program] = ProgramHistory(told.program, told, told.name, told.arguments)
        program = self.programs.get(told.program)
        definition = self.definitions.get(program.called if program else told.name)
        if program and told.part != 1:
            values = dict(program.variables)
        else:
            values = called_with(definition, told.arguments)
        unit = UnitHistory(told.unit, told, definition, values)
        self.units[told.unit] = unit
        if program:
            program.units.append(unit)

    def on_did(self, told):
        unit = self.unit(told)
        self.end_wait(unit, told)
        try:
            reach = reach_of(told.statement, unit.variables)
        except Unknown:
            reach = None
        if reach:
            self.taken.append(Lock(unit.name, self.family(unit.name), reach, told))
        unit.did.append(told)
        stored = re.match(r"select \w+ into :(\w+) ", told.statement)
        if stored and told.answer.startswith("stored "):
            unit.variables[stored[1]] = value_of(told.answer[7:])

    def on_waits(self, told):
        unit = self.unit(told)
        statement = asked_statement(unit, told) or self.done_later.get(told.number)
        try:
            reach = reach_of(statement, unit.variables) if statement else None
        except Unknown:
            reach = None
        wait = Wait(told.unit, told, statement, reach, self.in_way(told.unit, reach))
        self.waits.append(wait)
        unit.waits.append(wait)

    def end_wait(self, unit, told):
        if unit.waits and unit.waits[-1].ended is None:
            unit.waits[-1].ended = told

    def on_end(self, told):
        unit = self.unit(told)
        self.end_wait(unit, told)
        unit.ended = told
        program = self.programs.get(unit.began.program)
        if program and told.kind == "committed":
            program.variables = unit.variables

    def on_accepted(self, told):
        self.program(told).accepted = told

    def on_finished(self, told):
        self.program(told).finished = told

    def on_released(self, told):
        for name in told.programs:
            if name in self.programs:
                self.programs[name].released = told

    def on_ready(self, told):
        """An opening that is ready has released all programs that were there before."""
        for program in self.programs.values():
            program.released = program.released or told

    def on_down(self, told):
        for unit in self.units.values():
            if unit.ended is None:
                self.end_wait(unit, told)
                unit.ended = told


def called_with(definition, arguments):
    """The values of parameters and variables with which a call begins."""
    if not definition:
        return {}
    literals = re.findall(VALUE, arguments)
    values = {name: value_of(literal) for (name, _), literal in zip(definition.parameters, literals)}
    values.update({name: 0 if kind == "int" else "" for name, kind in definition.variables})
    return values


def asked_statement(unit, told):
    """The statement that a unit waits to do: of its block, or of the session's line."""
    block = unit.block()
    if block:
        return block[len(unit.did)] if len(unit.did) < len(block) else None
    return told.line.command if told.line and told.line.kind == "statement" else None


def statements_done_later(told):
    """By the number of each `waits`, the statement that its unit does next."""
    found, following = {}, {}
    for one in reversed(told):
        if one.kind == "waits" and one.unit in following:
            found[one.number] = following[one.unit].statement
        following[one.unit] = one
    return found


def units(told):
    """What the events of a story tell of each unit and each program, by name, and of all waits in order.

    A statement that a session's unit waits for, and never does, stands in no event: it is known where the events know their lines.
    """
    history = History(told)
    for one in told:
        history.tell(one)
    return history
