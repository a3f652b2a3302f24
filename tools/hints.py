"""What to do about a refused line: a hint for what people type first, by the grammar and by what the story has told before.

    hint_of(line, refusal, known)      the hint for `refused REFUSAL` of a ScriptLine
"""
import difflib, re
from dataclasses import dataclass, field

from grammar import COMPARISONS, SIGNS, Fault, fault_of
from stories import KEYWORDS, NAME, STATEMENTS, History, StoryError, definition_of, words_of

TYPES = {
    "integer": "int", "bigint": "int", "smallint": "int", "number": "int", "numeric": "int", "decimal": "int", "serial": "int", "float": "int", "real": "int",
    "boolean": "int", "bool": "int", "varchar": "text", "char": "text", "string": "text", "str": "text",
}
LACKING = {
    "order": "rows come in the order of their keys; there is no `order by`",
    "group": "there is no `group by`: one `sum`, `min`, `max` or `count(*)` over the rows of a `where`",
    "limit": "there is no `limit`: bound the keys, `where key between 1 and 10`",
    "join": "a statement reads one table: no joins",
    "as": "columns and tables have no other names: drop `as`",
    "in": "there is no `in`: `a = 1 or a = 2`",
    "like": "there is no `like`: texts are compared by `=`, `<` and their like",
    "default": "there are no defaults: each insert gives all values",
    "unique": "only the key is unique: drop `unique`",
    "references": "there are no foreign keys: drop `references`",
    "primary": "write `key` in the place of `primary key`",
    "distinct": "there is no `distinct`",
    "drop": "what is defined stays: there is no `drop`",
    "alter": "what is defined stays: there is no `alter`",
    "transaction": "`@1 begin` alone opens a unit",
    "work": "`begin`, `commit` and `rollback` stand alone",
    "!": "unequal is `<>`",
    '"': "a text stands between single quotes: 'Ada'",
    "/": "there is no division: `+`, `-` and `*`",
    "%": "there is no remainder: `+`, `-` and `*`",
}
LIMITS = {
    "session": "sessions are numbered from 1 to 64",
    "name": "a name has at most 32 bytes",
    "number": "a number has 64 bits with a sign",
    "text": "a text has at most 255 bytes",
    "columns": "a table has at most 16 columns",
    "checks": "a table has at most 16 checks",
    "parameters": "a program has at most 16 parameters",
    "variables": "a program has at most 16 variables",
    "parts": "a program has at most 32 parts",
    "statements": "a block has at most 64 statements",
    "retry": "a part is tried again from 1 to 9 times",
    "crash": "the call at which a stop comes is from 1 to 1,000,000",
    "pick": "what a stop leaves is from 0 to 4",
    "net": "the turn of a message is from 1 to 1,000,000",
    "act": "what befalls a message is from 0 to 2",
    "pairs": "a line has at most 8 pairs of numbers",
    "depth": "an expression is at most 64 high, and within at most 64 parentheses",
    "tables": "there are at most 64 tables",
    "programs": "there are at most 256 programs",
    "bases": "at most 1,024 BASE programs are under way: let some be released first",
}


@dataclass
class Known:
    """What the story has told before the line, and the script."""

    history: History
    lines: list
    tables: dict = field(default_factory=dict)  # by name: the columns, each a name, a type and whether it may be NULL
    defined: dict = field(default_factory=dict)  # by `table NAME` and `program NAME`: the line
    whole: bool = True  # the story begins with a new database, so that nothing else is defined


def columns_of(definition):
    """The columns of a table's text: name, type, and whether it may be NULL."""
    inside = re.findall(rf"[(,]\s*(?!check\b)({NAME})\s+(int|text)\b(?:\s+key\b)?(\s+null\b)?", definition, re.I)
    return [(name, kind.lower(), bool(null)) for name, kind, null in inside]


# Lines that spell none of the grammar


@dataclass
class Wrong:
    """A text, with the token at which it stops spelling a line."""

    text: str
    words: list
    fault: Fault
    key: str  # the name of the table's first column, where it is known

    def word(self, ahead=0):
        at = self.fault.at + ahead
        return self.words[at] if 0 <= at < len(self.words) else ""

    def statement(self):
        """The words of the statement that has the fault, up to it."""
        before = self.words[:self.fault.at]
        first = max((at for at, word in enumerate(before) if word in STATEMENTS), default=len(before))
        return before[first:]

    def wants(self, what):
        return any(what in expected for expected in self.fault.expected)


def of_comment(wrong):
    if wrong.text.lstrip(" \t").startswith("--"):
        return "a comment begins at the first byte of its line: no blanks before `--`"
    if "--" in wrong.text and wrong.word() == "-" and "-" in (wrong.word(1), wrong.word(-1)):
        return "a comment has a line of its own, and `--` is its first two bytes"
    return None


def of_semicolon(wrong):
    if wrong.word() == "}" and wrong.word(-1) == ";":
        return "`;` stands between the statements of a block: none behind the last"
    if wrong.word() != ";":
        return None
    if wrong.fault.at == len(wrong.words) - 1:
        return "a line ends without `;`: drop it"
    return "a line is one statement: write the next on a line of its own, with its `@S`"


def of_session(wrong):
    first = wrong.words[0]
    if first in STATEMENTS + ("begin", "commit", "rollback", "step", "call") and wrong.fault.at == 0:
        return f"say which session does it: `@1 {first}" + (" ..`" if first in STATEMENTS + ("call",) else "`")
    if first == "@" and wrong.word() in ("create", "program", "go", "show", "crash", "net") and wrong.fault.at == 2:
        return f"`{wrong.word()}` is no session's: drop the `@{wrong.word(-1)}`"
    return None


def of_program(wrong):
    """Programs whose line ends too early, and lines that are a piece of one."""
    if wrong.words[0] == "program" and wrong.fault.token is None:
        return "a program is one line: end each of its lines but the last with `\\`, and the last with `end`"
    if wrong.fault.at == 0 and wrong.words[0] in ("part", "acid", "base", "var", "then", "on", "end", "{", "}"):
        return "is it a piece of the line before? Then end that one with `\\`"
    if wrong.wants("`base`"):
        return "behind the parameters and variables stands `acid` and a block, or `base` and its parts"
    return None


def of_insert(wrong):
    is_insert = wrong.statement()[:1] == ["insert"]
    if is_insert and wrong.word() == "(" and wrong.wants("`values`"):
        return "no column list: `values` has a value for each column, in the order of the table"
    if is_insert and wrong.word() == "," and wrong.word(-1) == ")":
        return "an insert has one row: write another for the next"
    if is_insert and wrong.word() == "select":
        return "an insert takes values, and no `select`"
    return None


def of_key(wrong):
    if wrong.word(-1) == "key" and wrong.word(-2) == "where":
        sign = wrong.word() if wrong.word() in COMPARISONS else ">"
        return f"behind `where key` stands `=` or `between A and B`; or name the column, `where {wrong.key} {sign} ..`, which looks at all rows and locks them"
    if wrong.word() == "or" and "key" in wrong.statement():
        return f"`or` can't widen `where key ..`: name the column, `where {wrong.key} = .. or ..`, which looks at all rows; or put the `or` behind `and (`"
    if wrong.word() == "key" and wrong.wants("a value"):
        return f"`key` stands only directly behind `where`: here it is `{wrong.key}`"
    if wrong.wants("`key`") and wrong.word() in (",", ")"):
        return "the first column is the key: `id int key`"
    return None


def of_columns(wrong):
    word = wrong.word().lower()
    if word == "not" and wrong.words[0] == "create":
        return "a column holds no NULL as it is: drop `not null`; one that may hold it has `null` behind its type"
    if wrong.wants("`int`") and word:
        return f"a type is `int` or `text`: `{TYPES.get(word, 'int')}` here" if word in TYPES else "a name and then its type, `int` or `text`: `id int`"
    if wrong.words[0] == "create" and wrong.word() == "(" and wrong.word(-1) in ("text", "int"):
        return "a type has no length: `text` holds up to 255 bytes"
    if wrong.words[0] == "create" and word == "key":
        return "only the first column is the key, and it alone"
    return None


def of_name(wrong):
    if wrong.statement()[:1] == ["select"] and wrong.word() in ("count", "sum", "min", "max") and wrong.word(1) == "(":
        return f"`{wrong.word()}(..)` stands alone: a select for each"
    if wrong.wants("name") and wrong.fault.token and wrong.fault.token.keyword:
        return f"`{wrong.word()}` is a keyword, and never a name: take another name"
    return None


def of_select(wrong):
    if wrong.word(-2) == "count" and wrong.wants("`*`"):
        return "rows are counted by `count(*)`"
    if wrong.wants("`from`") and wrong.word() in ("+", "-", "*", "||", "("):
        return "a `select` tells columns as they are, or one `count(*)`, `sum(a)`, `min(a)` or `max(a)`"
    if wrong.wants("`from`") and wrong.word() == ",":
        return "`count(*)`, `sum(a)`, `min(a)` and `max(a)` stand alone: one for each select"
    if wrong.word() == "into" and wrong.wants("`from`"):
        return "`into` takes one column: `select a into :x from t where key = 1`"
    if wrong.statement()[2:3] == ["into"] and wrong.word() in ("and", "between"):
        return "`select .. into` reads one key: `where key = 1` and nothing behind it"
    return None


def of_expression(wrong):
    word = wrong.word()
    if word in COMPARISONS and wrong.word(-1) in COMPARISONS:
        return "equal is `=`, and `<=`, `>=`, `<>` are written without a blank"
    if word in COMPARISONS and any(sign in wrong.words[:wrong.fault.at] for sign in COMPARISONS):
        return "comparisons do not chain: `a < b and b < c`"
    if wrong.word(-1) == "-" and wrong.wants("a number"):
        return "a minus stands before a number or between two values: write `0 - x`"
    if word == "null" and wrong.wants("a value"):
        return "`null` is a value by itself, and is tested by `is null` and `is not null`"
    if wrong.word(-1) == "null" and word in ("+", "-", "*", "||") + COMPARISONS:
        return "`null` stands alone; whether a value is NULL says `is null`"
    if word == "." and re.fullmatch("[0-9]+", wrong.word(-1)):
        return "numbers are whole"
    if word == ".":
        return "a column is named without its table"
    return None


def of_call(wrong):
    if wrong.wants("a literal"):
        return "a call has literals: numbers, or texts in single quotes"
    if "call" in wrong.words[:3] and wrong.wants("`(`"):
        return "a call has parentheses, also around nothing: `call p()`"
    if wrong.words[0] == "go" and re.fullmatch(r"b[0-9]+", wrong.word()):
        return "the program's name without its `b`: `go 1.1`"
    if wrong.words[0] == "go":
        return "`go all`, or `go 1.1` for the program b1.1"
    return None


def of_lacking(wrong):
    return LACKING.get(wrong.word().lower())


def of_quotes(wrong):
    if wrong.word() == "'":
        return "a text ends with a single quote, on its line; a quote inside is doubled: 'it''s'"
    if wrong.fault.token and not re.match(r"[A-Za-z_0-9']", wrong.word()) and wrong.word() not in SIGNS:
        return f"`{wrong.word()}` is no sign of the language"
    return None


RULES = (of_comment, of_semicolon, of_session, of_program, of_insert, of_key, of_name, of_columns, of_select, of_lacking, of_quotes, of_expression, of_call)


def unfinished_before(line, known):
    """The program before this line that its own line does not end, where this may be a piece of it."""
    for other in reversed([other for other in known.lines if other.number <= line.number and other.kind != "nothing"]):
        fault = fault_of(other.text)
        if other.kind == "program":
            return other if other != line and fault and fault.token is None else None
        if other.text.startswith("@") or other.kind != "unknown":
            return None
    return None


def of_syntax(line, known):
    """Where a text stops spelling a line, and what to do."""
    fault = fault_of(line.text)
    if fault is None:
        return "docs/GRAMMAR.md has the forms of lines"
    program = unfinished_before(line, known)
    if program:
        return f"is it a piece of the program of line {program.number}? Then end each line before it with `\\`"
    words = words_of(line.text)
    named = [known.tables[name] for name in tables_named(words) if known.tables.get(name)]
    wrong = Wrong(line.text, words, fault, named[0][0][0] if named else "id")
    found = next((hint for hint in (rule(wrong) for rule in RULES) if hint), None)
    where = place_in(line, fault.token.start if fault.token else len(line.text))
    return f"{fault.word()} at {where}: " + (found or " or ".join(fault.expected) + " would stand here")


def place_in(line, offset):
    number, byte = line.place(offset)
    return f"byte {byte}" + (f" of line {number}" if number != line.number else "")


# Names


def of_unknown(line, name, known):
    if re.fullmatch(r"b[0-9]+\.[0-9]+", name):
        program = known.history.programs.get(name)
        why = "it is finished" if program and program.finished else "it was not accepted" if program else "`show bases` tells which there are"
        return f"`go` takes a program that is accepted and not finished: {why}"
    words = words_of(line.command)
    missing = [table for table in tables_named(words) if table not in known.tables]
    if known.whole and missing and missing[0] != name and name not in known.tables and words[:1] != ["call"]:
        return f"it is read as a column of `{missing[0]}`, a table that is not defined" + why_missing("table", missing[0], line, known)
    return of_column(line, name, words, known)


def why_missing(kind, name, line, known):
    """Which line would define a table or program, or which name may be meant."""
    lines = [other for other in known.lines if other.kind == kind and names_defined(other) == name]
    refused = next((other for other in lines if other.number < line.number), None)
    if refused:
        return f": line {refused.number} would define it, and is refused"
    if lines:
        return f": line {lines[0].number} has it, and comes later: move that up"
    return like(name, known.tables if kind == "table" else known.history.definitions)


def of_column(line, name, words, known):
    if words[:1] == ["call"]:
        return "no program of this name is defined" + why_missing("program", name, line, known)
    if name in tables_named(words):
        return "no table of this name is defined" + why_missing("table", name, line, known)
    program = defined_by(line)
    return (of_binding(program, line, name) if program else None) or of_visible(line, name, words, known)


def of_binding(program, line, name):
    """Of a parameter or variable of a program."""
    compact = re.sub(r"\s+", "", line.text)
    if name in dict(program.parameters) and f"into:{name}from" in compact:
        return "`into` stores in a variable, `var x int`, and in no parameter"
    if name in dict(program.parameters + program.variables):
        return f"a parameter or variable has a colon where it is used: `:{name}`"
    return f"`:{name}` is no parameter or variable: `var {name} int` declares it" if f":{name}" in compact else None


def of_visible(line, name, words, known):
    """Of a name that is read as a column's."""
    if line.session is not None and f":{name}" in re.sub(r"\s+", "", line.text):
        return f"`:{name}` is a program's parameter or variable: a session's statement has none"
    columns = list(dict.fromkeys(column for table in tables_named(words) for column, _, _ in known.tables.get(table, ())))
    if name in columns:
        return "values, bounds and `ensure` see no columns: a value, or a `:x` of a program"
    if "insert" in words:
        return f"values see no columns; a text stands between single quotes: '{name}'"
    close = like(name, columns)
    return "no column of the table" + (close or (": it has " + ", ".join(columns) if columns else "") + f"; a text stands between single quotes: '{name}'")


def defined_by(line):
    if line.kind != "program":
        return None
    try:
        return definition_of(line.command)
    except StoryError:
        return None


def tables_named(words):
    """The names that stand where statements have their tables."""
    return [name for before, name in zip(words, words[1:]) if before in ("from", "into", "update") and name not in KEYWORDS and name != ":"]


def names_defined(line):
    words = words_of(line.command)
    at = {"table": 2, "program": 1}.get(line.kind)
    return words[at] if at and len(words) > at else None


def like(name, names):
    close = difflib.get_close_matches(name, list(names), 1, 0.6)
    return f": is `{close[0]}` meant?" if close else ""


def of_exists(line, name, known):
    if names_defined(line) == name:
        before = known.defined.get(f"{line.kind} {name}")
        return f"line {before.number} defines it, and what is defined stays" if before else "it is defined already, and what is defined stays"
    return f"`{name}` stands here twice"


def of_type(line, known):
    words = words_of(line.command)
    if words[:1] == ["call"]:
        program = known.history.definitions.get(words[1])
        takes = ", ".join(f"{name} {kind}" for name, kind in program.parameters) if program else ""
        return f"the arguments are those of `{words[1]}({takes})`, each of its type"
    table = "".join(words[2:3])
    if words[:1] == ["insert"] and table in known.tables:
        columns = known.tables[table]
        return "a value for each column, of its type: " + ", ".join(f"{name} {kind}{' null' if null else ''}" for name, kind, null in columns)
    return "two sides have one type, `||` joins texts and `+ - *` take numbers; only a column declared with `null` takes NULL, or what may be NULL"


def of_branch(line, part, known):
    program, number = defined_by(line), int(part)
    if not program or number > len(program.parts):
        return "ways lead to later parts"
    if number == 1 and program.parts[0].failure:
        return "part 1 has no `on failure`: where it fails nothing was done"
    if program.parts[number - 1].failure is None:
        return f"part {number} says nothing of its failure: `on failure end`, or `on failure go K` to a later part"
    return f"a way of part {number} leads to no later part; there are {len(program.parts)}"


# The state of a session, and of all


def open_unit(known, session=None, program=None):
    """The open unit of a session, or of a program's later part."""
    units = [unit for unit in known.history.units.values() if unit.ended is None]
    if session is not None:
        return next((unit for unit in units if unit.began.session == session), None)
    return next((unit for unit in units if unit.began.session is None and unit.began.program == program), None)


def since(told):
    return f" since line {told.line.number}" if told.line else ""


def of_waiting(unit):
    wait = unit.waits[-1]
    return f"{unit.name} waits{since(wait.asked)} for {' '.join(wait.owners)}; it goes on by itself when they are through"


def of_state(line, known):
    if line.kind == "crash":
        return "these disks can't be stopped: stops are for a run in memory"
    if line.kind == "net":
        return "commits go over messages with --net alone"
    program = "b" + "".join(words_of(line.command)[1:]) if line.kind == "go" else None
    unit = open_unit(known, line.session, program)
    if unit and unit.waits and unit.waits[-1].ended is None:
        return of_waiting(unit) + ("" if line.kind == "go" else ", and until then the session can only `rollback`; another session is free")
    if unit is None:
        opens = {"step": "only a `call` leaves a unit to `step`", "commit": "a statement outside `begin` has committed by itself"}
        return f"session {line.session} has no open unit: " + opens.get(line.kind, "there is nothing to end")
    if unit.definition or unit.began.name:
        return f"{unit.name} of `call {unit.began.name}`{since(unit.began)} is not at its end: go on with `@{line.session} step`, or `@{line.session} rollback`"
    if line.kind == "step":
        return f"{unit.name} came by `begin`{since(unit.began)}: give it a statement, or `@{line.session} commit`"
    return f"session {line.session} has {unit.name} open{since(unit.began)}: first `@{line.session} commit`, or take another session"


def of_busy(line, known):
    open_units = [unit.name + since(unit.began) for unit in known.history.units.values() if unit.ended is None]
    programs = [program.name for program in known.history.programs.values() if program.accepted and not program.released]
    held = (["open is " + ", ".join(open_units)] if open_units else []) + (["not released is " + ", ".join(programs)] if programs else [])
    return "a definition comes while no unit is open and each program is released: " + "; ".join(held)


def of_byte(line):
    found = next((at for at, letter in enumerate(line.text) if letter != "\t" and not " " <= letter <= "~"), 0)
    return f"{line.text[found]!a} at {place_in(line, found)}: only printable ASCII and tabs, in texts too"


def hint_of(line, refusal, known):
    kind, word = refusal.split()[1], refusal.split()[-1]
    hints = {
        "long": lambda: "a line has at most 65,536 bytes",
        "byte": lambda: of_byte(line),
        "syntax": lambda: of_syntax(line, known),
        "limit": lambda: LIMITS.get(word, "docs/GRAMMAR.md has the limits"),
        "unknown": lambda: of_unknown(line, word, known),
        "exists": lambda: of_exists(line, word, known),
        "type": lambda: of_type(line, known),
        "branch": lambda: of_branch(line, word, known),
        "state": lambda: of_state(line, known),
        "busy": lambda: of_busy(line, known),
    }
    return hints[kind]() if kind in hints else "docs/SCRIPT.md has the refusals"
