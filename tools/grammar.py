"""Whether a line spells one of the grammar (docs/GRAMMAR.md), and where it stops doing so. Limits and names are not looked at.

    fault_of(text)      None, or the Fault at the first token that no line has there
"""
import re
from dataclasses import dataclass
from typing import Optional

from stories import Token, tokens

COMPARISONS = ("=", "<>", "<", "<=", ">", ">=")
PARENTHESES_MOST = 128  # around one token
SIGNS = frozenset("( ) { } , ; : @ . * + - || = <> < <= > >=".split())


class Stop(Exception):
    def __init__(self, expected):
        super().__init__(expected)
        self.expected = expected


@dataclass(frozen=True)
class Fault:
    token: Optional[Token]  # None: the text ends too early
    at: int  # how many tokens stand before it
    expected: tuple  # words that may stand there, in backquotes, and kinds of tokens, as `a name`

    def word(self):
        return f"`{self.token.text}`" if self.token else "the end of the line"


class Parser:
    def __init__(self, found):
        self.tokens, self.at = found, 0

    def peek(self):
        return self.tokens[self.at].text if self.at < len(self.tokens) else ""

    def take(self, *words):
        found = self.peek() != "" and self.peek() in words
        self.at += found
        return found

    def need(self, *words):
        if not self.take(*words):
            raise Stop(tuple(f"`{word}`" for word in words))

    def rows(self, *words):
        for word in words:
            self.need(word)

    def of_form(self, form, what):
        token = self.tokens[self.at] if self.at < len(self.tokens) else None
        if token is None or token.keyword or not re.fullmatch(form, token.text):
            raise Stop((what,))
        self.at += 1

    def name(self, what="a name"):
        self.of_form(r"[A-Za-z_]\w*", what)

    def number(self, what="a number"):
        self.of_form("[0-9]+", what)

    def listed(self, item, separator=","):
        item()
        while self.take(separator):
            item()

    # Expressions

    def atom(self):
        if self.take("("):
            self.expression()
            self.need(")")
        elif self.take(":"):
            self.name("a parameter's or variable's name")
        elif self.take("-"):
            self.number()
        else:
            self.of_form(r"[A-Za-z_]\w*|[0-9]+|'[ -~]*'", "a value")

    def product(self):
        self.atom()
        while self.take("*"):
            self.atom()

    def sum(self):
        self.product()
        while self.take("+", "-", "||"):
            self.product()

    def comparison(self):
        while self.take("not"):
            pass
        self.sum()
        if self.take("is"):
            self.take("not")
            self.need("null")
        elif self.take(*COMPARISONS):
            self.sum()

    def conjunction(self):
        self.comparison()
        while self.take("and"):
            self.comparison()

    def expression(self):
        self.conjunction()
        while self.take("or"):
            self.conjunction()

    def column_value(self):
        if not self.take("null"):
            self.expression()

    # Statements

    def where(self):
        if not self.take("where"):
            return
        if not self.take("key"):
            return self.expression()
        if self.take("="):
            self.sum()
        elif self.take("between"):
            self.sum()
            self.need("and")
            self.sum()
        else:
            raise Stop(("`=`", "`between`"))
        if self.take("and"):
            self.conjunction()

    def insert(self):
        self.need("into")
        self.name("a table's name")
        self.rows("values", "(")
        self.listed(self.column_value)
        self.need(")")

    def select(self):
        if self.what() and self.take("into"):
            self.need(":")
            self.name("a variable's name")
            self.need("from")
            self.name("a table's name")
            self.rows("where", "key", "=")
            return self.sum()
        self.need("from")
        self.name("a table's name")
        self.where()

    def what(self):
        """What a SELECT tells; whether it is one column."""
        if self.take("*"):
            return False
        if self.take("count"):
            self.rows("(", "*", ")")
            return False
        if self.take("sum", "min", "max"):
            self.need("(")
            self.name("a column's name")
            self.need(")")
            return False
        first = self.at
        self.listed(lambda: self.name("a column's name"))
        return self.at == first + 1

    def update(self):
        self.name("a table's name")
        self.need("set")
        self.listed(self.change)
        self.where()

    def change(self):
        self.name("a column's name")
        self.need("=")
        self.column_value()

    def delete(self):
        self.need("from")
        self.name("a table's name")
        self.where()

    def statement(self):
        verb = self.peek()
        self.need("insert", "select", "update", "delete", "ensure")
        {"insert": self.insert, "select": self.select, "update": self.update, "delete": self.delete, "ensure": self.expression}[verb]()

    # Definitions

    def field(self):
        self.name()
        self.need("int", "text")

    def table(self):
        self.need("table")
        self.name("a table's name")
        self.need("(")
        self.field()
        self.need("key")
        checks = False
        while self.take(","):
            checks = self.column_or_check(checks)
        self.need(")")

    def column_or_check(self, checks):
        if self.take("check"):
            self.expression()
            return True
        if checks:
            raise Stop(("`check`",))
        self.field()
        self.take("null")
        return False

    def program(self):
        self.name("a program's name")
        self.need("(")
        if self.peek() != ")":
            self.listed(self.field)
        self.need(")")
        if self.take("var"):
            self.listed(self.field)
        if self.take("acid"):
            self.block()
        else:
            self.need("base")
            self.need("part")
            self.part()
            while self.take("part"):
                self.part()
        self.need("end")

    def block(self):
        self.need("{")
        self.listed(self.statement, ";")
        self.need("}")

    def part(self):
        self.block()
        if self.take("then"):
            self.way()
        if self.take("on"):
            self.need("failure")
            if self.take("retry"):
                self.number()
                self.need("then")
            self.way()

    def way(self):
        if self.take("go"):
            self.number("a part's number")
        else:
            self.need("end")

    # Lines

    def literal(self):
        if self.take("-"):
            self.number()
        else:
            self.of_form("[0-9]+|'[ -~]*'", "a literal")

    def act(self):
        self.number("a session's number")
        if self.take("call"):
            self.name("a program's name")
            self.need("(")
            if self.peek() != ")":
                self.listed(self.literal)
            self.need(")")
        elif not self.take("begin", "commit", "rollback", "step"):
            self.statement()

    def pairs(self):
        self.number()
        self.number()
        while self.peek():
            self.number()
            self.number()

    def go(self):
        if not self.take("all"):
            self.number("`all` or a number")
            self.need(".")
            self.number()

    def line(self):
        word = self.peek()
        forms = {"@": self.act, "create": self.table, "program": self.program, "go": self.go, "crash": self.pairs, "net": self.pairs}
        if word == "show":
            self.take(word)
            self.need("locks", "bases")
        elif word in forms:
            self.take(word)
            forms[word]()
        else:
            raise Stop(("`@`", "`create`", "`program`", "`go`", "`show`", "`crash`"))
        if self.at < len(self.tokens):
            raise Stop(("the end of the line",))


def too_deep(found):
    """The place of the first token that stands within more open parentheses than a text may have; behind the last one, where none does."""
    depth = 0
    for at, token in enumerate(found):
        if depth > PARENTHESES_MOST:
            return at
        depth += (token.text == "(") - (token.text == ")")
    return len(found)


def fault_of(text):
    if not text.strip(" \t") or text.startswith("--"):
        return None
    found = tokens(text)
    parser = Parser(found[:too_deep(found)])
    try:
        parser.line()
    except Stop as stop:
        is_deep = parser.at == len(parser.tokens) < len(found)
        expected = (f"no more than {PARENTHESES_MOST} open parentheses",) if is_deep else stop.expected
        return Fault(found[parser.at] if parser.at < len(found) else None, parser.at, expected)
    return None
