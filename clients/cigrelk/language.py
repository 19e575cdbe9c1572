"""Definitions: what a table or a view is made of, and predicates that are evaluated here."""
import functools
import operator
import re
from typing import NamedTuple


class UnknownForm(ValueError):
    """A definition in words that this client does not know."""


class Table(NamedTuple):
    name: str
    kinds: dict


class Named(NamedTuple):
    name: str


class Select(NamedTuple):
    operand: tuple
    predicate: tuple


class Drop(NamedTuple):
    column: str
    by: list
    default: object
    operand: tuple


class Rename(NamedTuple):
    column: str
    to: str
    operand: tuple


class Join(NamedTuple):
    """`kind` is the word: join_dl, join_dr or join_both, by the side from which it deletes."""

    kind: str
    left: tuple
    right: tuple

    def deletes_from(self, side):
        return self.kind != "join_dl" or side is self.left


class Column(NamedTuple):
    """A column at the right of a comparison."""

    name: str


class Truth(NamedTuple):
    value: bool

    def holds(self, row):
        return self.value


class Compare(NamedTuple):
    """A comparison, which is false where one of the two values is null."""

    column: str
    sign: str
    right: object

    def holds(self, row):
        left, right = row[self.column], row[self.right.name] if isinstance(self.right, Column) else self.right
        return left is not None and right is not None and COMPARISONS[self.sign](left, right)


class Among(NamedTuple):
    column: str
    literals: list

    def holds(self, row):
        return row[self.column] in self.literals


class IsNull(NamedTuple):
    column: str

    def holds(self, row):
        return row[self.column] is None


class Not(NamedTuple):
    part: tuple

    def holds(self, row):
        return not self.part.holds(row)


class All(NamedTuple):
    parts: list

    def holds(self, row):
        return all(part.holds(row) for part in self.parts)


class Any(NamedTuple):
    parts: list

    def holds(self, row):
        return any(part.holds(row) for part in self.parts)


COMPARISONS = {"=": operator.eq, "!=": operator.ne, "<": operator.lt, "<=": operator.le, ">": operator.gt, ">=": operator.ge}
JOINS = ("join_dl", "join_dr", "join_both")
TOKEN = re.compile(r"[ \t\r\n]*(?:('(?:[^']|'')*'|->|<=|>=|!=|[a-z_][a-z0-9_]*|-?[0-9]+|[(),=<>])|\Z)")


class Reader:
    """Reads definitions that the program has taken. What goes wrong here is in words of a later program: UnknownForm."""

    def __init__(self, text):
        self.tokens, self.at, place = [], 0, 0
        while place < len(text):
            found = TOKEN.match(text, place)
            if not found:
                raise UnknownForm(f"this client does not know {text[place : place + 20]!r}")
            self.tokens += [found[1]] if found[1] else []
            place = found.end()

    def next(self):
        return self.tokens[self.at] if self.at < len(self.tokens) else None

    def take(self, *wanted):
        """The next token, which is one of those wanted, where any is named."""
        token = self.next()
        if token is None or (wanted and token not in wanted):
            raise UnknownForm(f"this client does not know {token!r} in a definition")
        self.at += 1
        return token

    def takes(self, token):
        """Whether the next token is this one, which is then taken."""
        if self.next() != token:
            return False
        self.at += 1
        return True

    def whole(self, read):
        """What `read` gives, with nothing behind it."""
        found = read()
        if self.next() is not None:
            raise UnknownForm(f"this client does not know {self.next()!r} in a definition")
        return found

    def definition(self):
        if self.take("table", "view") == "view":
            self.take()
            self.take("=")
            return self.whole(self.expression)
        name, kinds = self.take(), {}
        self.take("(")
        while True:
            column = self.take()
            kinds[column] = self.take("int", "text", "bool") + (" null" if self.takes("null") else "")
            if self.take(",", ")") == ")":
                return Table(name, kinds)

    def expression(self):
        word = self.take()
        if word == "select":
            self.take("from")
            operand = self.operand()
            self.take("where")
            return Select(operand, self.predicate())
        if word == "drop":
            return self.drop()
        if word == "rename":
            column = self.take()
            self.take("to")
            to = self.take()
            self.take("from")
            return Rename(column, to, self.operand())
        if word in JOINS:
            left = self.operand()
            self.take("with")
            return Join(word, left, self.operand())
        return Named(word)

    def drop(self):
        column, by = self.take(), []
        for word in ("determined", "by", "("):
            self.take(word)
        while not self.takes(","):
            by.append(self.take())
        default = None if self.takes("null") else self.literal()
        self.take(")")
        self.take("from")
        return Drop(column, by, default, self.operand())

    def operand(self):
        if not self.takes("("):
            return Named(self.take())
        inside = self.expression()
        self.take(")")
        return inside

    def predicate(self):
        parts = [self.conjunction()]
        while self.takes("or"):
            parts.append(self.conjunction())
        return Any(parts) if len(parts) > 1 else parts[0]

    def conjunction(self):
        parts = [self.part()]
        while self.takes("and"):
            parts.append(self.part())
        return All(parts) if len(parts) > 1 else parts[0]

    def part(self):
        word = self.take()
        if word == "not":
            return Not(self.part())
        if word in ("true", "false"):
            return Truth(word == "true")
        if word == "(":
            inside = self.predicate()
            self.take(")")
            return inside
        sign = self.take("in", "is", *COMPARISONS)
        if sign == "is":
            self.take("null")
            return IsNull(word)
        if sign != "in":
            return Compare(word, sign, self.right_side())
        self.take("(")
        literals = [self.literal()]
        while self.take(",", ")") == ",":
            literals.append(self.literal())
        return Among(word, literals)

    def right_side(self):
        if self.next() not in ("true", "false") and re.match("[a-z_]", self.next() or ""):
            return Column(self.take())
        return self.literal()

    def literal(self):
        token = self.take()
        if token in ("true", "false"):
            return token == "true"
        if token.startswith("'"):
            return token[1:-1].replace("''", "'")
        if re.fullmatch("-?[0-9]+", token):
            return int(token)
        raise UnknownForm(f"this client does not know {token!r} in a definition")


def defined(text: str) -> "tuple[str, str]":
    """The kind, 'table' or 'view', and the name that a definition begins with."""
    return tuple(re.match(r"[ \t\r\n]*(table|view)[ \t\r\n]+([a-z_][a-z0-9_]*)", text).groups())


@functools.lru_cache(maxsize=None)
def parsed(text):
    """A definition that the program has taken: a Table, or the expression of a view. Raises UnknownForm."""
    return Reader(text).definition()


@functools.lru_cache(maxsize=None)
def condition_of(text):
    """A predicate by its text, or None where this client does not know its words."""
    try:
        reader = Reader(text)
        return reader.whole(reader.predicate)
    except UnknownForm:
        return None


def columns_compared(part):
    """The columns that a predicate asks about."""
    if isinstance(part, (All, Any)):
        return set().union(*map(columns_compared, part.parts))
    if isinstance(part, Not):
        return columns_compared(part.part)
    if isinstance(part, Truth):
        return set()
    return {part.column, part.right.name} if isinstance(part, Compare) and isinstance(part.right, Column) else {part.column}


def expanded(node, texts):
    """An expression with tables in place of names. `texts` has each definition by its name."""
    if isinstance(node, Named):
        return expanded(parsed(texts[node.name]), texts)
    if isinstance(node, Join):
        return Join(node.kind, expanded(node.left, texts), expanded(node.right, texts))
    return node if isinstance(node, Table) else node._replace(operand=expanded(node.operand, texts))


def columns_of(node) -> "list[str]":
    """The columns that an expression shows, in the order of its definition."""
    if isinstance(node, Table):
        return list(node.kinds)
    if isinstance(node, Join):
        left = columns_of(node.left)
        return left + [name for name in columns_of(node.right) if name not in left]
    return list(carried({name: name for name in columns_of(node.operand)}, node).values())


def carried(names, node):
    """Columns by the names that they have above a node, where `names` has those below it; without the column that it drops."""
    if isinstance(node, Drop):
        return {column: name for column, name in names.items() if name != node.column}
    if isinstance(node, Rename):
        return {column: node.to if name == node.column else name for column, name in names.items()}
    return names


def path_to(node, name):
    """The nodes of an expression from its top down to a table, or None where the table is not under it."""
    if isinstance(node, Table):
        return [node] if node.name == name else None
    for below in (node.left, node.right) if isinstance(node, Join) else (node.operand,):
        path = path_to(below, name)
        if path:
            return [node, *path]
    return None


def shown_columns(path):
    """The columns of the table at the end of a path that its top shows, each with the name that it has there."""
    names = {name: name for name in path[-1].kinds}
    for node in reversed(path[:-1]):
        names = carried(names, node)
    return names


def tables_in(node) -> "list[str]":
    """The names of the tables under an expression, from left to right."""
    if isinstance(node, Table):
        return [node.name]
    return tables_in(node.left) + tables_in(node.right) if isinstance(node, Join) else tables_in(node.operand)
