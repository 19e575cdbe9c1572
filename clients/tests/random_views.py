"""Random definitions of tables and views, and random edits of them. The program judges the definitions."""
import random
import re

from cigrelk import Refused, is_nullable
from cigrelk.sql.samples import Samples
from cigrelk.sql.words import literal_text

COLUMNS = "a b c d e f g h".split()
TEXTS = ["", "x", "y", "it's", "é\n", '"\\,{}', "null"]
VALUES = {"int": [0, 1, 2, 3], "text": TEXTS, "bool": [False, True]}


class Definitions:
    """Definitions that a program has taken: `texts` in order."""

    def __init__(self, program, seed):
        self.program, self.random, self.texts = program, random.Random(seed), []
        # Columns of one name have one type everywhere, so that tables join. Few may be null.
        self.kinds = {name: self.random.choice(["int", "int", "text", "bool", "int null", "text null"] if name in "efgh" else ["int", "text", "int"]) for name in COLUMNS}
        for _ in range(self.random.choice((2, 3, 3, 4))):
            self.define_table()
        for _ in range(self.random.choice((3, 5, 7))):
            self.define_view()

    def define(self, name, text):
        try:
            self.program.define(text)
        except Refused:
            return False
        self.texts.append(text)
        return True

    def text_of(self, name):
        return next(text for text in self.texts if text.split()[1] == name)

    def names(self):
        return list(self.program.names())

    def define_table(self):
        name = f"t{len(self.texts)}"
        for _ in range(50):
            columns = self.random.sample(COLUMNS, self.random.choice((2, 3, 3, 4, 5)))
            text = f"table {name} ({', '.join(f'{column} {self.kinds[column]}' for column in columns)})"
            edges = self.edges(columns)
            text += f" with {', '.join(edges)}" if edges else ""
            text += f" where {self.predicate(columns)}" if self.random.random() < 0.25 else ""
            if self.define(name, text):
                return

    def edges(self, columns):
        """Dependencies in the form of a tree: a key, perhaps a chain behind it, or two beside each other."""
        chance, columns = self.random, list(columns)
        count = chance.choice((1, 1, 1, 2))
        left, right = columns[:count], columns[count:]
        if not right or chance.random() < 0.12:
            return []
        if len(right) > 1 and chance.random() < 0.4:
            cut = chance.randrange(1, len(right))
            middle, rest = right[:cut], right[cut:]
            return [f"{' '.join(left)} -> {' '.join(middle)}", f"{' '.join(middle[:1])} -> {' '.join(rest)}"]
        if len(right) > 1 and chance.random() < 0.4:
            return [f"{' '.join(left)} -> {' '.join(right[1:])}"]
        if len(columns) > 3 and chance.random() < 0.4:
            return [f"{columns[0]} -> {columns[1]}", f"{columns[2]} -> {' '.join(columns[3:])}"]
        return [f"{' '.join(left)} -> {' '.join(right)}"]

    def predicate(self, columns, depth=2):
        chance = self.random
        form = chance.random()
        if depth and form < 0.12:
            return f"not ({self.predicate(columns, depth - 1)})"
        if depth and form < 0.36:
            return f"({self.predicate(columns, depth - 1)} {chance.choice(('and', 'or', 'or'))} {self.predicate(columns, depth - 1)})"
        column = chance.choice(columns)
        kind = self.kinds.get(column) or next(self.kinds[name] for name in COLUMNS if column.startswith(name))
        values_of_kind = VALUES[kind.split()[0]]
        if is_nullable(kind) and chance.random() < 0.3:
            return f"{column} is null"
        if chance.random() < 0.2:
            return f"{column} in ({', '.join(literal_text(chance.choice(values_of_kind)) for _ in range(2))})"
        sign = chance.choice(("=", "!=", "<", "<=", ">", ">=") if kind.startswith(("int", "text")) else ("=", "!="))
        return f"{column} {sign} {literal_text(chance.choice(values_of_kind))}"

    def define_view(self):
        name = f"v{len(self.texts)}"
        for _ in range(80):
            if self.define(name, f"view {name} = {self.expression()}"):
                return

    def expression(self, depth=2):
        chance, names = self.random, self.names()
        operand = lambda: chance.choice(names) if depth == 0 or chance.random() < 0.6 else f"({self.expression(depth - 1)})"
        form = chance.random()
        if form < 0.45:
            return f"{chance.choice(('join_dl', 'join_dl', 'join_dr', 'join_both'))} {operand()} with {operand()}"
        # The other forms name columns, so their operand is one of which the columns are known. Most drops stand over what hides rows.
        hiding = [name for name in names if re.match("view [^=]*= (select|join)", self.text_of(name))] if 0.7 <= form < 0.88 and chance.random() < 0.6 else []
        name = chance.choice(hiding or names)
        said = self.program[name].type()
        columns = list(said["columns"])
        if form < 0.7:
            return f"select from {name} where {self.predicate([column for column in columns if column[0] in self.kinds] or columns)}"
        if form < 0.88 and said["dependencies"]:
            edge = chance.choice(said["dependencies"])
            column = chance.choice(edge["right"])
            kind = said["columns"][column]
            choices = VALUES[kind.split()[0]] + ([None] if is_nullable(kind) else [])
            return f"drop {column} determined by ({' '.join(edge['left'])}, {literal_text(chance.choice(choices))}) from {name}"
        column = chance.choice(columns)
        return f"rename {column} to {column[0]}{len(self.texts)} from {name}"


def edits(program, seed):
    """Random edits over few values."""
    return Samples(program, seed, lambda column, kind: VALUES[kind])
