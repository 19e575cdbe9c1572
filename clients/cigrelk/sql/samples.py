"""Random edits of the tables and views of a program, some of which are accepted and some rejected."""
import random

from ..kinds import base, is_nullable
from ..language import condition_of
from ..rows import values


class Samples:
    """Edits over the rows of now. `choices` gives the values for a column of a type."""

    def __init__(self, program, seed, choices):
        self.program, self.random, self.choices = program, random.Random(seed), choices
        names = program.names()
        self.types = {name: program[name].type() for name in names}
        self.tables = [name for name, kind in names.items() if kind == "table"]

    def next(self):
        """A name, rows to remove and rows to add."""
        chance = self.random
        name = chance.choice(list(self.types))
        said, rows = self.types[name], list(self.program[name].read())
        conditions = [condition_of(text) for text in said["predicate"]]
        style = chance.random()
        if style < 0.3 or not rows:
            return name, [], [self.row(said, rows, conditions) for _ in range(chance.choice((1, 1, 1, 2, 3)))]
        if style < 0.5:
            gone = chance.sample(rows, min(len(rows), chance.choice((1, 1, 1, 2, 4))))
            return name, gone + ([self.row(said, rows, conditions)] if chance.random() < 0.1 else []), []
        if style < 0.75 and said["dependencies"]:
            return name, *self.revision(said, rows, conditions)
        row = chance.choice(rows)
        column = chance.choice(list(row))
        new = {**row, column: self.value(column, said["columns"][column])}
        if chance.random() < 0.7:
            new = following(new, said, [other for other in rows if other != row])
        more = [self.row(said, rows, conditions)] if chance.random() < 0.15 else []
        return name, [row], [new, *more]

    def value(self, column, kind):
        if is_nullable(kind) and self.random.random() < 0.25:
            return None
        return self.random.choice(self.choices(column, base(kind)))

    def row(self, said, rows, conditions):
        """A row that most often satisfies the predicate and the dependencies, and now and then agrees with what is not shown."""
        careful = self.random.random() < 0.85
        fixed = self.part_of_hidden(said, rows) if self.random.random() < 0.4 else {}
        for _ in range(8):
            row = {name: self.value(name, kind) for name, kind in said["columns"].items()} | fixed
            if careful:
                row = following(row, said, rows)
            if not careful or all(condition.holds(row) for condition in conditions):
                break
        return row

    def part_of_hidden(self, said, rows):
        """Some values of a row of a table that no row here shows: a selection hides it, or it waits for the other side of a join. Such
        a row is met by few edits that know only what is shown."""
        table = self.random.choice(self.tables)
        shared = [name for name, kind in self.types[table]["columns"].items() if said["columns"].get(name) == kind]
        shown = {values(row, shared) for row in rows}
        hidden = [row for row in self.program[table].read() if values(row, shared) not in shown]
        if not hidden:
            return {}
        sides = [side for edge in self.types[table]["dependencies"] for side in (edge["left"], edge["left"] + edge["right"])]
        columns = self.random.choice([shared, *sides, *([name] for name in shared)])
        one = self.random.choice(hidden)
        return {name: one[name] for name in columns if name in shared}

    def revision(self, said, rows, conditions):
        """Rows that take another right side along a dependency: all that share the left side, or now and then not all."""
        edge = self.random.choice(said["dependencies"])
        one = self.random.choice(rows)
        group = [row for row in rows if values(row, edge["left"]) == values(one, edge["left"])]
        column = self.random.choice(edge["right"])
        for _ in range(8):
            value = self.value(column, said["columns"][column])
            new = [{**row, column: value} for row in group]
            if all(condition.holds(row) for row in new for condition in conditions):
                break
        count = len(group) if self.random.random() < 0.9 else self.random.randint(1, len(group))
        return group[:count], new[:count]


def following(row, said, rows):
    """A row with the right sides that other rows have beside its left sides."""
    for edge in said["dependencies"]:
        found = next((other for other in rows if values(other, edge["left"]) == values(row, edge["left"])), None)
        if found:
            row = {**row, **{name: found[name] for name in edge["right"]}}
    return row
