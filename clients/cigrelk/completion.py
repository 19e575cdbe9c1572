"""Rows that are completed: a key that is typed brings along the columns that it determines."""
from typing import NamedTuple

from .refusals import refusal
from .rows import in_order, values
from .sources import sources_of


class Completion(NamedTuple):
    """A row with all that its keys determine.

    `row` has the columns that are known, and `missing` names the columns of the view that are not. Of these, `asked` are the ones
    that somebody has to give: no other missing column determines them. All are in the order of the definition.
    """

    row: dict
    missing: list
    asked: list


class Step(NamedTuple):
    """A dependency of a view, with the table that has the rows. `columns` has the table's name for each column of the view.
    `repoints` tells that another key means another row, and not another key of the same row."""

    left: list
    right: list
    table: str
    columns: dict
    repoints: bool


class Completer:
    """Completes rows of one view, over the rows of now and some that are not sent yet."""

    def __init__(self, view, among=()):
        self.server, self.columns, self.among = view.server, view.columns(), list(among)
        # Rows that were looked up, by a dependency and its left side.
        self.known, self.ahead = {}, {}
        self.dependencies = view.type()["dependencies"]
        key = set(view.key())
        self.steps = in_turn([
            Step(edge["left"], edge["right"], source.table, {name: column for column, name in source.names.items()},
                 source.joined_in or not key.issuperset(edge["left"]))
            for source in sources_of(view) for edge in source.dependencies
        ])

    def complete(self, row, typed) -> Completion:
        """See View.complete."""
        for name in (*row, *typed):
            if name not in self.columns:
                raise refusal({"ok": False, "error": 23, "name": name})
        found, moved = {**row, **typed}, set(typed)
        for step in self.steps:
            if moved.isdisjoint(step.left):
                continue
            wanted = [name for name in step.right if name not in typed]
            source = self.row_with(step, found)
            if source:
                found.update({name: source[name] for name in wanted})
                moved.update(wanted)
            elif step.repoints:
                went = self.came_along(step, row, wanted)
                for name in went:
                    del found[name]
                moved.update(went)
        missing = [name for name in self.columns if name not in found]
        follow = {name for edge in self.dependencies if not set(edge["left"]).isdisjoint(missing) for name in edge["right"]}
        return Completion(in_order(found, [name for name in self.columns if name in found]), missing, [it for it in missing if it not in follow])

    def row_with(self, step, row):
        """The right side of a dependency, of a row that has the left side of this one; None where there is no such row."""
        if not row.keys() >= set(step.left):
            return None
        known, key = self.known.setdefault((step.table, *step.left), {}), values(row, step.left)
        if key not in known:
            known[key] = self.unsent(step).get(key) or self.stored(step, row)
        return known[key]

    def unsent(self, step):
        """The right sides in the rows that are not sent yet, by the left sides."""
        sides = *step.left, *step.right
        if sides not in self.ahead:
            self.ahead[sides] = {values(row, step.left): row for row in self.among if row.keys() >= set(sides)}
        return self.ahead[sides]

    def stored(self, step, row):
        """The right side in the table."""
        wanted = {step.columns[name]: row[name] for name in step.left}
        first = step.columns[step.left[0]]
        for found in self.server[step.table].find(first, wanted[first]):
            if all(found[column] == value for column, value in wanted.items()):
                return {name: found[step.columns[name]] for name in step.right}
        return None

    def came_along(self, step, row, names):
        """Those of some columns that a row has by its old key, and not since somebody typed them."""
        old = self.row_with(step, row)
        return [name for name in names if old and name in row and row[name] == old[name]]


def in_turn(steps):
    """Steps, each behind those that determine a column of its left side."""
    found, rest = [], list(steps)
    while rest:
        later = {name for step in rest for name in step.right}
        ready = [step for step in rest if later.isdisjoint(step.left)] or rest[:1]
        found += ready
        rest = [step for step in rest if step not in ready]
    return found
