"""Imports: the rows of a file become those of a table or a view. What that would change is seen before it is made."""
from typing import Callable, List

from .bulk import edit_all
from .rows import Change, paired, values
from .texts import counted, words_of

# How many rows of each sort are shown first.
MOST_SHOWN = 5


class Import:
    """What it would change to make some rows those of a table or a view.

    `deleted` and `added` have rows, and `changed` has pairs of a row and the one that takes its place. It is false if nothing would
    change. `on` is what the rows rest on, as in `View.edit`; without it they rest on the rows of now."""

    def __init__(self, view, rows: List[dict], on=None):
        self.view, now, columns = view, view.read(), view.columns()
        wanted, there = ({values(row, columns): row for row in some} for some in (rows, now))
        removed = [row for cells, row in there.items() if cells not in wanted]
        added = [row for cells, row in wanted.items() if cells not in there]
        self.on, self.pairs = now if on is None else on, paired(removed, added, view.key())
        self.deleted = [old for old, new in self.pairs if new is None]
        self.changed = [(old, new) for old, new in self.pairs if old is not None and new is not None]
        self.added = [new for old, new in self.pairs if old is None]

    def __bool__(self) -> bool:
        return bool(self.pairs)

    def summary(self) -> str:
        """What it would do, in numbers."""
        told = [f"{does} {counted(len(rows), 'row')}" for does, rows in (("delete", self.deleted), ("change", self.changed), ("add", self.added)) if rows]
        return f"{self.view.name}: this would {', '.join(told)}" if told else "no change"

    def lines(self, most: int = MOST_SHOWN) -> List[str]:
        """The first rows of each sort, a line each, in the order of `summary`."""
        found = [f"- {words_of(row)}" for row in self.deleted[:most]] + self.more(self.deleted, most, "-")
        for old, new in self.changed[:most]:
            key = self.view.key()
            names = [name for name in new if name in key or new[name] != old[name]]
            found.append(f"~ {words_of({name: old[name] for name in names})} -> {words_of({name: new[name] for name in names if name not in key or new[name] != old[name]})}")
        found += self.more(self.changed, most, "~")
        return found + [f"+ {words_of(row)}" for row in self.added[:most]] + self.more(self.added, most, "+")

    @staticmethod
    def more(rows, most, mark):
        return [f"{mark} .. and {len(rows) - most:,} more"] if len(rows) > most else []

    def make(self, told: Callable[[int], None] = lambda done: None) -> List[Change]:
        """Makes it. Raises Stale if a table was changed since, and the refusals of `View.edit`; nothing is changed then."""
        return edit_all(self.view.server, [(self.view.name, self.pairs)], self.on, told) if self.pairs else []


def counts(server, changes: List[Change]) -> List[str]:
    """What changes changed, in numbers, a line a table."""
    numbers = {}
    for change in changes:
        for name, (removed, added) in change.tables.items():
            pairs = paired(removed, added, server[name].key())
            found = numbers.setdefault(name, {"added": 0, "changed": 0, "deleted": 0})
            for old, new in pairs:
                found["added" if old is None else "deleted" if new is None else "changed"] += 1
    return [f"{name}: {in_numbers(found)}" for name, found in numbers.items()]


def in_numbers(found) -> str:
    return ", ".join(f"{counted(number, 'row')} {how}" for how, number in found.items() if number)
