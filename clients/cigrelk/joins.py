"""By which columns the joins of a view join, and which of these columns are most likely there by chance."""
from typing import NamedTuple

from .language import Join, Table, columns_of, path_to, shown_columns, tables_in
from .rows import closure
from .sources import shown_dependencies
from .texts import listing

# Names that say nothing of what they name: two tables that both have one seldom mean the same by it.
BARE_NAMES = {"id", "key", "code", "name", "no", "nr", "num", "number"}


class Joined(NamedTuple):
    """A join of a view: the columns that it joins by, the tables of its two sides that have them, and those of the columns that
    both sides most likely have by chance."""

    columns: list
    left: list
    right: list
    unlikely: list

    def __str__(self):
        return f"{listing(self.left)} with {listing(self.right)} by {listing(self.columns)}"

    def warning(self) -> str:
        """What to do where both sides have a column by chance; empty where none is unlikely."""
        if not self.unlikely:
            return ""
        name, left, right = self.unlikely[0], self.left[0], self.right[0]
        return (f"{left} and {right} are joined by {listing(self.columns)}, which both have. If the two mean different things by {name}, "
                f"rename one before the join: (rename {name} to {right}_{name} from {right})")


def joins_of(view) -> list:
    """The joins that a view is made of, the innermost first."""
    tree = view.server.tree(view.name)
    edges = {table: view.server[table].type()["dependencies"] for table in tables_in(tree)}
    return [joined(node, edges) for node in joins_in(tree)]


def joins_in(node):
    if isinstance(node, Table):
        return []
    if isinstance(node, Join):
        return [*joins_in(node.left), *joins_in(node.right), node]
    return joins_in(node.operand)


def joined(join, edges):
    left, right = columns_of(join.left), columns_of(join.right)
    shared = [name for name in left if name in right]
    sides = [(columns, dependencies_under(side, edges)) for columns, side in ((left, join.left), (right, join.right))]
    unlikely = [name for name in shared if is_unlikely(name, shared, sides)]
    return Joined(shared, having(shared, join.left), having(shared, join.right), unlikely)


def is_unlikely(name, shared, sides):
    """Whether the other columns determine this one already, or it is a bare name that is the key of both sides."""
    others = [it for it in shared if it != name]
    if any(name in closure(others, dependencies) for _, dependencies in sides):
        return True
    return name in BARE_NAMES and all(closure([name], dependencies) >= set(columns) for columns, dependencies in sides)


def dependencies_under(node, edges):
    """The dependencies of the tables under a part of a view, in the names that it shows."""
    return [edge for table in tables_in(node) for edge in shown_dependencies(edges[table], shown_columns(path_to(node, table)))]


def having(columns, node):
    """The tables under a part of a view that have some of these columns; the fewest that have all, where one has."""
    shown = {table: set(shown_columns(path_to(node, table)).values()) for table in tables_in(node)}
    whole = [table for table in shown if shown[table].issuperset(columns)]
    return whole[:1] or [table for table in shown if not shown[table].isdisjoint(columns)] or tables_in(node)
