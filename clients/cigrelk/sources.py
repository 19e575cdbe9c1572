"""The tables under a view: what it shows of each, and whether it joins it in."""
from typing import NamedTuple

from .language import UnknownForm, path_to, shown_columns, tables_in
from .rows import closure


class Source(NamedTuple):
    """A table under a view.

    `names` has, for each column of the table that the view shows, its name in the view. `dependencies` are those of the table, as
    far as the view shows their columns, in the view's names. The table is `joined_in` if one of its rows may stand in several rows
    of the view, as one product stands in many order lines.
    """

    table: str
    names: dict
    dependencies: list
    joined_in: bool


def shown_dependencies(dependencies, names):
    """Dependencies as far as all of the left side and some of the right side is shown, in the names that are shown."""
    for edge in dependencies:
        right = [names[column] for column in edge["right"] if column in names]
        if right and set(edge["left"]) <= set(names):
            yield {"left": [names[column] for column in edge["left"]], "right": right}


def sources_of(view) -> list:
    """The tables under a view, from left to right, each as a Source. A view whose definition this client cannot read counts as a
    table of its own."""
    columns, dependencies = view.columns(), view.type()["dependencies"]
    try:
        tree = view.server.tree(view.name)
    except UnknownForm:
        return [Source(view.name, {name: name for name in columns}, dependencies, False)]
    found = []
    for table in tables_in(tree):
        names = shown_columns(path_to(tree, table))
        shown = list(shown_dependencies(view.server[table].type()["dependencies"], names))
        found.append(Source(table, names, shown, not closure(names.values(), dependencies) >= set(columns)))
    return found
