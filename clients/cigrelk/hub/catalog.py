"""What is defined, when each table was changed last, and what of it one user may see."""
import json
import re
from typing import Dict, FrozenSet, Iterable, List, NamedTuple, Optional, Set, Tuple

from ..language import Drop, Join, Named, Rename, Select, Table, UnknownForm, columns_of, defined, expanded, parsed, shown_columns
from .refusing import NO_RIGHT, No
from .replies import version_in
from .requests import MOST_VERSION
from .rights import User

# (a text between quotation marks has none without a backslash, so this finds what it seems to find)
TABLES = re.compile(rb'\],"table":"([a-z0-9_]+)"\}')


class Root(NamedTuple):
    """The one table of a view whose rows make the view's rows: the table under the left sides of its joins, all of them join_dl.

    `keys` has, for each dependency of the table, its left side by the names of the table and by those of the view; for a table
    without dependencies all of its columns."""

    table: str
    keys: List[Tuple[Tuple[str, ...], Tuple[str, ...]]]

    def of_table(self, rows: Iterable[dict]) -> set:
        """The keys of rows of the table: the places of dependencies, each with the values of its left side."""
        return {(place, *(row[name] for name in names)) for row in rows for place, (names, _) in enumerate(self.keys)}

    def of_view(self, rows: Iterable[dict]) -> set:
        """The keys of rows of the view."""
        return {(place, *(row[name] for name in names)) for row in rows for place, (_, names) in enumerate(self.keys)}


class Entry:
    """A table or a view. `made_of` has the names in its text, and `columns` are in the order of its definition."""

    def __init__(self, text: str, told: dict, catalog: "Catalog"):
        self.kind, self.name = defined(text)
        self.text, self.tables, self.table_set = text, told["tables"], frozenset(told["tables"])
        self.dependencies, self.predicate = told["dependencies"], told["predicate"]
        self.columns: Dict[str, str] = told["columns"]
        # A form that is newer than the hub: what it is made of is not known, so it is open to an admin alone.
        self.made_of: Optional[List[str]] = None
        self.root: Optional[Root] = None
        try:
            node = parsed(text)
            tree = expanded(node, {**catalog.texts(), self.name: text})
            self.columns = {name: told["columns"][name] for name in columns_of(tree)}
            self.made_of = names_in(node)
            self.root = root_of(tree, lambda name: self.dependencies if name == self.name else catalog.entries[name].dependencies)
        except UnknownForm:
            pass

    def as_table(self) -> str:
        """The window as a definition of a table."""
        columns = ", ".join(f"{name} {kind}" for name, kind in self.columns.items())
        sides = [f"{' '.join(edge['left'])} -> {' '.join(edge['right'])}" for edge in self.dependencies]
        parts = self.predicate if len(self.predicate) < 2 else [f"({it})" for it in self.predicate]
        return f"table {self.name} ({columns})" + (f" with {', '.join(sides)}" if sides else "") + (f" where {' and '.join(parts)}" if parts else "")


def names_in(node) -> List[str]:
    """The names that an expression is made of."""
    if isinstance(node, Named):
        return [node.name]
    if isinstance(node, Table):
        return []
    return names_in(node.left) + names_in(node.right) if isinstance(node, Join) else names_in(node.operand)


def root_of(tree, dependencies_of) -> Optional[Root]:
    """The root of a view, or None if it has none: a join deletes from its right side, or a drop goes by other columns than those of a
    dependency of the root. `dependencies_of` gives those of a table."""
    node, path = tree, [tree]
    while not isinstance(node, Table):
        if isinstance(node, Join) and node.kind != "join_dl" or not isinstance(node, (Join, Select, Drop, Rename)):
            return None
        node = node.left if isinstance(node, Join) else node.operand
        path.append(node)
    sides = [tuple(edge["left"]) for edge in dependencies_of(node.name)] or [tuple(node.kinds)]
    for place, above in enumerate(path):
        if isinstance(above, Drop):
            names = {shown: column for column, shown in shown_columns(path[place + 1 :]).items()}
            if not set(above.by) <= names.keys() or tuple(sorted(names[name] for name in above.by)) not in map(tuple, map(sorted, sides)):
                return None
    shown = shown_columns(path)
    if not all(shown.keys() >= set(side) for side in sides):
        return None
    return Root(node.name, [(side, tuple(shown[name] for name in side)) for side in sides])


class Catalog:
    """All that is defined, in order, and the version at which each table was changed last.

    The hub counts versions by itself: edits that the program makes as one batch are a version each for their clients, and one for
    the program. `version` and `changed` are the hub's, `program_version` and `changed_in_program` those of the program."""

    def __init__(self):
        self.entries: Dict[str, Entry] = {}
        # (by view what `changed_at` has reckoned since the last change)
        self.reckoned: Dict[str, int] = {}
        self.changed: Dict[str, int] = {}
        self.changed_in_program: Dict[str, int] = {}
        self.version = self.program_version = 0

    def texts(self) -> Dict[str, str]:
        return {name: entry.text for name, entry in self.entries.items()}

    def add(self, text: str, told: dict) -> None:
        """Adds a definition that the program has taken. `told` is its reply to `type`."""
        entry = Entry(text, told, self)
        self.entries[entry.name] = entry
        if entry.kind == "table":
            self.changed[entry.name] = self.version
            self.changed_in_program[entry.name] = self.program_version

    def pass_to(self, program_version: int) -> None:
        """Notes the version that the program has come to, or stayed at."""
        if program_version != self.program_version:
            self.version, self.program_version = self.version + 1, program_version

    def note(self, line: bytes) -> List[str]:
        """Takes the version and the tables of the reply to an accepted change, and gives these tables."""
        self.pass_to(version_in(line))
        return self.touch(tables_in(line))

    def step(self, line: bytes, tables: List[str]) -> List[str]:
        """Takes a part of a change, which is a version of its own here: the tables that it changed. `line` is the reply to the whole
        change."""
        self.version, self.program_version = self.version + 1, version_in(line)
        return self.touch(tables)

    def touch(self, tables: List[str]) -> List[str]:
        self.reckoned.clear()
        for table in tables:
            self.changed[table], self.changed_in_program[table] = self.version, self.program_version
        return tables

    def changed_at(self, name: str) -> int:
        """The last change of the tables under a name."""
        found = self.reckoned.get(name)
        if found is None:
            found = self.reckoned[name] = max(self.changed[table] for table in self.entries[name].tables)
        return found

    def on_in_program(self, views: Iterable[str], on: int) -> int:
        """What a change that rests on a version of the hub rests on in the program: its present version, or one by which it is
        stale. The names of views that are not there are passed over: the program tells of them first."""
        tables = {table for view in views if view in self.entries for table in self.entries[view].tables}
        late = [self.changed_in_program[table] for table in tables if self.changed[table] > on]
        if late:
            return max(min(late) - 1, 0)
        return self.program_version if on <= self.version else MOST_VERSION


def tables_in(line: bytes) -> List[str]:
    """The tables that the reply to a change tells of."""
    return [it.decode() for it in TABLES.findall(line)]


class Scope:
    """What the catalogue is for one user. A name is hidden, open or a window for him, as the module `desk` says."""

    def __init__(self, user: User, catalog: Catalog):
        self.user, self.catalog, self.size = user, catalog, len(catalog.entries)
        self.rights: Dict[str, FrozenSet[str]] = {name: user.on(name) for name in catalog.entries if user.on(name)}
        self.open = set()
        for name, entry in catalog.entries.items():
            if user.is_admin or ("read" in user.on(name) and entry.made_of is not None and self.open.issuperset(entry.made_of)):
                self.open.add(name)
        self.tables = {table for name in self.rights for table in catalog.entries[name].tables}
        # (a version of the catalogue, and what `version` gave at it)
        self.reckoned = (-1, 0)

    def version(self) -> int:
        """The version that the user is told: the last change of the tables under what he may see. An admin is told that of all."""
        now = self.catalog.version
        if self.user.is_admin:
            return now
        if self.reckoned[0] != now:
            self.reckoned = now, max((self.catalog.changed[table] for table in self.tables), default=0)
        return self.reckoned[1]

    def need(self, name: str, *rights: str) -> Entry:
        """The table or view. Raises No if it is hidden (22), or if a right on it is missing."""
        found = self.rights.get(name)
        if found is None:
            raise No(22, name=name)
        for right in rights:
            if right not in found:
                raise No(NO_RIGHT, right=right, view=name)
        return self.catalog.entries[name]

    def power(self, power: str) -> None:
        """Raises No if the user has not this power."""
        if not self.user.can(power):
            raise No(NO_RIGHT, right=power)

    def text(self, name: str) -> str:
        entry = self.catalog.entries[name]
        return entry.text if name in self.open else entry.as_table()

    def readable(self, tables: Iterable[str]) -> Set[str]:
        """The names over any of these tables that the user may read."""
        entries = self.catalog.entries
        return {name for name, rights in self.rights.items() if "read" in rights and not entries[name].table_set.isdisjoint(tables)}


def catalog_of(texts: List[str], types: List[bytes], version: int) -> Catalog:
    """The catalogue at a start of the program, out of its replies to `list` and to the `type` of each name.

    All tables count as changed at the version of the start: what rests on an earlier one was read before it."""
    catalog = Catalog()
    catalog.version = catalog.program_version = version
    for text, line in zip(texts, types):
        catalog.add(text, json.loads(line))
    return catalog
