"""Rows, the changes of them, and what is wrong with one."""
import html
import operator
from collections.abc import Mapping
from typing import NamedTuple

from .kinds import base, cure_for, fits, is_nullable, wants
from .refusals import Clash, stale
from .texts import cell, short, table, words_of

# The kinds of pandas for columns that may be null.
FRAME_KINDS = {"int": "Int64", "text": "object", "bool": "boolean"}
# Of how many rows each is compared with each, to find those that are most alike.
MOST_COMPARED = 200


def listed(rows):
    """Rows as a list: of any iterable of dicts, or of a data frame of pandas."""
    if isinstance(rows, (Mapping, str)):
        raise TypeError("rows are a list of dicts, and this is one of them alone")
    if hasattr(rows, "to_dict"):
        # A frame has several values for null.
        return rows.astype(object).where(rows.notna(), None).to_dict("records")
    return list(rows)


def values(row, columns):
    return tuple(row[name] for name in columns)


def in_order(row, columns):
    """A row with its columns in this order: replies have them by name."""
    return {name: row[name] for name in columns}


def in_row_order(row, key):
    """By what rows are sorted that have this key; null comes first."""
    return [(row[name] is not None, row[name]) for name in key]


def by_key(rows, key, columns):
    """Rows in the order of their key. `columns` has the kind of each column."""
    if any(is_nullable(columns[name]) for name in key):
        return sorted(rows, key=lambda row: in_row_order(row, key))
    return sorted(rows, key=operator.itemgetter(*key)) if key else rows


class Rows(list):
    """The rows of a table or a view, as dicts. `columns` has the kind of each column by its name, in the order of the definition.
    `version` and `session` say when they were read."""

    def __init__(self, rows, columns, version, session):
        super().__init__(rows)
        self.columns, self.version, self.session = columns, version, session

    def to_pandas(self):
        """The rows as a data frame. Columns that may be null are of kinds of pandas that have a null. Raises ImportError where there
        is no pandas."""
        import pandas

        frame = pandas.DataFrame.from_records(list(self), columns=list(self.columns))
        for name, kind in self.columns.items():
            if is_nullable(kind):
                # By the values as they are, since a float of a number of 64 bits has lost some of it.
                frame[name] = pandas.array([row[name] for row in self], dtype=FRAME_KINDS[base(kind)])
        return frame

    def __str__(self):
        return table(self, self.columns)

    def _repr_html_(self):
        """How a notebook shows them."""
        head = "".join(f"<th>{html.escape(name)}</th>" for name in self.columns)
        cells = ([html.escape(cell(row[name], kind)) for name, kind in self.columns.items()] for row in self)
        body = "".join("<tr>" + "".join(f"<td>{it}</td>" for it in line) + "</tr>" for line in cells)
        return f"<table><tr>{head}</tr>{body}</table>"


class CsvText(str):
    """The rows of a table or a view as CSV. `version` and `session` say when they were read."""

    def __new__(cls, text, version, session):
        made = super().__new__(cls, text)
        made.version, made.session = version, session
        return made


class Change:
    """What a change or a preview changes. `tables` has, for each table that differs, the rows removed and those added. It is false
    where nothing changes."""

    def __init__(self, server, reply):
        self.server, self.version, self.session = server, reply["version"], reply.get("session", server.session)
        self.tables = tables_of(reply["changed"])

    def __bool__(self):
        return bool(self.tables)

    def __str__(self):
        lines = []
        for name, both in self.tables.items():
            columns = self.server[name].columns()
            lines += [f"{mark} {name}: {words_of(in_order(row, columns))}" for mark, rows in zip("-+", both) for row in rows]
        return "\n".join(lines) or "no change"

    def undo(self):
        """Edits the tables back in one step, and gives that change. What was changed since in other rows stays. Raises Stale, and
        changes nothing, where the same rows were changed, or where another change comes between."""
        resting = None
        for name, (removed, added) in self.tables.items():
            try:
                preview = self.server[name].preview(added, removed)
            except Clash:
                raise stale() from None
            if preview.tables != {name: (added, removed)}:
                raise stale()
            resting = preview if resting is None else resting
        return self.server.batch([(name, added, removed) for name, (removed, added) in self.tables.items()], on=resting)


def tables_of(changed):
    """The rows removed and added, by table, of the member `changed` of a reply."""
    return {one["table"]: (one["remove"], one["add"]) for one in changed}


class Fault(NamedTuple):
    """One reason for which an edit is refused.

    `error` is 40 for what is no row of the columns, 42 for a row that the predicate refuses, and 43 for rows that break a
    dependency together. `places` are places in the list of added rows, from 0. `columns` are those by which it is one: the column
    that is no value, those that the predicate compares, or those that differ. `others` are rows that the view has and keeps, and
    that break the dependency `edge` with them. `condition` is the part of the predicate that refuses a row.
    """

    error: int
    places: list
    text: str
    column: str = None
    edge: dict = None
    others: list = ()
    columns: list = ()
    condition: str = None


def shape_fault(row, columns):
    """The first column by which this is no row, and why in words; or None twice."""
    if not isinstance(row, dict):
        return None, f"{short(row)} is no row"
    for name, kind in columns.items():
        if name not in row:
            return name, f"the column '{name}' is missing"
        if not fits(row[name], kind):
            return name, f"{wants(name, kind)}, and not {short(row[name])}{cure_for(row[name], kind)}"
    for name in row:
        if name not in columns:
            return name, f"there is no column {short(name)}"
    return None, None


def closure(names, dependencies):
    """All columns that some columns determine, these among them."""
    found = set(names)
    while True:
        more = {name for it in dependencies if found.issuperset(it["left"]) for name in it["right"]} - found
        if not more:
            return found
        found |= more


def key_of(columns, dependencies):
    """The columns that are left when each that the others determine is taken away."""
    key = list(columns)
    for name in reversed(columns):
        rest = [it for it in key if it != name]
        if name in closure(rest, dependencies):
            key = rest
    return key


def paired(removed, added, key):
    """Pairs of a removed row and the added row that takes its place, by the key; a row without a partner stands with None.
    Of few rows those that are left are paired by the cells that they share."""
    by_key = {tuple(row[name] for name in key): row for row in added}
    pairs = [(old, by_key.pop(tuple(old[name] for name in key), None)) for old in removed]
    left = list(by_key.values())
    if len(removed) + len(added) <= MOST_COMPARED:
        for place, (old, new) in enumerate(pairs):
            shared = lambda row: sum(row[name] == old[name] for name in old)
            best = max(left, key=shared, default=None) if not new else None
            if best and 2 * shared(best) >= len(old):
                pairs[place] = (old, best)
                left.remove(best)
    return [*pairs, *((None, new) for new in left)]
