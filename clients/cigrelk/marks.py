"""What belongs to which store in a schema of PostgreSQL, and what a mirror last wrote there.

A store has an identity, a random text in the file STORE.identity beside it, which the first start of a mirror makes. It is not in
the store, whose format is the program's, and it is not the path, since a store can be moved. A copy of the store without this file
is another store, so a mirror of it is refused where this one wrote, and nothing is lost. In the schema a table, which no table of a
store can be named as, has a line for each table and view that a mirror made or filled: the identity of its store, and the number of
rows and the sum of their hashes when the mirror wrote last. Both are written in the transaction that writes the rows. So what
others changed since is seen without the rows being read, and a change that the mirror has not brought yet is not taken for one of
others.
"""
import os
import re
import uuid
from typing import Dict, NamedTuple

from .errors import CommandError
from .postgres import Database, literal

# Names of tables of a store have no capitals and no blanks.
TABLE_OF_MARKS = "Cigrelk mirror"
COLUMNS = "name text PRIMARY KEY, store text NOT NULL, rows bigint NOT NULL, sum numeric NOT NULL"


class State(NamedTuple):
    """The number of rows of a table, and the sum of their hashes."""

    rows: int
    sum: int


class Mark(NamedTuple):
    """That a table or a view belongs to a store, and what a mirror of it wrote last. (A view has no rows of its own.)"""

    store: str
    state: State


def identity_of(store: str) -> str:
    """The identity of a store, which is made if it has none."""
    path = f"{store}.identity"
    try:
        with open(path, "x", encoding="ascii", opener=lambda name, flags: os.open(name, flags, 0o600)) as file:
            file.write(f"{uuid.uuid4().hex}\n")
    except FileExistsError:
        pass
    with open(path, encoding="ascii", errors="replace") as file:
        found = file.read().strip()
    if not re.fullmatch("[0-9a-f]{32}", found):
        raise CommandError(f"{path} has no identity of a store: if it is no file of a mirror, move it away")
    return found


class Marks:
    """The marks of a schema."""

    def __init__(self, database: Database, store: str):
        self.database, self.store, self.table = database, store, database.name(TABLE_OF_MARKS)
        self.found = self.read()

    def read(self) -> Dict[str, Mark]:
        """The marks that are there, by the names of tables and views."""
        if not self.database.columns(TABLE_OF_MARKS):
            return {}
        rows = self.database.rows(f"SELECT name, store, rows, sum::text AS sum FROM {self.table}")
        return {row["name"]: Mark(row["store"], State(row["rows"], int(row["sum"]))) for row in rows}

    def is_own(self, name: str) -> bool:
        """Whether a table or a view belongs to this store."""
        return name in self.found and self.found[name].store == self.store

    def make(self) -> None:
        """Makes the table of marks if it is lacking."""
        self.database.ask(f"CREATE TABLE IF NOT EXISTS {self.table} ({COLUMNS})")

    def claim(self, name: str, state: State = State(0, 0)) -> str:
        """The statement by which a table or a view belongs to this store, in this state."""
        self.found[name] = Mark(self.store, state)
        rest = f"{literal(self.store)}, {state.rows}, {state.sum}"
        return (f"INSERT INTO {self.table} VALUES ({literal(name)}, {rest}) "
                f"ON CONFLICT (name) DO UPDATE SET store = excluded.store, rows = excluded.rows, sum = excluded.sum")

    def move(self, name: str, by: State) -> str:
        """The statement by which the state of an own table grows by another one."""
        return f"UPDATE {self.table} SET rows = rows + {by.rows}, sum = sum + {by.sum} WHERE name = {literal(name)}"
