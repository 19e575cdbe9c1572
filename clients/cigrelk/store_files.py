"""The files of stores: whether one is a store, who may read it, and copies of it.

Nothing here changes a byte of a store.
"""
import contextlib
import fcntl
import os
import shutil
import sqlite3
import tempfile
import urllib.parse
from typing import Iterator, List, Optional

from .errors import CommandError
from .process import Ended
from .texts import plain

# The tables by which a database of SQLite is a store.
TABLES_OF_STORE = {"lens_defs", "lens_format"}
# What the names of the files end with in which SQLite keeps changes that are not in the main file yet.
TAILS = ("-wal", "-journal")
# The bytes of a database of SQLite that a reader locks, as their number and the first of them.
LOCKED_BYTES = (510, 0x40000002)
# The least size of a database of SQLite that has a page. SQLite takes a smaller file as one that is empty.
LEAST_SIZE = 512
# How many names of tables a message has.
MOST_NAMES = 5
CANNOT_BE_OPENED = 6


class NotStore(Ended):
    """A file is no store, and the program was not started over it: it would add its tables to a database of SQLite that others made.
    `tables` has the names of the tables that such a database has, and is empty for another file."""

    def __init__(self, store: str, tables: List[str] = ()):
        self.tables = list(tables)
        what = "it is no database of SQLite"
        if tables:
            more = f" and {len(tables) - MOST_NAMES:,} more" if len(tables) > MOST_NAMES else ""
            named = ", ".join(map(plain, tables[:MOST_NAMES]))
            what = (f"it is a database of SQLite that another program made, with the table{'s' if len(tables) > 1 else ''} {named}{more}. "
                    "Nothing was changed in it. Name a new file as the store; `cigrelk take` takes the rows of such tables over")
        super().__init__(CANNOT_BE_OPENED, None, f"{store} is no store: {what}")


class InUse(Ended):
    """A store is open in another program."""

    def __init__(self, store: str):
        super().__init__(CANNOT_BE_OPENED, None, f"the store {store} is open in another program, which has to end first")


def refuse_other_files(store: str) -> None:
    """Raises NotStore for a file that is there and no store. A file that is empty is fine, and so is a database without tables."""
    if not os.path.isfile(store) or not os.path.getsize(store):
        # It is made, or cannot be opened, which the program tells.
        return
    tables = tables_of_file(store) if os.path.getsize(store) >= LEAST_SIZE else None
    if tables is None:
        raise NotStore(store)
    if tables and not TABLES_OF_STORE <= set(tables):
        raise NotStore(store, tables)


def tables_of_file(path: str) -> Optional[List[str]]:
    """The names of the tables, views and the like of a database of SQLite, or None for another file. Raises Ended if that cannot be
    seen."""
    try:
        found = names_in(path)
    except sqlite3.DatabaseError as error:
        if isinstance(error, sqlite3.OperationalError):
            raise Ended(CANNOT_BE_OPENED, None, f"{path} cannot be read ({error})") from None
        return None
    changes = [path + tail for tail in TAILS if os.path.exists(path + tail) and os.path.getsize(path + tail)]
    if TABLES_OF_STORE <= set(found) or not changes:
        return found
    # What another program, or one that was killed, wrote last stands beside the file. It is read in a copy, since SQLite would
    # bring it into the file.
    with tempfile.TemporaryDirectory(prefix="cigrelk-") as room:
        copy_files(path, f"{room}/copy.db")
        try:
            return names_in(f"{room}/copy.db", "mode=rw")
        except sqlite3.DatabaseError as error:
            raise Ended(CANNOT_BE_OPENED, None, f"{path} cannot be read: another program writes to it ({error})") from None


def names_in(path: str, how: str = "mode=ro&immutable=1") -> List[str]:
    """The names of what a database of SQLite has, in the order of the alphabet."""
    # SQLite itself opens it: were it opened here, closing it would drop the locks that this process has on it elsewhere.
    address = f"file:{urllib.parse.quote(os.path.abspath(path))}?{how}"
    with contextlib.closing(sqlite3.connect(address, uri=True)) as database:
        database.text_factory = lambda name: name.decode(errors="replace")
        names = database.execute("SELECT name FROM sqlite_master WHERE type IN ('table', 'view', 'trigger') AND name NOT LIKE 'sqlite!_%' ESCAPE '!' ORDER BY name")
        return [name for name, in names]


def copy_files(path: str, copy: str) -> None:
    """Copies a database of SQLite with what stands beside it."""
    for tail in ("", *TAILS):
        with contextlib.suppress(FileNotFoundError):
            shutil.copyfile(path + tail, copy + tail)


def copy_store(store: str, copy: str) -> None:
    """Copies a store. Raises CommandError if there is none, NotStore for another file, and InUse if another program has it open."""
    if not os.path.isfile(store):
        # The program would make it.
        raise CommandError(f"there is no store {store}")
    refuse_other_files(store)
    with open(store, "rb") as file:
        try:
            fcntl.lockf(file, fcntl.LOCK_SH | fcntl.LOCK_NB, *LOCKED_BYTES)
        except OSError:
            raise InUse(store) from None
        copy_files(store, copy)


@contextlib.contextmanager
def private_copy(store: str) -> Iterator[str]:
    """The path of a copy of a store, which its owner alone may read, and which goes at the end. The store, its folder and what stands
    beside it stay as they are. Raises what `copy_store` does."""
    with tempfile.TemporaryDirectory(prefix="cigrelk-") as room:
        copy = os.path.join(room, os.path.basename(store))
        copy_store(store, copy)
        yield copy


def make_private(store: str) -> bool:
    """Makes an empty file for a store that is not there, which its owner alone may read. Tells whether it made one."""
    try:
        os.close(os.open(store, os.O_CREAT | os.O_EXCL | os.O_WRONLY, 0o600))
    except OSError:
        # It is there, or cannot be made, which the program tells.
        return False
    return True


def why_closed(store: str) -> str:
    """Why a store was not opened, as far as it can be seen from here."""
    if not os.path.isdir(os.path.dirname(os.path.abspath(store))):
        return f"the store {store} cannot be opened: its folder is not there"
    if not os.path.exists(store):
        return f"the store {store} cannot be made there"
    if os.path.isdir(store):
        return f"the store {store} cannot be opened: it is a folder"
    if not os.access(store, os.R_OK | os.W_OK):
        return f"the store {store} cannot be opened: you may not read and write it"
    return f"the store {store} cannot be opened: most likely another program has it open"
