"""Makes a new store with other definitions, and gives it the rows of an old one. The old one stays as it is.

`cigrelk rebuild OLD > definitions` writes the definitions of OLD, a line each, to be edited.

DEFINITIONS is a file with a table or a view a line; a line that begins with # is passed over. A table there that OLD has too
gets its rows. A column that is gone is dropped, and one that is new takes the VALUE that is given, as 7, true, axe or "an axe",
and null where none is given and the column may be null.
Where OLD's table has another name, write TABLE=OLD_TABLE, and where a column has one, TABLE.COLUMN=.OLD_COLUMN.

NEW is for its owner alone. It gets its name once it is whole. OLD is copied and the copy is read, since the program that opens a
store may write to it; it may not be open elsewhere.
"""
import argparse
import os
import re
import tempfile

from .errors import CommandError
from .kinds import is_nullable, value_of
from .language import defined
from .server import Server
from .store_files import copy_store, private_copy

SUMMARY = "makes a new store with other definitions and the rows of an old one"
# How many rows one request adds at most.
MOST_ROWS = 10_000


def rebuild(old, new, definitions, given):
    """Makes the new store. Raises CommandError, Refused, Ended or OSError, and leaves no new store then."""
    if os.path.lexists(new):
        raise CommandError(f"{new} is there already")
    with open(definitions, encoding="utf-8") as file:
        texts = [line.strip() for line in file if line.strip() and not line.startswith("#")]
    for text in texts:
        if not re.match(r"(table|view)[ \t]+[a-z_]", text):
            raise CommandError(f"a definition begins with 'table' or 'view', and this does not: {text[:80]}")
    # Beside the new store, so that the last step is a change of name. The folder is for its owner alone.
    with tempfile.TemporaryDirectory(prefix=".rebuild-", dir=os.path.dirname(os.path.abspath(new))) as room:
        copy, made = f"{room}/old.db", f"{room}/new.db"
        copy_store(old, copy)
        with Server(copy) as source, Server(made) as target:
            told = fill_all(source, target, texts, given)
        # A link fails where someone made the new store meanwhile.
        os.link(made, new)
    print(*told, sep="\n")


def fill_all(source, target, texts, given):
    """Defines all, and fills the tables; gives a line for each table."""
    told, used = [], set()
    for text in texts:
        view = target.define(text)
        if defined(text)[0] == "table":
            told += fill(source, view, given, used)
    unused = sorted(set(given) - used)
    if unused:
        raise CommandError(f"{unused[0]}={given[unused[0]]}: the new store has no such table or column, or the old one has no rows for it")
    return told


def fill(source, view, given, used):
    name = given.get(view.name, view.name)
    if name not in source.names():
        return []
    used.add(view.name)
    rows = source[name].read()
    columns = {column: source_of(view.name, column, kind, rows, given, used) for column, kind in view.columns().items()}
    new_rows = [{column: row[old] if old else value for column, (old, value) in columns.items()} for row in rows]
    for at in range(0, len(new_rows), MOST_ROWS):
        view.edit(add=new_rows[at : at + MOST_ROWS])
    return [f"{view.name}: {len(view.read())} rows of {len(rows)}"]


def source_of(table, column, kind, rows, given, used):
    """The old column that a new one takes its values from, or None and the value for all rows."""
    place = f"{table}.{column}"
    said = given.get(place)
    used.add(place)
    old = column if said is None else said[1:] if said.startswith(".") else None
    if old in rows.columns:
        return old, None
    if said is None and is_nullable(kind):
        return None, None
    if said is None:
        raise CommandError(f"the table {table} has a new column {column}: give {place}=VALUE")
    try:
        return None, value_of(said, column, kind)
    except CommandError as error:
        raise CommandError(f"{place}={said}: {error}") from None


def print_definitions(old: str) -> None:
    with private_copy(old) as copy, Server(copy) as server:
        for text in server.list():
            print(text)


def assignment(text):
    """A pair of the two sides of TARGET=SOURCE."""
    target, equals, source = text.partition("=")
    if not equals:
        raise argparse.ArgumentTypeError(f"{text} has no =")
    return target, source


def add_arguments(parser: argparse.ArgumentParser) -> None:
    parser.add_argument("old", metavar="OLD", help="the store that is there")
    parser.add_argument("new", nargs="?", metavar="NEW", help="the store that is made; without it the definitions of OLD are printed")
    parser.add_argument("definitions", nargs="?", metavar="DEFINITIONS", help="a file with a table or a view a line")
    parser.set_defaults(wrong_usage=parser.error)
    parser.add_argument("given", nargs="*", type=assignment, metavar="TARGET=SOURCE", help="where rows and values come from: TABLE=OLD_TABLE, TABLE.COLUMN=.OLD_COLUMN or TABLE.COLUMN=VALUE")


def run(options: argparse.Namespace) -> int:
    if options.new is None:
        print_definitions(options.old)
        return 0
    if options.definitions is None:
        options.wrong_usage("a file with the definitions of the new store is wanted behind its name")
    try:
        rebuild(options.old, options.new, options.definitions, dict(options.given))
    except UnicodeDecodeError as error:
        raise CommandError(f"{options.definitions} is no text in UTF-8: {error}") from None
    return 0
