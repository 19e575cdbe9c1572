"""Keeps the tables and views of a store in PostgreSQL too.

The store is the one writer: what others change in its tables in the database is undone at the next start, told by table and number,
and kept in a file that is named.

ADDRESS is what psql takes, as postgresql://shop@db.example/shop. Give a password by PGPASSWORD or ~/.pgpass, since everyone on a
machine sees the words of a command.

The program serves standard input over the store, as ever. At the start each table is made in the database if it is lacking, and
given the rows of the store; and each view is made as a view of SQL. A table that is there already may be partitioned, spread over
several servers, or have other indexes: --schema prints the statements that make the tables, to be changed and run beforehand. Then
each change of the tables is one transaction there too, and its reply is written once both have it. If the database goes away, the
reply waits for it for --wait seconds (60).

A table with rows that no mirror of this store wrote is refused, and nothing is changed. --adopt takes its rows into the store,
--overwrite deletes them, and another schema leaves them alone (name it at the end of ADDRESS as ?options=-csearch_path%3DNAME).
"""
import argparse
import collections
import datetime
import json
import os
import re
import sys
import time
from typing import List, NamedTuple

from .bulk import edit_all
from .csv_files import write_rows
from .errors import CommandError
from .hashes import hash_query, hash_sum
from .kinds import base, is_nullable
from .language import UnknownForm, defined, parsed
from .marks import Marks, State, identity_of
from .postgres import TYPES, Database, Failed, literal, names_of, quoted
from .queries import Query
from .refusals import Refused
from .rows import key_of, values
from .server import Server
from .sql.words import column_type
from .texts import counted, listing, plain, words_of

SUMMARY = "keeps the tables and views of a store in PostgreSQL too"
# How many rows one statement names at most.
MOST_ROWS = 500
ADOPT, OVERWRITE = "--adopt", "--overwrite"
WAYS_ON = f"{ADOPT} takes such rows into the store, {OVERWRITE} deletes them, and another schema leaves them alone"
NAME_TAKEN = 21


def equal(row, columns):
    # A table that was made by hand may hold NULL in any column.
    return " AND ".join(f"{quoted(name)} IS NULL" if row[name] is None else f"{quoted(name)} = {literal(row[name])}" for name in columns)


def condition(rows, key):
    """Rows by constants of the key, by which an index finds them, and the one server that has them."""
    if len(key) == 1 and all(row[key[0]] is not None for row in rows):
        return f"{quoted(key[0])} IN ({', '.join(literal(row[key[0]]) for row in rows)})"
    return " OR ".join(f"({equal(row, key)})" for row in rows)


def difference(name, columns, key, remove, add):
    """The statements of one table's difference: what goes before what comes, so that keys stay unique."""
    for at in range(0, len(remove), MOST_ROWS):
        yield f"DELETE FROM {name} WHERE {condition(remove[at : at + MOST_ROWS], key)}"
    for at in range(0, len(add), MOST_ROWS):
        rows = ", ".join("(" + ", ".join(map(literal, values(row, columns))) + ")" for row in add[at : at + MOST_ROWS])
        yield f"INSERT INTO {name} ({names_of(columns)}) VALUES {rows}"


def table_statement(name, columns, dependencies):
    """The statement that makes a table."""
    key = key_of(list(columns), dependencies)
    parts = [f"{quoted(column)} {column_type(kind)}" for column, kind in columns.items()]
    if key != list(columns):
        # A primary key takes no NULL. UNIQUE does, and takes it twice too: it gives the index, and the store keeps nulls unique.
        parts.append(f"{'UNIQUE' if any(is_nullable(columns[name]) for name in key) else 'PRIMARY KEY'} ({names_of(key)})")
    return f"CREATE TABLE IF NOT EXISTS {name} ({', '.join(parts)})"


class NotOfThisStore(CommandError):
    """A table or a view of the database is not as a mirror of this store may have it. Nothing was changed."""


class Difference(NamedTuple):
    """How a table of the database differs from that of the store: rows that the store has not, rows that stand there twice, and rows
    that are lacking there. `state` is that of the store's rows, and `before` that of the database."""

    others: List[dict]
    doubled: List[dict]
    lacking: List[dict]
    state: State
    before: State


class Mirror:
    """Serves lines over a store, and has the database follow. `strangers` is what becomes of rows that no mirror of this store
    wrote: ADOPT, OVERWRITE, or None, which refuses them. Raises Failed if the database fails for longer than `wait` seconds,
    NotOfThisStore if something there is not for this store, and Ended if the program ends."""

    def __init__(self, server, store, address, wait, strangers=None):
        self.server, self.store, self.address, self.wait, self.strangers = server, store, address, wait, strangers
        self.identity, self.version = identity_of(store), server.version()
        self.kinds, self.database, self.marks = {}, None, None
        self.connect()

    def connect(self):
        self.database = Database(self.address)
        self.marks = Marks(self.database, self.identity)
        definitions = self.server.list()
        # All is looked at before anything is changed.
        strange = [name for name in map(self.look_at, definitions) if name]
        self.refuse(strange)
        if strange and self.strangers == ADOPT:
            self.adopt(strange)
        self.marks.make()
        # Those of others, before what they stand on.
        views = [name for name in reversed(strange) if self.database.kind_of(name) == "view"]
        self.database.change([f"DROP VIEW {self.database.name(name)}" for name in views])
        for text in definitions:
            self.make(text)
        for kind, name in map(defined, definitions):
            if kind == "table":
                self.bring(name)

    def again(self, error):
        """Connects anew once the database is there, and brings it what it lacks."""
        last = time.monotonic() + self.wait
        while error.passes and time.monotonic() < last:
            self.database.close()
            time.sleep(0.5)
            try:
                return self.connect()
            except Failed as other:
                error = other
        raise error

    # What is there already

    def look_at(self, text):
        """The name of a table with rows, or of a view, that is there and not of a mirror of this store; else None. Raises NotOfThisStore for
        a table that cannot hold the rows of the store."""
        kind, name = defined(text)
        columns = self.kinds[name] = self.server[name].columns()
        return self.strange(kind, name, columns)

    def strange(self, kind, name, columns):
        there = self.database.kind_of(name)
        if there is None or (there == "view" and kind == "view" and self.marks.is_own(name)):
            return None
        if there != kind:
            raise NotOfThisStore(f"the schema {self.database.schema} has a {there} {name}, and the store has a {kind} of this name")
        if kind == "view":
            return name
        self.check_columns(name, columns)
        if self.marks.is_own(name):
            return None
        return name if name in self.marks.found or self.count(name) else None

    def check_columns(self, name, columns):
        """Raises NotOfThisStore if a column is lacking or of another type, or if rows are to be adopted and would lose a column."""
        there = self.database.columns(name)
        for column, kind in columns.items():
            if column not in there:
                raise NotOfThisStore(f"the table {name} of the database has no column {column}, which its definition has")
            if there[column] != TYPES[base(kind)]:
                raise NotOfThisStore(f"the column {column} of the table {name} is of the type {there[column]} in the database, and {kind} wants {TYPES[base(kind)]}")
        more = [column for column in there if column not in columns]
        if more and self.strangers == ADOPT and not self.marks.is_own(name):
            raise NotOfThisStore(f"the table {name} of the database has a column {more[0]} that its definition has not, so its rows cannot be adopted")

    def count(self, name):
        return self.database.rows(f"SELECT count(*) AS rows FROM {self.database.name(name)}")[0]["rows"]

    def refuse(self, strange):
        """Raises NotOfThisStore for what is strange, if nothing was said of it or if it is more than rows."""
        views = [name for name in strange if self.database.kind_of(name) == "view"]
        if views and self.strangers != OVERWRITE:
            raise NotOfThisStore(f"the schema {self.database.schema} has a view {views[0]} that no mirror of this store made; nothing was changed. "
                          f"{OVERWRITE} replaces it, and another schema leaves it alone")
        if strange and self.strangers is None:
            raise NotOfThisStore(f"the schema {self.database.schema} has tables with rows that no mirror of this store wrote: "
                          f"{', '.join(map(self.told_of, strange))}; nothing was changed. {WAYS_ON}")

    def told_of(self, name):
        other = " of another store" if name in self.marks.found else ""
        return f"{name} ({counted(self.count(name), 'row')}{other})"

    def rows_there(self, name, columns):
        return self.database.rows(f"SELECT {names_of(columns)} FROM {self.database.name(name)}")

    def adopt(self, strange):
        """Takes rows of the database into the store: all of them, or none. Raises NotOfThisStore for the first that is no row there."""
        edits = [(name, self.lacking(name)) for name in strange]
        try:
            edit_all(self.server, [(name, [(None, row) for row in rows]) for name, rows in edits])
        except Refused as error:
            raise NotOfThisStore(first_refused(self.server, edits) or f"the rows cannot be adopted, and nothing was changed: {error}") from None
        self.version = self.server.version()
        for name, rows in edits:
            tell(f"{name}: {counted(len(rows), 'row')} adopted")

    def lacking(self, name):
        """The rows that the database has in a table, and the store has not, each once."""
        columns = self.kinds[name]
        known = {values(row, columns) for row in self.server[name].read()}
        there = {values(row, columns): row for row in self.rows_there(name, columns)}
        return [row for cells, row in sorted(there.items(), key=lambda one: [(value is not None, value) for value in one[0]]) if cells not in known]

    # What is made and brought

    def make(self, text):
        """Makes the table or the view of a definition."""
        kind, name = defined(text)
        if kind == "table":
            self.database.ask(table_statement(self.database.name(name), self.kinds[name], self.server[name].type()["dependencies"]))
            return
        query = Query(parsed(text), self.kinds, self.database.name)
        self.database.change([f"CREATE OR REPLACE VIEW {self.database.name(name)} AS {query.text}", self.marks.claim(name)])

    def bring(self, name):
        """Brings a table to the rows of the store. Its rows are read only if their number or the sum of hashes differs."""
        columns, rows = self.kinds[name], self.server[name].read()
        state = State(len(rows), hash_sum(rows, columns))
        (found,) = self.database.rows(hash_query(self.database.name(name), columns))
        before = State(found["rows"], int(found["sum"]))
        is_own = self.marks.is_own(name)
        if before == state:
            if not is_own or self.marks.found[name].state != state:
                self.database.change([self.marks.claim(name, state)])
            return
        differs = self.difference(name, rows, state, before)
        if is_own and self.marks.found[name].state != before:
            self.report(name, differs)
        gone = len(differs.others) + len(differs.doubled)
        tell(f"{name}: {counted(gone, 'row')} deleted in the database, {counted(len(differs.lacking) + len(differs.doubled), 'row')} added")
        # By all columns: a table that was made by hand may have two rows of one key.
        statements = difference(self.database.name(name), columns, list(columns), differs.others + differs.doubled, differs.lacking + differs.doubled)
        self.database.change([*statements, self.marks.claim(name, state)])

    def difference(self, name, rows, state, before):
        columns = self.kinds[name]
        found = self.rows_there(name, columns)
        there, here = ({values(row, columns): row for row in some} for some in (found, rows))
        counts = collections.Counter(values(row, columns) for row in found)
        return Difference([row for key, row in there.items() if key not in here], [row for key, row in here.items() if counts[key] > 1],
                          [row for key, row in here.items() if key not in there], state, before)

    def report(self, name, differs):
        """Tells what others changed in an own table, and keeps their rows in a file."""
        told = []
        if differs.others:
            path = self.keep(name, differs.others)
            told.append(f"{counted(len(differs.others), 'row')} that the store does not have, kept in {path}")
        told += [f"{counted(len(differs.doubled), 'row')} more than once"] if differs.doubled else []
        told += [f"{counted(len(differs.lacking), 'row')} of the store {'is' if len(differs.lacking) == 1 else 'are'} not there"] if differs.lacking else []
        tell(f"others changed {name} in the database, which is undone: {listing(told)}")

    def keep(self, name, rows):
        """Writes rows to a new file beside the store, and gives its path. The shell's `load` takes it."""
        moment = datetime.datetime.now().strftime("%Y%m%d-%H%M%S")
        for number in range(1000):
            path = f"{self.store}.{name}-{moment}{f'-{number}' if number else ''}.csv"
            try:
                with open(path, "x", encoding="utf-8", newline="", opener=lambda at, flags: os.open(at, flags, 0o600)) as file:
                    write_rows(file, rows, self.kinds[name])
                return path
            except FileExistsError:
                pass
        raise CommandError(f"the rows that others wrote to {name} cannot be kept beside {self.store}")

    # What is served

    def serve(self, line):
        """The reply to a line, once the database has what it changed."""
        refused = self.refused_definition(line)
        if refused:
            return refused
        reply = self.server.pass_on(line)
        told = json.loads(reply)
        # A preview tells a change too, and raises no version.
        if told["ok"] and told["version"] > self.version:
            self.version = told["version"]
            try:
                self.follow(told)
            except Failed as error:
                self.again(error)
        return reply

    def follow(self, told):
        if "changed" not in told:
            return self.follow_definition(self.server.list()[-1])
        statements = []
        for one in told["changed"]:
            name, remove, add = one["table"], one["remove"], one["add"]
            columns = self.kinds[name]
            statements += difference(self.database.name(name), columns, self.server[name].key(), remove, add)
            statements.append(self.marks.move(name, State(len(add) - len(remove), hash_sum(add, columns) - hash_sum(remove, columns))))
        self.database.change(statements)

    def follow_definition(self, text):
        kind, name = defined(text)
        strange = self.look_at(text)
        if strange and kind == "view":
            self.database.ask(f"DROP VIEW {self.database.name(name)}")
        self.make(text)
        if kind == "table":
            if strange and self.strangers == ADOPT:
                self.adopt([name])
            self.bring(name)

    def refused_definition(self, line):
        """The reply to a definition whose name stands in the database for something that is not of this store; else None. The name is
        taken there, so the reply is the one to a name that is taken."""
        text = text_of_definition(line)
        if text is None:
            return None
        kind, name = defined(text)
        try:
            if self.database.kind_of(name) is None or name in self.server.names():
                return None
            self.try_definition(kind, name, text)
        except Failed as error:
            self.again(error)
            return self.refused_definition(line)
        except NotOfThisStore as error:
            tell(f"{name} was not defined: {error}")
            return json.dumps({"error": NAME_TAKEN, "name": name, "ok": False}, separators=(",", ":")).encode()
        return None

    def try_definition(self, kind, name, text):
        """Raises NotOfThisStore if a definition cannot be followed, or if rows that are there cannot be adopted by it."""
        # In a server of its own, so that the store stays as it is. (A view over tables of the store has no columns there.)
        with Server() as trial:
            try:
                columns = trial.define(text).columns() if kind == "table" else {}
            except Refused:
                # What is wrong with the definition the program tells.
                return
            strange = self.strange(kind, name, columns)
            self.refuse([strange] if strange else [])
            if strange and self.strangers == ADOPT:
                rows = self.rows_there(name, columns)
                try:
                    edit_all(trial, [(name, [(None, row) for row in rows])])
                except Refused as error:
                    raise NotOfThisStore(first_refused(trial, [(name, rows)]) or str(error)) from None


def first_refused(server, edits):
    """What is told of the first of some rows that is no row of its table, or None."""
    for name, rows in edits:
        for fault in server[name].faults(add=rows):
            return f"the rows of {name} cannot be adopted, and nothing was changed: {words_of(rows[fault.places[0]])}: {fault.text}"
    return None


def text_of_definition(line):
    """The text of a request that defines something, or None for another line."""
    try:
        request = json.loads(line)
        if request.get("do") == "define" and re.match(r"\s*(table|view)\s+[a-z_]", request["text"]):
            return request["text"]
    except (ValueError, AttributeError, KeyError, TypeError, RecursionError):
        pass
    return None


def tell(text: str) -> None:
    """Tells what a mirror does. Standard output has the replies."""
    print(f"cigrelk mirror: {plain(text)}", file=sys.stderr, flush=True)


def print_schema(store: str) -> None:
    with Server(store) as server:
        for name, kind in server.names().items():
            if kind == "table":
                print(f"{table_statement(quoted(name), server[name].columns(), server[name].type()['dependencies'])};")


def serve(options: argparse.Namespace) -> None:
    with Server(options.store) as server:
        mirror = Mirror(server, options.store, options.address, options.wait, options.strangers)
        for line in sys.stdin.buffer:
            sys.stdout.buffer.write(mirror.serve(line[:-1] if line.endswith(b"\n") else line) + b"\n")
            sys.stdout.buffer.flush()
        mirror.database.close()


def address(text: str) -> str:
    """An address without a password."""
    if re.search(r"//[^/@]*:[^/@]+@|\bpassword\s*=", text):
        raise argparse.ArgumentTypeError("give the password by PGPASSWORD or ~/.pgpass, and not in the address: everyone on this machine sees the words of a command")
    return text


def seconds(text: str) -> int:
    """A number of seconds."""
    if not re.fullmatch("[0-9]{1,6}", text):
        raise argparse.ArgumentTypeError(f"a number of seconds is wanted, and not {text}")
    return int(text)


def add_arguments(parser: argparse.ArgumentParser) -> None:
    parser.add_argument("store", metavar="STORE", help="the file of the store")
    where = parser.add_mutually_exclusive_group(required=True)
    where.add_argument("address", nargs="?", type=address, metavar="ADDRESS", help="the database, as psql takes it")
    where.add_argument("--schema", action="store_true", help="prints the statements that make the tables")
    parser.add_argument("--wait", type=seconds, default=60, metavar="SECONDS", help="how long a reply waits for a database that went away (60)")
    strangers = parser.add_mutually_exclusive_group()
    strangers.add_argument(ADOPT, dest="strangers", action="store_const", const=ADOPT, help="takes rows that no mirror of this store wrote into the store")
    strangers.add_argument(OVERWRITE, dest="strangers", action="store_const", const=OVERWRITE, help="deletes such rows, and replaces views of others")


def run(options: argparse.Namespace) -> int:
    if options.schema:
        print_schema(options.store)
        return 0
    try:
        serve(options)
    except Failed as error:
        raise CommandError(f"{error}; the store has what was accepted, and the next start brings it to the database") from None
    except UnknownForm as error:
        raise CommandError(str(error)) from None
    return 0
