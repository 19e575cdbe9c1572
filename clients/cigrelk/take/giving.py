"""Writes the tables of a store to a PostgreSQL, with the types that they had when `cigrelk take` read them.

    cigrelk give shop.db postgresql://db.example/new

STORE.types.json, which `cigrelk take` wrote beside the store, tells the types. A table that it does not name gets bigint, text and
boolean. All tables are made in one transaction, and none may be there. Generated columns and what was left out do not come back.
"""
import argparse
import json
import os

from ..errors import CommandError
from ..postgres import TYPES, Connection, quoted
from ..server import Server
from ..texts import counted
from .command import types_path
from .rules import as_given

SUMMARY = "writes the tables of a store to PostgreSQL, with the types they came with"
BATCH = 10_000


def copy_field(text):
    """A value as COPY reads it."""
    if text is None:
        return "\\N"
    return text.replace("\\", "\\\\").replace("\n", "\\n").replace("\r", "\\r").replace("\t", "\\t")


def plain_types(kinds, edges):
    """The types of a table that nothing is known of."""
    outputs = {name for edge in edges for name in edge["right"]}
    columns = {name: {"name": name, "type": TYPES[kind.split()[0]], "rule": kind.split()[0], "null": kind.endswith("null")} for name, kind in kinds.items()}
    return {"table": None, "key": [name for name in kinds if name not in outputs], "surrogate": None, "columns": columns}


def table_statement(place, types):
    columns = types["columns"]
    parts = [f"{quoted(one['name'])} {one['type']}{'' if one['null'] else ' NOT NULL'}" for one in columns.values()]
    key = [columns[name]["name"] for name in types["key"] if name in columns]
    if key and not any(columns[name]["null"] for name in types["key"] if name in columns):
        parts.append(f"PRIMARY KEY ({', '.join(map(quoted, key))})")
    return f"CREATE TABLE {place} ({', '.join(parts)})"


def give(program, connection, schema, all_types):
    """Makes and fills all tables, and returns a line for each."""
    told = []
    connection.ask("BEGIN")
    for name, kind in program.names().items():
        if kind != "table":
            continue
        view = program[name]
        types = all_types.get(name) or plain_types(view.columns(), view.type()["dependencies"])
        place = f"{quoted(schema)}.{quoted(types['table'] or name)}"
        for one in types["columns"].values():
            if one.get("values"):
                # Two tables may have the same enum.
                values = ", ".join("'" + value.replace("'", "''") + "'" for value in one["values"])
                connection.ask(f"DO $cigrelk$BEGIN CREATE TYPE {one['type']} AS ENUM ({values}); EXCEPTION WHEN duplicate_object THEN NULL; END $cigrelk$")
        connection.ask(table_statement(place, types))
        rows = view.read()
        columns = types["columns"]
        for at in range(0, len(rows), BATCH):
            lines = ["\t".join(copy_field(as_given(one, row[column])) for column, one in columns.items()) for row in rows[at : at + BATCH]]
            connection.copy(f"COPY {place} ({', '.join(quoted(one['name']) for one in columns.values())}) FROM STDIN", lines)
        found = connection.values(f"SELECT count(*) FROM {place}")[0]
        if found != len(rows):
            raise CommandError(f"{name} has {len(rows):,} rows, and {found:,} came to the database: nothing was changed there")
        told.append(f"{name}: {counted(found, 'row')}")
    connection.ask("COMMIT")
    return told


def add_arguments(parser: argparse.ArgumentParser) -> None:
    parser.add_argument("store", metavar="STORE", help="the store")
    parser.add_argument("address", metavar="ADDRESS", help="what psql takes, as postgresql://db.example/shop")
    parser.add_argument("--schema", default="public", help="where the tables are made")


def run(options: argparse.Namespace) -> int:
    if not os.path.isfile(options.store):
        raise CommandError(f"there is no store {options.store}")
    path, types = types_path(options.store), {}
    if os.path.exists(path):
        with open(path, encoding="utf-8") as file:
            types = json.load(file)
    connection = Connection(options.address)
    try:
        with Server(options.store) as program:
            print(*give(program, connection, options.schema, types), sep="\n")
    finally:
        connection.close()
    return 0
