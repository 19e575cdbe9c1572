"""Reads the tables of a database, and prints definitions of them, with remarks on what the definitions cannot say.

    cigrelk take postgresql://db.example/shop > definitions.txt             definitions for a store
    cigrelk take shop.sqlite --into shop.db                                 and a store with all rows
    cigrelk take folder-of-csv --into shop.db
    cigrelk take postgresql://db.example/shop --types types.json > definitions.txt
    cigrelk compile definitions.txt --existing --types types.json | psql ..  views over the tables as they are

SOURCE is an address of PostgreSQL, a file of SQLite, or a folder with a file of CSV for each table. Lines that begin with # are remarks.
A foreign key gives a view, as a remark: delete its # to have it. Columns of types that the language does not have are kept in a way that
their remark tells. --into makes a store with all rows, and beside it a file STORE.types.json, by which `cigrelk give` writes the tables
with their types again. --surrogate numbers the rows of tables without a key of use: in the store, or with --types in the database, where
it adds a column.
"""
import argparse
import json
import os
import re
import sys

from ..errors import CommandError
from .csv_folder import CSVFolder
from .definitions import Definitions, number_key, wants_number
from .loading import load
from .postgresql import PostgreSQL
from .sqlite import SQLite

SUMMARY = "reads tables of PostgreSQL, SQLite or CSV: definitions of them, and a store with all rows"


def opened(source, schema):
    """A source by what the word says. Raises CommandError."""
    if re.match(r"postgres(ql)?://|.*=", source):
        return PostgreSQL(source, schema)
    if os.path.isdir(source):
        return CSVFolder(source)
    return SQLite(source)


def types_path(store):
    return f"{store}.types.json"


def add_arguments(parser: argparse.ArgumentParser) -> None:
    parser.add_argument("source", metavar="SOURCE", help="postgresql://.., a file of SQLite, or a folder of CSV files")
    parser.add_argument("--schema", default="public", help="the schema of PostgreSQL")
    parser.add_argument("--into", metavar="STORE", help="makes a store with all rows")
    parser.add_argument("--types", metavar="FILE", help="definitions for `cigrelk compile --existing`, where columns keep their types, which FILE gets")
    parser.add_argument("--decimal", choices=("integer", "text"), default="integer", help="how decimals of a fixed scale are kept: as integers of their smallest unit, or as texts")
    parser.add_argument("--surrogate", action="store_true", help="numbers the rows of tables without a key, or with one that cannot be joined with its parent: in the store, or with --types by a column that the tables get in the database")


def run(options: argparse.Namespace) -> int:
    if options.into and options.types:
        raise CommandError("--into makes a store and --types is for tables that stay where they are: give one of them")
    source = opened(options.source, options.schema)
    try:
        if options.types and options.surrogate:
            number_rows(source)
        definitions = Definitions(source, options.decimal, bool(options.types), options.surrogate)
        sys.stdout.write(definitions.file())
        if options.types:
            write_json(options.types, definitions.types())
        if options.into:
            load(source, definitions, options.into)
            write_json(types_path(options.into), definitions.types())
    finally:
        source.close()
    return 0


def number_rows(source):
    """Gives the tables that want one a key of numbers in the database, and says by which statements. Raises CommandError."""
    if not isinstance(source, PostgreSQL):
        raise CommandError("--types with --surrogate adds a column in PostgreSQL, and SOURCE is no PostgreSQL")
    tables = [table for table in source.tables if wants_number(table) and not number_key(table)]
    for statement in source.number(tables) if tables else ():
        print(f"{statement};", file=sys.stderr)


def write_json(path, value):
    with open(path, "w", encoding="utf-8") as file:
        json.dump(value, file, indent=1, ensure_ascii=False)
        file.write("\n")
