"""Prints SQL that makes the tables and updatable views of definitions in a PostgreSQL of 15 or later, to be run by psql.

    cigrelk compile definitions.txt | psql shop
    cigrelk compile --store shop.db | psql shop
    cigrelk compile --remove | psql shop

Any client of SQL then reads and edits the views there, with the meaning that they have in the program. Nothing of this is proved: it is
tested against the program.

DEFINITIONS is a file with a definition on each line; a line that begins with # is passed over. The program judges them. The script may
be run again, with other definitions too: in one transaction it makes what is new, drops what is gone, and leaves what is the same. A
table stays, with its rows, when its definition goes. --remove drops all but the tables.

--check plays random edits on a copy of some rows of the tables that are in the database, to the program and to PostgreSQL, and prints the
first difference with the requests that repeat it. Nothing else in the database changes.

With --existing the tables are those that are there, with their keys. --types takes the file that `cigrelk take --types` wrote, with the
types of their columns that the language does not have. --foreign is --existing for tables with partitions on other servers.
"""
import argparse
import json
import sys

from ..errors import CommandError
from ..server import Server
from .edits import Compiling
from .judge import Differ, check
from .nodes import Catalogue, TableTypes
from .script import removing_script, script
from .words import name_within

SUMMARY = "prints SQL that makes updatable views in a PostgreSQL of your own"


def read_definitions(path):
    """The definitions of a file, a line each."""
    try:
        with open(path, encoding="utf-8") as file:
            return [line.strip() for line in file if line.strip() and not line.startswith("#")]
    except UnicodeDecodeError as error:
        raise CommandError(f"{path} is no text in UTF-8: {error}") from None


def read_types(path):
    """The types of tables that are there, by the names of the definitions."""
    if path is None:
        return {}
    try:
        with open(path, encoding="utf-8") as file:
            return {name: table_types(types) for name, types in json.load(file).items()}
    except (ValueError, TypeError, AttributeError, KeyError) as error:
        raise CommandError(f"{path} is no file of types, as cigrelk take writes: {error}") from None


def table_types(types):
    """What the file says of a table, as the compiler takes it."""
    columns = types["columns"]
    return TableTypes(types["table"], {name: one["name"] for name, one in columns.items() if one["name"] != name},
                      {name: one["native"] for name, one in columns.items() if one["native"]}, {name: one["default"] for name, one in columns.items() if one["default"]},
                      tuple(name for name, one in columns.items() if one.get("fixed")))


def checked(options, texts):
    try:
        print(check(texts, options.check, options.schema, read_types(options.types), options.edits, options.seed))
    except Differ as difference:
        print(difference)
        raise CommandError("PostgreSQL and the program differ in the last of these requests") from None
    return 0


def names_of_roles(text):
    return [name for name in text.split(",") if name]


def add_arguments(parser: argparse.ArgumentParser) -> None:
    parser.add_argument("definitions", nargs="?", metavar="DEFINITIONS", help="a file with a definition on each line")
    parser.add_argument("--store", metavar="STORE", help="takes the definitions of a store in place of a file")
    parser.add_argument("--schema", default="public", help="where the tables and views are; what else is made stands in SCHEMA:cigrelk")
    parser.add_argument("--existing", action="store_true", help="the tables are there")
    parser.add_argument("--foreign", action="store_true", help="the tables are there, and have partitions on other servers")
    parser.add_argument("--types", metavar="FILE", help="the types of tables that are there, from cigrelk take")
    parser.add_argument("--isolation", choices=("locks", "serializable"), default="locks", help="how several writers are kept apart: by locks, or by PostgreSQL's serializable transactions, which do more at once, but each client has to try again at SQLSTATE 40001")
    parser.add_argument("--exclude", action="store_true", help="keeps dependencies by EXCLUDE constraints too, which hold against all writers (extension btree_gist)")
    parser.add_argument("--owner", metavar="ROLE", help="who owns what is made, and with whose rights the views are edited: else who runs the script")
    parser.add_argument("--readers", type=names_of_roles, default=[], metavar="ROLE,..", help="who may read the views")
    parser.add_argument("--editors", type=names_of_roles, default=[], metavar="ROLE,..", help="who may read and edit the views")
    parser.add_argument("--check", metavar="ADDRESS", help="has the program judge the compiled views over the tables of a database, as postgresql://..")
    parser.add_argument("--edits", type=int, default=500, metavar="NUMBER", help="how many edits --check plays")
    parser.add_argument("--seed", default="1", help="the seed of these edits")
    parser.add_argument("--remove", action="store_true", help="prints a script that drops all that was made; tables stay, with their rows")


def run(options: argparse.Namespace) -> int:
    if options.remove:
        sys.stdout.write(removing_script(name_within(f"{options.schema}:cigrelk"), options.owner))
        return 0
    if bool(options.definitions) == bool(options.store):
        raise CommandError("give a file of definitions, or a store by --store")
    if options.store:
        with Server(options.store) as server:
            texts = server.list()
    else:
        texts = read_definitions(options.definitions)
    if not texts:
        raise CommandError("there is no definition")
    if options.check:
        return checked(options, texts)
    catalogue = Catalogue(texts, options.schema, read_types(options.types))
    compiling = Compiling(catalogue, options.isolation, options.existing, options.foreign, options.exclude)
    sys.stdout.write(script(compiling, options.readers, options.editors, options.owner))
    return 0
