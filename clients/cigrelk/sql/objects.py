"""The objects that a script makes in the database."""
from typing import NamedTuple

from ..postgres import quoted
from .words import dollar_quoted, text_literal


class Made(NamedTuple):
    """One object. `name` tells it from all others; `make` and `drop` are statements, and `there` is a condition that holds while it
    is there. An object is made again if its text, or that of an object that it is based on, has changed."""

    name: str
    make: str
    drop: str
    there: str
    based_on: tuple = ()

    def with_comment(self, target, text):
        return self._replace(make=f"{self.make}\nCOMMENT ON {target} IS {text_literal(text)};")


def function_text(name, arguments, returns, lines, declares="", settings=""):
    """The statement that makes a function in PL/pgSQL."""
    text = f"\n#variable_conflict use_column\n{declares}BEGIN\n" + "\n".join(lines) + "\nEND "
    return f"CREATE FUNCTION {name}({arguments}) {returns}LANGUAGE plpgsql {settings} AS {dollar_quoted(text)};"


def function(name, arguments, returns, lines, declares="", settings="", types=(), comment="", based_on=()):
    """A function. `types` has the types of the arguments that go in. Nobody may call it but its owner, until a grant."""
    signature = f"{name}({', '.join(types)})"
    make = f"{function_text(name, arguments, returns, lines, declares, settings)}\nREVOKE ALL ON FUNCTION {signature} FROM PUBLIC;"
    made = Made(f"function {signature}", make, f"DROP FUNCTION IF EXISTS {signature};", f"to_regprocedure({text_literal(signature)}) IS NOT NULL", based_on)
    return made.with_comment(f"FUNCTION {signature}", comment)


def view(name, query, comment, based_on=()):
    made = Made(f"view {name}", f"CREATE VIEW {name} AS {query};", f"DROP VIEW IF EXISTS {name};", f"to_regclass({text_literal(name)}) IS NOT NULL", based_on)
    return made.with_comment(f"VIEW {name}", comment)


def trigger(name, table, text, comment, based_on=()):
    """A trigger. `text` is what stands behind its name."""
    there = f"EXISTS (SELECT FROM pg_catalog.pg_trigger WHERE tgrelid = to_regclass({text_literal(table)}) AND tgname = {text_literal(name)})"
    # There is no trigger any more if its table was dropped by hand.
    drop = f"DO {dollar_quoted(f'BEGIN IF to_regclass({text_literal(table)}) IS NOT NULL THEN DROP TRIGGER IF EXISTS {quoted(name)} ON {table}; END IF; END ')};"
    made = Made(f"trigger {quoted(name)} on {table}", f"CREATE TRIGGER {quoted(name)} {text};", drop, there, based_on)
    return made.with_comment(f"TRIGGER {quoted(name)} ON {table}", comment)


def constraint(name, table, text, comment, based_on=()):
    there = f"EXISTS (SELECT FROM pg_catalog.pg_constraint WHERE conrelid = to_regclass({text_literal(table)}) AND conname = {text_literal(name)})"
    drop = f"ALTER TABLE IF EXISTS {table} DROP CONSTRAINT IF EXISTS {quoted(name)};"
    made = Made(f"constraint {quoted(name)} on {table}", f"ALTER TABLE {table} ADD CONSTRAINT {quoted(name)} {text};", drop, there, based_on)
    return made.with_comment(f"CONSTRAINT {quoted(name)} ON {table}", comment)


def index(name, place, table, text, comment, based_on=()):
    """An index. `place` is its name with the schema of the table."""
    made = Made(f"index {place}", f"CREATE INDEX {quoted(name)} ON {table} {text};", f"DROP INDEX IF EXISTS {place};", f"to_regclass({text_literal(place)}) IS NOT NULL", based_on)
    return made.with_comment(f"INDEX {place}", comment)
