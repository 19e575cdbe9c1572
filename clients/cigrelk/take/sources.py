"""What is known of tables that are there, whatever holds them."""
from typing import NamedTuple


class Column(NamedTuple):
    """A column. `type` is its type without, and `full` with what stands in parentheses. `values` has the values of an enum. `fixed`
    says that the database gives the value, and that it never changes."""

    name: str
    type: str
    full: str
    null: bool
    default: str = None
    values: tuple = ()
    problem: str = None
    fixed: bool = False


class ForeignKey(NamedTuple):
    columns: tuple
    table: str
    to_columns: tuple


class SourceTable(NamedTuple):
    """A table. `keys` has its primary key and then its UNIQUEs; `checks` the texts of its CHECKs; `remarks` what else is there."""

    name: str
    columns: tuple
    keys: tuple
    foreign_keys: tuple = ()
    checks: tuple = ()
    remarks: tuple = ()


def column_of(table, name):
    return next(column for column in table.columns if column.name == name)
