"""A folder with files of CSV: a table each, with the types and keys that its rows have."""
import csv
import glob
import json
import os

from ..csv_files import is_field
from ..errors import CommandError
from ..postgres import TYPES
from .sources import Column, ForeignKey, SourceTable

BATCH = 10_000


class CSVFolder:
    """The files of a folder. An empty field is null, unless its column has texts."""

    def __init__(self, path):
        self.path = path
        found = sorted(glob.glob(os.path.join(glob.escape(path), "*.csv")))
        if not found:
            raise CommandError(f"{path} has no file *.csv")
        self.files = {os.path.basename(name)[:-4]: name for name in found}
        self.values = {}
        tables = [self.described(name) for name in self.files]
        self.tables = [table._replace(foreign_keys=tuple(self.foreign_keys(table, tables))) for table in tables]

    def records(self, name):
        with open(self.files[name], newline="", encoding="utf-8-sig") as file:
            lines = csv.reader(file, strict=True)
            try:
                for fields in lines:
                    if fields:
                        yield lines.line_num, fields
            except (csv.Error, UnicodeDecodeError) as error:
                raise CommandError(f"{self.files[name]}, line {lines.line_num}: {error}") from None

    def described(self, name):
        records = self.records(name)
        _, header = next(records, (0, None))
        if header is None:
            raise CommandError(f"{self.files[name]} is empty: its first line has the names of the columns")
        seen, count = [set() for _ in header], 0
        for line, fields in records:
            if len(fields) != len(header):
                raise CommandError(f"{self.files[name]}, line {line}: it has {len(fields)} fields, and the first line {len(header)}")
            count += 1
            for values, field in zip(seen, fields):
                values.add(field)
        columns = []
        for column, values in zip(header, seen):
            kind = kind_of(values)
            columns.append(Column(column, TYPES[kind], kind, "" in values and kind != "text"))
        keys = [(column.name,) for place, column in enumerate(columns) if len(seen[place]) == count and count and not column.null]
        # What is called id is the key before another column whose values happen to differ.
        keys.sort(key=lambda key: not (key[0].lower() == "id" or key[0].lower().endswith("_id")))
        self.values[name] = dict(zip(header, seen))
        remarks = ("its key is the first column whose values all differ",) if keys else ()
        return SourceTable(name, tuple(columns), tuple(keys), (), (), remarks)

    def foreign_keys(self, table, tables):
        """Columns whose values all stand in the key of another table, and that have its name."""
        for other in tables:
            for (key,) in other.keys[:1]:
                for column in table.columns:
                    if other.name != table.name and column.name in (key, f"{other.name}_{key}", f"{other.name.rstrip('s')}_{key}") and self.values[table.name][column.name] - {""} <= self.values[other.name][key]:
                        yield ForeignKey((column.name,), other.name, (key,))

    def count(self, table):
        return sum(1 for _ in self.records(table.name)) - 1

    def problems(self, table, taken):
        for column in taken:
            if column.rule.kind == "text" and not column.is_surrogate:
                long = sum(len(value.encode()) > 4096 or "\0" in value for value in self.values[table.name][column.source.name])
                if long:
                    yield column.source.name, long, "longer than 4,096 bytes, or with U+0000"

    def batches(self, table, taken, surrogate=None):
        records = self.records(table.name)
        _, header = next(records)
        places = [(column, header.index(column.source.name)) for column in taken if not column.is_surrogate]
        rows = []
        for number, (_, fields) in enumerate(records, 1):
            row = {column.name: value_of(fields[place], column.rule.kind) for column, place in places}
            if surrogate:
                row[surrogate] = number
            rows.append(json.dumps(row, ensure_ascii=False))
            if len(rows) == BATCH:
                yield rows
                rows = []
        if rows:
            yield rows

    def close(self):
        self.values = {}


def kind_of(fields):
    """The kind of the values in the fields of a column."""
    return next((kind for kind in ("int", "bool") if any(fields) and all(is_field(field, kind) for field in fields if field)), "text")


def value_of(field, kind):
    if kind == "text":
        return field
    if field == "":
        return None
    return int(field) if kind == "int" else field == "true"
