"""Tables of a file of SQLite: what they are, and their rows as a store takes them."""
import os
import re
import sqlite3

from ..errors import CommandError
from ..postgres import quoted
from .sources import Column, ForeignKey, SourceTable

BATCH = 10_000
# Declared types of SQLite, by the words that they contain, as types of PostgreSQL.
TYPES = (("BOOL", "boolean"), ("INT", "bigint"), ("CHAR", "text"), ("CLOB", "text"), ("TEXT", "text"), ("BLOB", "bytea"), ("REAL", "double precision"), ("FLOA", "double precision"),
         ("DOUB", "double precision"), ("DECIMAL", "numeric"), ("NUMERIC", "numeric"), ("TIMESTAMP", "text"), ("DATETIME", "text"), ("DATE", "text"), ("TIME", "text"), ("UUID", "text"), ("JSON", "json"))
# What the values of a type of storage have to be, for each rule.
STORED = {"int": ("integer",), "bool": ("integer",), "text": ("text",), "float": ("real", "integer"), "bytea": ("blob",), "scaled": ("integer", "real"), "plain": ("text", "integer", "real")}


class SQLite:
    """The tables of a file, as they are at one moment."""

    def __init__(self, path):
        if not os.path.isfile(path):
            raise CommandError(f"there is no file {path}")
        try:
            self.connection = sqlite3.connect(f"file:{path}?mode=ro", uri=True)
            self.connection.execute("BEGIN")
            names = [name for (name,) in self.connection.execute("SELECT name FROM sqlite_master WHERE type = 'table' AND name NOT LIKE 'sqlite_%' ORDER BY name")]
        except sqlite3.DatabaseError as error:
            raise CommandError(f"{path} is no file of SQLite: {error}") from None
        self.tables = [self.described(name) for name in names]
        if not self.tables:
            raise CommandError(f"{path} has no table")

    def described(self, name):
        rows = list(self.connection.execute(f"PRAGMA table_xinfo({quoted(name)})"))
        key = [row[1] for row in sorted(rows, key=lambda row: row[5]) if row[5]]
        columns = tuple(self.column(row, key) for row in rows)
        uniques = []
        for _, index, is_unique, origin, is_partial in self.connection.execute(f"PRAGMA index_list({quoted(name)})"):
            found = [row[2] for row in self.connection.execute(f"PRAGMA index_info({quoted(index)})")]
            if is_unique and origin == "u" and not is_partial:
                uniques.append(tuple(found))
        foreign = {}
        for number, _, to, column, to_column, *_ in self.connection.execute(f"PRAGMA foreign_key_list({quoted(name)})"):
            foreign.setdefault((number, to), []).append((column, to_column))
        keys = tuple(filter(None, (tuple(key), *uniques)))
        foreign_keys = tuple(ForeignKey(tuple(one for one, _ in pairs), to, tuple(other for _, other in pairs)) for (_, to), pairs in foreign.items() if all(other for _, other in pairs))
        (text,) = self.connection.execute("SELECT sql FROM sqlite_master WHERE type = 'table' AND name = ?", (name,)).fetchone()
        return SourceTable(name, columns, keys, foreign_keys, tuple(checks_in(text)))

    def column(self, row, key):
        _, name, declared, required, default, in_key, hidden = row
        word = next((type_ for part, type_ in TYPES if part in declared.upper()), "numeric" if declared else "text")
        digits = re.search(r"\(.*\)", declared)
        # A key of whole numbers takes no null, whatever is declared.
        null = not required and not (key == [name] and declared.upper() == "INTEGER")
        return Column(name, word, f"numeric{digits[0].replace(' ', '')}" if word == "numeric" and digits else word, null, None, (), "it is generated" if hidden else None)

    def count(self, table):
        return self.connection.execute(f"SELECT count(*) FROM {quoted(table.name)}").fetchone()[0]

    def problems(self, table, taken):
        for column in taken:
            if column.is_surrogate:
                continue
            name, rule = quoted(column.source.name), column.rule
            types = ", ".join(f"'{one}'" for one in STORED[rule.name] + (("null",) if column.null else ()))
            condition = f"typeof({name}) NOT IN ({types})"
            if rule.name == "bool":
                condition += f" OR {name} NOT IN (0, 1)"
            if rule.name == "scaled":
                condition += f" OR abs({name} * {10 ** rule.scale} - round({name} * {10 ** rule.scale})) > 0.000001"
            if rule.kind == "text":
                condition += f" OR length(CAST({name} AS BLOB)) > {2047 if rule.name == 'bytea' else 4096}"
            number = self.connection.execute(f"SELECT count(*) FROM {quoted(table.name)} WHERE {condition}").fetchone()[0]
            if number:
                yield column.source.name, number, f"not {rule.name}: SQLite keeps values of any type"

    def expression(self, column):
        name, rule = quoted(column.source.name), column.rule
        forms = {"bool": f"json(CASE {name} WHEN 1 THEN 'true' WHEN 0 THEN 'false' ELSE 'null' END)", "bytea": f"'\\x' || lower(hex({name}))",
                 "scaled": f"CAST(round({name} * {10 ** (rule.scale or 0)}) AS INTEGER)", "plain": f"CAST({name} AS TEXT)", "float": f"CAST({name} AS TEXT)"}
        form = forms.get(rule.name, name)
        return f"CASE WHEN {name} IS NOT NULL THEN {form} END" if rule.name == "bytea" else form

    def batches(self, table, taken, surrogate=None):
        parts = [f"'{column.name}', {self.expression(column)}" for column in taken if not column.is_surrogate]
        if surrogate:
            parts.append(f"'{surrogate}', row_number() OVER ()")
        found = self.connection.execute(f"SELECT json_object({', '.join(parts)}) FROM {quoted(table.name)}")
        while rows := found.fetchmany(BATCH):
            yield [row for (row,) in rows]

    def close(self):
        self.connection.close()


def checks_in(text):
    """The texts of the CHECKs of a CREATE TABLE."""
    for found in re.finditer(r"\bCHECK\s*\(", text, re.IGNORECASE):
        depth, place, quote = 1, found.end(), None
        while place < len(text) and depth:
            one = text[place]
            if quote:
                quote = None if one == quote else quote
            elif one in "'\"":
                quote = one
            else:
                depth += {"(": 1, ")": -1}.get(one, 0)
            place += 1
        yield text[found.end(): place - 1]


