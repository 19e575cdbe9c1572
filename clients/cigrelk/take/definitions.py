"""Definitions of tables that are there, with remarks on what they cannot say, and recipes for what the language refuses.

A foreign key gives a view that joins the two tables. If the program refuses the view, a recipe is tried in its place.
"""
import re
from typing import NamedTuple

from ..refusals import Refused
from ..server import Server
from .checks import Check, Unknown
from .rules import INT, Rule, rule_of
from .sources import Column, SourceTable

RESERVED = set("table view select from where drop determined by join_dl with int text bool and or not in true false rename to null is "
               "join_dr join_both as".split())
# The longest definition in bytes.
MOST_TEXT = 4096


def is_name(name):
    return bool(re.fullmatch("[a-z_][a-z0-9_]{0,31}", name)) and name not in RESERVED


def name_like(name, taken):
    """A name of the language for one that is none: without capitals and odd characters, cut, and with a number if it is taken."""
    found = re.sub("[^a-z0-9_]", "_", name.lower())[:32] or "_"
    found = f"_{found}"[:32] if found[0].isdigit() else found
    found = f"{found[:31]}_" if found in RESERVED else found
    number, base = 1, found
    while found in taken:
        number += 1
        found = f"{base[:32 - len(str(number)) - 1]}_{number}"
    return found


def quoted_if_needed(name):
    return name if is_name(name) else '"' + name.replace('"', '""') + '"'


def number_name(table, names):
    """The name of a column of numbers for a table, whose columns have these names."""
    return name_like(f"{table}_number", names)


def number_statement(place, column, has_keys):
    """The statement that numbers the rows of a table in the database."""
    return f"ALTER TABLE {place} ADD COLUMN {column} bigint GENERATED ALWAYS AS IDENTITY {'UNIQUE' if has_keys else 'PRIMARY KEY'}"


def wants_number(table):
    """Whether a table has no key, or one that shares columns with a foreign key, so that it cannot be joined with its parent."""
    key = next((key for key in table.keys if not any(column.null or column.problem for column in table.columns if column.name in key)), None)
    return key is None or any(set(foreign.columns) & set(key) and set(foreign.columns) != set(key) for foreign in table.foreign_keys)


def number_key(table):
    """The key of one column that the database numbers, or None."""
    fixed = {column.name for column in table.columns if column.fixed}
    return next((key for key in table.keys if len(key) == 1 and key[0] in fixed), None)


def with_number_first(table):
    """A table whose key is the one that the database numbers, if it wants one."""
    number = number_key(table)
    if not number or not wants_number(table):
        return table
    return table._replace(keys=(number, *(key for key in table.keys if key != number)))


class Taken(NamedTuple):
    """A column that a definition has. `name` is its name there."""

    name: str
    source: Column
    rule: Rule
    null: bool
    is_surrogate: bool = False


class Described:
    """A table as a definition, with remarks. `surrogate` makes a key of numbers for it."""

    def __init__(self, table: SourceTable, name, decimal, native, surrogate=False):
        self.table, self.name, self.native, self.remarks = table, name, native, []
        self.surrogate = None
        if name != table.name:
            self.remarks.append(f"it is {table.name} there, which is no name of the language")
        self.columns, names = [], set()
        for column in table.columns:
            taken = self.taken(column, names, decimal)
            if taken:
                names.add(taken.name)
                self.columns.append(taken)
        if surrogate:
            self.surrogate = number_name(name, names)
            self.columns.insert(0, Taken(self.surrogate, Column(self.surrogate, "bigint", "bigint", False), INT, False, True))
            self.remarks.append(f"{self.surrogate} is a surrogate key: the rows are numbered as they come")
        self.by_source = {column.source.name: column for column in self.columns}

    def taken(self, column, names, decimal):
        rule = rule_of(column, decimal, self.native)
        if column.problem:
            return self.leave_out(column, column.problem)
        if self.native and (rule.native is None and rule.name not in ("int", "bool", "text")):
            return self.leave_out(column, f"its type {column.full} has no equality that an index serves" if column.type == "json" else f"its type {column.full} is not carried")
        if self.native and column.type == "enum" and column.null:
            return self.leave_out(column, "it is an enum that may be null, for which no value stands in an index")
        name = column.name if is_name(column.name) and column.name not in names else name_like(column.name, names)
        if name != column.name:
            self.remarks.append(f"{name} is {column.name} there, which is no name of the language")
        if rule.remark:
            self.remarks.append(f"{name} is {column.full}: it is kept {'as it is; in conditions as a text, by = and != alone' if self.native else rule.remark}")
        elif column.type in ("smallint", "integer") or "(" in column.full:
            self.remarks.append(f"{name} is {column.full}, {'and the database rejects what does not fit' if self.native else 'and the store takes more than fits there'}")
        return Taken(name, column, rule, column.null)

    def leave_out(self, column, why):
        needed = not column.null and not column.default
        self.remarks.append(f"{column.name} is left out: {why}{'; rows cannot be added, since it has to be given' if needed and self.native else ''}")
        return None

    def key(self):
        """The columns that determine all others, by their names in the definition: the primary key, or else a UNIQUE without null."""
        if self.surrogate:
            return [self.surrogate]
        for columns in self.table.keys:
            if all(name in self.by_source and not self.by_source[name].null for name in columns):
                return [self.by_source[name].name for name in columns]
        return None

    def text(self):
        """The definition, or None if there is none."""
        if not self.columns:
            self.remarks.append("no definition: no column is left")
            return None
        key = self.key()
        if key is None:
            statement = number_statement(quoted_if_needed(self.table.name), number_name(self.name, {column.name for column in self.columns}), bool(self.table.keys))
            self.remarks.append(f"no definition: it has no key without null, so it may have a row twice. --surrogate makes a key: in the store, or with --types in the database by: {statement};")
            return None
        rest = [column.name for column in self.columns if column.name not in key]
        parts = ", ".join(f"{column.name} {column.rule.kind}{' null' if column.null else ''}" for column in self.columns)
        text = f"table {self.name} ({parts})" + (f" with {' '.join(key)} -> {' '.join(rest)}" if rest else "")
        for columns in self.table.keys:
            names = [self.by_source[name].name for name in columns if name in self.by_source]
            if names != key:
                self.remarks.append(self.second_key(columns, key))
        conditions = [*self.enums(), *filter(None, map(self.check, self.table.checks))]
        return text + (f" where {' and '.join(conditions)}" if conditions else "")

    def second_key(self, columns, key):
        there = "the database keeps it (23505)" if self.native else "the store does not keep it"
        names = [self.by_source[name].name for name in columns if name in self.by_source]
        link = "" if self.native or len(names) < len(columns) else (f". To keep it too, make a table of it: table {name_like(f'{self.name}_by_{names[0]}', ())} ("
               + ", ".join(f"{column.name} {column.rule.kind}{' null' if column.null else ''}" for column in self.columns if column.name in names + key) + f") with {' '.join(names)} -> {' '.join(key)}")
        return f"UNIQUE ({', '.join(columns)}) is no dependency here, since it and the key would determine each other; {there}{link}"

    def enums(self):
        for column in self.columns:
            if column.source.values:
                values = ", ".join("'" + value.replace("'", "''") + "'" for value in column.source.values)
                yield f"({column.name} in ({values}) or {column.name} is null)" if column.null else f"{column.name} in ({values})"

    def check(self, text):
        names = {name: column.name for name, column in self.by_source.items()}
        rules = {name: column.rule for name, column in self.by_source.items()}
        try:
            return Check(text, names, rules, {name for name, column in self.by_source.items() if column.null}).condition()
        except (Unknown, ValueError):
            self.remarks.append(f"CHECK ({text}) is not in the definition; {'the database keeps it (23514)' if self.native else 'the store does not keep it'}")
            return None

    def types(self):
        """What compile and give have to know of the table."""
        columns = {column.name: {"name": column.source.name, "type": column.source.full, "rule": column.rule.name, "scale": column.rule.scale, "null": column.null,
                                 "native": column.rule.native, "default": column.source.default, "fixed": column.source.fixed, "values": list(column.source.values)} for column in self.columns if not column.is_surrogate}
        return {"table": self.table.name, "key": [column for column in self.key() or []], "surrogate": self.surrogate, "columns": columns}


class Definitions:
    """The definitions of all tables of a source, each judged by the program. `lines` is the file with its remarks."""

    def __init__(self, source, decimal="integer", native=False, surrogate=False):
        self.lines, self.texts, self.described, self.dropped = [], [], {}, []
        names, later = set(), []
        with Server() as program:
            for table in source.tables:
                name = table.name if is_name(table.name) and table.name not in names else name_like(table.name, names)
                names.add(name)
                table = with_number_first(table) if surrogate and native else table
                described = Described(table, name, decimal, native, surrogate and not native and wants_number(table))
                text = described.text()
                described.remarks += table.remarks
                later.append((described, text))
            for described, text in later:
                self.say(program, described, text)
            for described in list(self.described.values()):
                for foreign in described.table.foreign_keys:
                    self.propose(program, described, foreign)

    def say(self, program, described, text):
        self.lines += [f"# {described.name}: {remark}" for remark in described.remarks]
        if text is None:
            return
        try:
            program.define(text)
        except Refused as refusal:
            self.lines.append(f"# {described.name}: the program refuses the definition: {refusal}: {text}")
            return
        self.texts.append(text)
        self.lines.append(text)
        self.described[described.name] = described

    def propose(self, program, left, foreign):
        """A view over a foreign key, as a remark that is taken by deleting its #."""
        right = next((other for other in self.described.values() if other.table.name == foreign.table), None)
        if right is None or not all(name in left.by_source for name in foreign.columns):
            return
        columns = [left.by_source[name].name for name in foreign.columns]
        if right is left:
            self.lines.append(f"# {left.name} ({', '.join(columns)}) refers to {left.name} itself, and no table may be twice in a view: edit the two rows by two views")
            return
        to = [right.by_source[name].name for name in foreign.to_columns if name in right.by_source]
        if right.key() != to:
            self.lines.append(f"# {left.name} ({', '.join(columns)}) refers to {right.name} ({', '.join(foreign.to_columns)}), which is not its key here: no join is proposed")
            return
        name = name_like(f"{left.name}_{right.name}_{columns[0]}" if sum(one.table == foreign.table for one in left.table.foreign_keys) > 1 else f"{left.name}_{right.name}", set(self.described))
        text = f"view {name} = join_dl {left.name} with {self.renamed(left, right, dict(zip(to, columns)))}"
        if any(left.by_source[source].null for source in foreign.columns):
            return self.link(program, left, right, columns, to, name)
        try:
            program.define(text)
            self.lines.append(f"# {text}")
        except Refused as refusal:
            self.lines.append(f"# {left.name} with {right.name}: the program refuses the join: {refusal}")
            self.with_surrogate(program, left, right, dict(zip(to, columns)), name)

    def renamed(self, left, right, names):
        """The right table with the names of the left one in the columns that join them, and other names for columns of one name."""
        text, taken = right.name, {column.name for column in left.columns} - set(names.values())
        for column in right.columns:
            new = names.get(column.name) or (column.name if column.name not in taken else name_like(f"{right.name}_{column.name}", taken))
            if new != column.name:
                text = f"rename {column.name} to {new} from {text if text == right.name else f'({text})'}"
            taken.add(new)
        return text if text == right.name else f"({text})"

    def link(self, program, left, right, columns, to, name):
        """A foreign key that may be null: the recipe is a table of the rows that have one."""
        key = left.key()
        link = name_like(f"{left.name}_{columns[0]}_link", set(self.described))
        kinds = {column.name: column.rule.kind for column in left.columns}
        parts = ", ".join(f"{column} {kinds[column]}" for column in key + columns)
        texts = [f"table {link} ({parts}) with {' '.join(key)} -> {' '.join(columns)}",
                 f"view {name} = join_dl {link} with {self.renamed_link(key + columns, right, dict(zip(to, columns)))}"]
        self.lines.append(f"# {left.name} ({', '.join(columns)}) may be null, so its type is not that of the key of {right.name}, and the program refuses the join. Recipe: a table of the rows that have one"
                          f"{self.tried(program, texts)}")
        self.lines += [f"#   {text}" for text in texts]
        self.lines.append(f"#   CREATE TABLE {link} AS SELECT {', '.join(key + columns)} FROM {quoted_if_needed(left.table.name)} WHERE {' AND '.join(f'{column} IS NOT NULL' for column in columns)};")

    def renamed_link(self, left_columns, right, names):
        text, taken = right.name, set(left_columns) - set(names.values())
        for column in right.columns:
            new = names.get(column.name) or (column.name if column.name not in taken else name_like(f"{right.name}_{column.name}", taken))
            if new != column.name:
                text = f"rename {column.name} to {new} from {text if text == right.name else f'({text})'}"
            taken.add(new)
        return text if text == right.name else f"({text})"

    def with_surrogate(self, program, left, right, names, name):
        """A composite key with its parent: the recipe is a key of numbers."""
        key, number = left.key(), number_name(left.name, {column.name for column in left.columns})
        parts = ", ".join(f"{column.name} {column.rule.kind}{' null' if column.null else ''}" for column in left.columns)
        other = name_like(f"{left.name}_numbered", set(self.described))
        texts = [f"table {other} ({number} int, {parts}) with {number} -> {' '.join(column.name for column in left.columns)}",
                 f"view {name} = join_dl {other} with {self.renamed(left, right, names)}"]
        self.lines.append(f"#   Recipe: a surrogate key{self.tried(program, texts)}")
        self.lines += [f"#   {text}" for text in texts]
        self.lines.append(f"#   {number_statement(quoted_if_needed(left.table.name), number, True)}; and keep UNIQUE ({', '.join(key)}), which the definition cannot say")

    def tried(self, program, texts):
        """What the program says of a recipe."""
        try:
            for text in texts:
                program.define(text)
        except Refused as refusal:
            return f" (the program refuses it too: {refusal})"
        return " (the program takes it):"

    def file(self):
        return "".join(f"{line}\n" for line in self.lines)

    def types(self):
        return {name: described.types() for name, described in self.described.items()}
