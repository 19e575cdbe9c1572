#!/usr/bin/env python3
"""Sends the same random definitions and requests to two versions of the program, and compares their replies byte for byte.

A stream is a run of both programs. Every other stream has a store, which is closed and opened again now and then. Values come
from small sets, so that edits meet dependencies, predicates and hidden rows. At the first difference the script prints the lines
of its stream up to there, and ends with status 1. A stream depends on the seed and its number alone.
"""
import json
import os
import random
import sys
import tempfile
from typing import Dict, FrozenSet, List, NamedTuple, Tuple

from program import Server, arguments, options

COLUMNS = ("a", "b", "c", "d", "e")
VALUES = {"int": [0, 1, 2, 3, -1], "text": ["", "x", "y", "it's", "a text that is longer than twenty-two bytes"], "bool": [True, False]}
COMPARISONS = ("=", "!=", "<", "<=", ">", ">=")
JOINS = ("join_dl", "join_dr", "join_both")
BROKEN = ["", "{}", "[1,2]", '{"do":"list"', '{"do":"read"}', '{"do":"undo","view":"t0"}', '{"do":"read","view":"missing"}', '{"do":"find","view":"t0","column":"zz","value":1}']


class Shape(NamedTuple):
    """What a definition shows if it is accepted: the kind of each column, as `int null`, some dependencies, and the tables below."""

    columns: Dict[str, str]
    dependencies: List[Tuple[List[str], List[str]]]
    tables: FrozenSet[str]

    def renamed(self, column, to):
        def new(names):
            return [to if name == column else name for name in names]

        columns = dict(zip(new(self.columns), self.columns.values()))
        return Shape(columns, [(new(left), new(right)) for left, right in self.dependencies], self.tables)

    def without(self, column):
        columns = {name: kind for name, kind in self.columns.items() if name != column}
        return Shape(columns, [(left, [name for name in right if name != column]) for left, right in self.dependencies], self.tables)

    def joined(self, other):
        return Shape({**self.columns, **other.columns}, self.dependencies + other.dependencies, self.tables | other.tables)


def literal(value):
    if isinstance(value, bool):
        return "true" if value else "false"
    if value is None:
        return "null"
    return str(value) if isinstance(value, int) else "'" + value.replace("'", "''") + "'"


class Stream:
    """The random lines of one run. Of each name that the programs accepted it knows the shape and the rows of the last read."""

    def __init__(self, seed, number):
        self.random = random.Random(f"{seed} {number}")
        self.shapes, self.rows = {}, {}
        # A column has one kind in all tables, so that most joins fit.
        kinds = ("int", "int", "int", "text", "bool")
        self.kinds = {column: self.random.choice(kinds) + self.random.choice(("", "", "", " null")) for column in COLUMNS}

    def some(self, things, least=1, most=2):
        return self.random.sample(list(things), self.random.randint(least, min(most, len(things))))

    # ---- Definitions

    def table(self, name):
        """The text of a table, most often with a key of one column, and its shape."""
        columns = {column: self.kinds[column] for column in self.some(COLUMNS, 2, 4)}
        key, *others = columns
        dependencies = [([key], others)] if self.random.random() < 0.6 else [self.dependency(columns) for _ in range(self.random.randint(0, 2))]
        text = f"table {name} ({', '.join(f'{column} {kind}' for column, kind in columns.items())})"
        if dependencies:
            text += " with " + ", ".join(f"{' '.join(left)} -> {' '.join(right)}" for left, right in dependencies)
        if self.random.random() < 0.2:
            text += f" where {self.predicate(columns)}"
        return text, Shape(columns, dependencies, frozenset([name]))

    def dependency(self, columns):
        left = self.some(columns)
        return left, self.some([it for it in columns if it not in left] or columns)

    def predicate(self, columns, depth=2):
        part = self.random.random()
        if depth and part < 0.3:
            word = self.random.choice((" and ", " or "))
            return word.join(f"({self.predicate(columns, depth - 1)})" for _ in range(2))
        if depth and part < 0.4:
            return f"not ({self.predicate(columns, depth - 1)})"
        column = self.random.choice(list(columns))
        kind = columns[column].split()[0]
        if part < 0.5:
            return f"{column} is null"
        if part < 0.6:
            return f"{column} in ({', '.join(literal(value) for value in self.some(VALUES[kind], 1, 3))})"
        if part < 0.65:
            return f"{column} {self.random.choice(COMPARISONS)} {self.random.choice(list(columns))}"
        return f"{column} {self.random.choice(COMPARISONS)} {literal(self.random.choice(VALUES[kind]))}"

    def named(self):
        name = self.random.choice(list(self.shapes))
        return name, self.shapes[name]

    def expression(self, depth=2):
        """An expression, and the shape that it has if it is accepted."""
        word = self.random.choice(("name", "select", "drop", "rename", "join", "join")) if depth else "name"
        if word == "name":
            return self.named()
        source, shape = self.expression(depth - 1)
        if word == "join":
            other, joined = self.partner(shape) if self.random.random() < 0.8 else self.expression(depth - 1)
            return f"({self.random.choice(JOINS)} {source} with {other})", shape.joined(joined)
        column = self.random.choice(list(shape.columns))
        if word == "select":
            return f"(select from {source} where {self.predicate(shape.columns)})", shape
        if word == "drop" and len(shape.columns) > 1:
            left, right = self.random.choice(shape.dependencies or [([column], [column])])
            column = self.random.choice(right or [column])
            default = literal(self.value(shape.columns.get(column, "int")))
            return f"(drop {column} determined by ({' '.join(left)}, {default}) from {source})", shape.without(column)
        to = self.random.choice(COLUMNS)
        return f"(rename {column} to {to} from {source})", shape.renamed(column, to)

    def partner(self, shape):
        """A name to join with: over other tables, and with a key that is among these columns, if there is such a one."""
        for _ in range(8):
            name, other = self.named()
            shared = set(shape.columns) & set(other.columns)
            if shared and not shape.tables & other.tables and any(set(left) <= shared for left, _ in other.dependencies):
                break
        return name, other

    def definition(self):
        """The request of a new definition, its name and its shape."""
        if len(self.shapes) < 3 or self.random.random() < 0.2:
            name = f"t{len(self.shapes)}"
            text, shape = self.table(name)
        else:
            name = f"v{len(self.shapes)}"
            expression, shape = self.expression()
            text = f"view {name} = {expression[1:-1] if expression.startswith('(') else expression}"
        return {"do": "define", "text": text}, name, shape

    # ---- Requests

    def row(self, columns):
        return {column: self.value(kind) for column, kind in columns.items()}

    def value(self, kind):
        if kind.endswith("null") and self.random.random() < 0.3 or self.random.random() < 0.004:
            return None
        return self.random.choice(VALUES[kind.split()[0]])

    def changed(self, row, columns):
        """The row with another value in one of its columns."""
        column = self.random.choice(list(columns))
        return {**row, column: self.value(columns[column])}

    def edit(self, name):
        columns, rows = self.shapes[name].columns, self.rows.get(name, [])
        removed = self.some(rows, 0, 2) if rows else []
        added = [self.changed(row, columns) for row in removed if self.random.random() < 0.8]
        added += [self.row(columns) for _ in range(self.random.choice((0, 0, 1, 2)))]
        return {"view": name, "remove": removed, "add": added}

    def request(self):
        """The next request about names that are there."""
        name, (columns, _, _) = self.named()
        word = self.random.choice(("read", "read", "find", "put", "edit", "edit", "edit", "preview", "batch", "undo", "export", "import", "type", "list", "broken"))
        rows = self.rows.get(name, [])
        if word == "broken":
            return self.random.choice(BROKEN)
        if word in ("undo", "list"):
            return {"do": word}
        if word in ("read", "export", "type"):
            return {"do": word, "view": name}
        if word == "find":
            column = self.random.choice(list(columns))
            return {"do": word, "view": name, "column": column, "value": self.value(columns[column])}
        if word == "batch":
            return {"do": word, "edits": [self.edit(self.named()[0]) for _ in range(self.random.randint(0, 3))]}
        if word in ("edit", "preview"):
            request = {"do": word, **self.edit(name)}
        elif word == "put":
            kept = [row for row in rows if self.random.random() < 0.9]
            request = {"do": word, "view": name, "rows": [*kept, *(self.row(columns) for _ in range(self.random.randint(0, 3)))]}
        else:
            request = {"do": word, "view": name, "csv": self.sheet(columns, rows)}
        if self.random.random() < 0.1:
            request["on"] = self.random.randint(0, 20)
        return request

    def sheet(self, columns, rows):
        names = self.some(columns, len(columns), len(columns))
        records = [names, *([literal(row[name]).strip("'") for name in names] for row in [*rows, self.row(columns)])]
        return "".join(",".join(fields) + "\n" for fields in records)


class Pair:
    """Two programs that get the same lines."""

    def __init__(self, programs, stores):
        self.programs, self.stores, self.lines, self.servers = programs, stores, [], []

    def start(self):
        words = [["--store", store] if store else [] for store in self.stores]
        self.servers = [Server(program, *given) for program, given in zip(self.programs, words)]

    def ask(self, request):
        """The reply that both gave."""
        line = (request if isinstance(request, str) else json.dumps(request, separators=(",", ":"))) + "\n"
        self.lines.append(line)
        replies = [server.ask(line.encode())[0] for server in self.servers]
        if replies[0] != replies[1]:
            sys.stdout.writelines(self.lines)
            raise SystemExit("\n".join(["the last line has two replies:", *(reply.decode().rstrip() for reply in replies)]))
        return json.loads(replies[0])

    def end(self):
        for server in self.servers:
            server.end()


def played(stream, pair, lines, has_store):
    """Plays a stream, and gives how many lines were accepted."""
    accepted = 0
    pair.start()
    for number in range(lines):
        if has_store and stream.random.random() < 0.01:
            pair.end()
            pair.start()
        if number < 12 or stream.random.random() < 0.02:
            request, name, shape = stream.definition()
            reply = pair.ask(request)
            if reply["ok"]:
                stream.shapes[name] = shape
        elif stream.shapes:
            request = stream.request()
            reply = pair.ask(request)
            if reply["ok"] and "rows" in reply and request["do"] == "read":
                stream.rows[request["view"]] = reply["rows"]
        accepted += reply["ok"]
    pair.end()
    return accepted


def main():
    parser = arguments(__doc__)
    parser.add_argument("--other", required=True, help="the path of the other version of the program")
    parser.add_argument("--streams", type=int, default=100, help="how many streams are played (100)")
    parser.add_argument("--first", type=int, default=0, help="the number of the first stream (0)")
    parser.add_argument("--lines", type=int, default=500, help="how many lines a stream has (500)")
    parser.add_argument("--seed", default="1", help="what the random lines depend on (1)")
    given = options(parser)
    accepted = 0
    for number in range(given.first, given.first + given.streams):
        with tempfile.TemporaryDirectory() as folder:
            has_store = number % 2 == 1
            stores = [os.path.join(folder, name) if has_store else None for name in ("one.db", "other.db")]
            accepted += played(Stream(given.seed, number), Pair([given.program, os.path.abspath(given.other)], stores), given.lines, has_store)
    print(f"{given.streams} streams, {given.streams * given.lines:,} lines, {accepted:,} of them accepted: no difference")


if __name__ == "__main__":
    main()
