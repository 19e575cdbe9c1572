"""A sum of hashes over the rows of a table, by which two tables are compared without their rows being read."""
import hashlib
import itertools
import json

from .kinds import base, is_nullable
from .postgres import quoted


def hash_query(name, columns):
    """A query for the number of rows, and for the sum of the first 64 bits of a hash of each."""
    row = " || ',' || ".join(itertools.starmap(hashed, columns.items()))
    number = f"('x' || encode(substring(sha256(convert_to({row}, 'UTF8')) FROM 1 FOR 8), 'hex'))::bit(64)::bigint"
    return f"SELECT count(*) AS rows, coalesce(sum({number}), 0)::text AS sum FROM {name}"


def hashed(column, kind):
    """The text of a column for the hash."""
    name = quoted(column)
    text = f"length({name}) || ':' || {name}" if base(kind) == "text" else f"{name}::text"
    return f"coalesce({text}, 'null')" if is_nullable(kind) else text


def hash_sum(rows, columns) -> int:
    """The same sum, of rows that were read."""
    writers = {"text": lambda value: f"{len(value)}:{value}", "int": str, "bool": json.dumps}
    parts, total = [(name, writers[base(kind)]) for name, kind in columns.items()], 0
    for row in rows:
        text = ",".join(["null" if row[name] is None else write(row[name]) for name, write in parts])
        total += int.from_bytes(hashlib.sha256(text.encode()).digest()[:8], "big", signed=True)
    return total
