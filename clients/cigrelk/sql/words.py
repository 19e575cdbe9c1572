"""Names, values and predicates as SQL.

Names of tables, views and columns have no capitals, so every name that the generated SQL makes for itself has one, or a colon.
"""
import hashlib

from ..kinds import base, is_nullable
from ..language import All, Among, Any, Column, Compare, Drop, IsNull, Not, Rename, Select, Truth
from ..postgres import TYPES, literal, quoted

# The order of texts by bytes, which is that of the language.
COLLATION = ' COLLATE "C"'
# Columns of tables that are there may have other types, which the definitions call text. Their kind here is `text:TYPE`. For each
# the value that stands for null where an index or a hash needs one. Whether a value is null is compared beside it.
NEUTRAL = {
    "int": "0", "text": "''", "bool": "false", "text:date": "'epoch'::date", "text:timestamp": "'epoch'::timestamp",
    "text:timestamptz": "'epoch'::timestamptz", "text:time": "'00:00'::time", "text:uuid": "'00000000-0000-0000-0000-000000000000'::uuid",
    "text:numeric": "0", "text:float8": "0", "text:float4": "0", "text:jsonb": "'null'::jsonb", "text:bytea": "''::bytea", "text:inet": "'0.0.0.0'::inet",
    "text:interval": "'0'::interval", "text:enum": None,
}
# The longest name in PostgreSQL, in bytes. A longer one would be cut.
MOST_NAME = 63


def name_within(name):
    """A name that PostgreSQL does not cut: a longer one ends in a hash of the whole."""
    whole = name.encode()
    if len(whole) <= MOST_NAME:
        return name
    return f"{whole[: MOST_NAME - 17].decode(errors='ignore')}:{hashlib.sha256(whole).hexdigest()[:16]}"


def text_literal(text):
    """A text in quotes, whatever standard_conforming_strings says in the session that reads it."""
    whole = "'" + text.replace("'", "''") + "'"
    return "E" + whole.replace("\\", "\\\\") if "\\" in text else whole


def value_literal(value):
    """A value in quotes, which PostgreSQL reads as one of the kind that it stands beside."""
    return text_literal(value) if isinstance(value, str) else literal(value)


def dollar_quoted(text):
    """A text between dollars that do not occur in it."""
    tag = "cigrelk"
    while f"${tag}$" in text:
        tag += "_"
    return f"${tag}${text}${tag}$"


def value_at(alias, name):
    """A column of an alias. In place of an alias there may be the expressions of columns by their names."""
    return alias[name] if isinstance(alias, dict) else f"{alias}.{quoted(name)}"


def columns_at(alias, columns):
    return ", ".join(f"{alias}.{quoted(name)}" for name in columns)


def column_type(kind):
    """The type of a column in a table that is made for a definition, and whether it takes null."""
    return f"{TYPES[base(kind)]}{COLLATION if base(kind) == 'text' else ''}{'' if is_nullable(kind) else ' NOT NULL'}"


def same(kind, one, other):
    """Whether two values are the same, if null is the same as null alone. These are equations, which an index or a hash serves."""
    if not is_nullable(kind):
        return f"{one} = {other}"
    none = NEUTRAL[base(kind)]
    return f"coalesce({one}, {none}) = coalesce({other}, {none}) AND ({one} IS NULL) = ({other} IS NULL)"


def agree(kinds, columns, one, other):
    """Whether two rows have the same values in columns."""
    return " AND ".join(same(kinds[name], f"{one}.{quoted(name)}", f"{other}.{quoted(name)}") for name in columns)


def differ(columns, one, other):
    """Whether two rows have different values in columns."""
    if len(columns) == 1:
        return f"{columns_at(one, columns)} IS DISTINCT FROM {columns_at(other, columns)}"
    return f"({columns_at(one, columns)}) IS DISTINCT FROM ({columns_at(other, columns)})"


def row_order(kinds, alias):
    """The order of rows in replies: by rising names of columns, null first, texts by bytes."""
    parts = []
    for name in sorted(kinds):
        collation = COLLATION if base(kinds[name]) == "text" else ""
        parts.append(f"{alias}.{quoted(name)}{collation}{' NULLS FIRST' if is_nullable(kinds[name]) else ''}")
    return ", ".join(parts)


def holds(node, kinds, alias, collation=COLLATION):
    """A predicate over the columns of an alias, or over expressions (value_at). Under a `not` it is never unknown. If the columns of text have the collation of the
    language, no other need be said: a server behind postgres_fdw takes no condition that says one."""
    if isinstance(node, Truth):
        return literal(node.value)
    if isinstance(node, Compare):
        left = value_at(alias, node.column)
        right = value_at(alias, node.right.name) if isinstance(node.right, Column) else value_literal(node.right)
        sign = "<>" if node.sign == "!=" else node.sign
        is_text_order = sign not in ("=", "<>") and base(kinds[node.column]) == "text"
        return f"{left} {sign} {right}{collation if is_text_order else ''}"
    if isinstance(node, Among):
        return f"{value_at(alias, node.column)} IN ({', '.join(map(value_literal, node.literals))})"
    if isinstance(node, IsNull):
        return f"{value_at(alias, node.column)} IS NULL"
    if isinstance(node, Not):
        part = holds(node.part, kinds, alias, collation)
        # An index serves a plain NOT.
        return fails(part) if any(map(is_nullable, kinds.values())) else f"NOT ({part})"
    word = {All: " AND ", Any: " OR "}[type(node)]
    return word.join(f"({holds(part, kinds, alias, collation)})" for part in node.parts)


def fails(condition):
    """Whether a condition does not hold. A plain NOT would be unknown on null."""
    return f"({condition}) IS NOT TRUE"


# ---- Definitions as texts ----


def predicate_text(node):
    """A predicate as the language has it."""
    if isinstance(node, Truth):
        return "true" if node.value else "false"
    if isinstance(node, Compare):
        return f"{node.column} {node.sign} {node.right.name if isinstance(node.right, Column) else literal_text(node.right)}"
    if isinstance(node, Among):
        return f"{node.column} in ({', '.join(map(literal_text, node.literals))})"
    if isinstance(node, IsNull):
        return f"{node.column} is null"
    if isinstance(node, Not):
        return f"not ({predicate_text(node.part)})"
    return {All: " and ", Any: " or "}[type(node)].join(f"({predicate_text(part)})" for part in node.parts)


def literal_text(value):
    """A value as the language has it."""
    if value is None or isinstance(value, bool):
        return {None: "null", True: "true", False: "false"}[value]
    return str(value) if isinstance(value, int) else "'" + value.replace("'", "''") + "'"


def expression_text(node, *operands):
    """One node over operands that are names, as the language has it."""
    if isinstance(node, Select):
        return f"select from {operands[0]} where {predicate_text(node.predicate)}"
    if isinstance(node, Drop):
        return f"drop {node.column} determined by ({' '.join(node.by)}, {literal_text(node.default)}) from {operands[0]}"
    if isinstance(node, Rename):
        return f"rename {node.column} to {node.to} from {operands[0]}"
    return f"{node.kind} {operands[0]} with {operands[1]}"
