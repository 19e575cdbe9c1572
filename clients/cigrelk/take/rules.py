"""How values of types that the language does not have stand in a store, and how they are read back.

Each rule says the type of the column in the definition, what is kept of equality and order, and the expressions in PostgreSQL and SQLite
that give a value as it stands in the store. A table of the original types takes the same text again.
"""
import re
from typing import NamedTuple

# A number of more digits may not fit 64 bits.
MOST_DIGITS = 18


class Rule(NamedTuple):
    """`kind` is int, text or bool; `native` is the short name of the type for cigrelk compile --existing, if it can carry it; `remark`
    says what becomes of the values; `scale` is the number of digits behind the point if they are kept as an integer."""

    name: str
    kind: str
    native: str = None
    remark: str = None
    scale: int = None
    ordered: bool = False


INT, TEXT, BOOL = Rule("int", "int", ordered=True), Rule("text", "text", ordered=True), Rule("bool", "bool")
DAY = "as text YYYY-MM-DD, which keeps equality and order"
RULES = {
    "smallint": INT, "integer": INT, "bigint": INT, "boolean": BOOL, "text": TEXT, "character varying": TEXT, "name": TEXT,
    "character": Rule("character", "text", None, "as text without the blanks at its end"),
    "date": Rule("date", "text", "date", DAY),
    "time without time zone": Rule("time", "text", "time", "as text HH:MM:SS.ffffff, which keeps equality and order"),
    "timestamp without time zone": Rule("timestamp", "text", "timestamp", "as text YYYY-MM-DD HH:MM:SS.ffffff, which keeps equality and order"),
    "timestamp with time zone": Rule("timestamptz", "text", "timestamptz", "as text in UTC, YYYY-MM-DD HH:MM:SS.ffffffZ, which keeps equality and order"),
    "uuid": Rule("uuid", "text", "uuid", "as text, which keeps equality and order"),
    "bytea": Rule("bytea", "text", "bytea", "as text of hexadecimal digits, which keeps equality and order; at most 2,047 bytes fit"),
    "double precision": Rule("float", "text", "float8", "as text of the shortest digits, without order"),
    "real": Rule("float", "text", "float4", "as text of the shortest digits, without order"),
    "interval": Rule("plain", "text", "interval", "as text, without order"),
    "inet": Rule("plain", "text", "inet", "as text, without order"),
    "jsonb": Rule("plain", "text", "jsonb", "as text, without order"),
    "json": Rule("plain", "text", None, "as text, without order"),
    "xml": Rule("plain", "text", None, "as text, without order"),
    "enum": Rule("plain", "text", "enum", "as text with an `in`"),
}
PLAIN = Rule("plain", "text", None, "as text, without order")


def rule_of(column, decimal="integer", native=False):
    """The rule for a column. With `native` it is that of a table that stays where it is, and whose values keep their types."""
    if column.type == "numeric":
        digits = re.search(r"\((\d+)(?:,(-?\d+))?\)", column.full)
        scale = int(digits[2] or 0) if digits else None
        if native:
            return Rule("numeric", "text", "numeric", "as it is; 1.0 equals 1.00, and there is no order in conditions")
        if digits and decimal == "integer" and int(digits[1]) <= MOST_DIGITS and 0 <= scale <= int(digits[1]):
            unit = f"an integer of its smallest unit, 1/{10 ** scale}" if scale else "an integer"
            return Rule("scaled", "int", "numeric", f"as {unit}, which keeps equality and order", scale, True)
        return Rule("plain", "text", "numeric", "as text, without order")
    return RULES.get(column.type, PLAIN)


def in_postgresql(rule, name):
    """The expression of PostgreSQL for a value as it stands in a store."""
    forms = {
        "int": "{}", "bool": "{}", "text": "{}::text", "plain": "{}::text", "float": "{}::text", "character": "rtrim({}::text)", "uuid": "{}::text",
        "date": "to_char({}, 'YYYY-MM-DD')", "time": "to_char({}, 'HH24:MI:SS.US')", "timestamp": "to_char({}, 'YYYY-MM-DD HH24:MI:SS.US')",
        "timestamptz": "to_char({} AT TIME ZONE 'UTC', 'YYYY-MM-DD HH24:MI:SS.US') || 'Z'", "bytea": "'\\x' || encode({}, 'hex')",
        "scaled": f"({{}} * {10 ** (rule.scale or 0)})::bigint",
    }
    return forms[rule.name].format(name)


def bad_in_postgresql(rule, name):
    """A condition of PostgreSQL that holds on values that the rule cannot keep, or None, and what they are."""
    if rule.name in ("date", "timestamp", "timestamptz"):
        return f"NOT isfinite({name}) OR extract(year FROM {name}) NOT BETWEEN 1 AND 9999", "before the year 1, after 9999 or infinite"
    if rule.name == "bytea":
        return f"length({name}) > 2047", "longer than 2,047 bytes"
    if rule.name == "time":
        return f"{name} = '24:00'", "24:00"
    if rule.kind == "text":
        return f"octet_length({name}::text) > 4096", "longer than 4,096 bytes"
    if rule.name == "scaled":
        return f"{name} = 'NaN'", "NaN"
    return None, None


def as_given(rule, value):
    """A value of a store as text that the original type takes."""
    if value is None:
        return None
    if rule["rule"] == "scaled" and rule.get("scale"):
        sign, digits = ("-" if value < 0 else ""), str(abs(value)).rjust(rule["scale"] + 1, "0")
        return f"{sign}{digits[:-rule['scale']]}.{digits[-rule['scale']:]}"
    if isinstance(value, bool):
        return "true" if value else "false"
    return str(value)
