"""The kinds of columns, which values each takes, and what a person writes for them."""
import datetime
import decimal
import re
from typing import Optional

from .errors import CommandError

# The longest text of a column in bytes, and the ends of a number.
MOST_TEXT, LEAST_INT, MOST_INT = 4096, -(2**63), 2**63 - 1
# What a column wants, by its kind without null.
WANTED = {"int": "a whole number of 64 bits", "text": "a text of at most 4,096 bytes without U+0000", "bool": "true or false"}
# How many characters of a text stand in a message.
MOST_SHOWN = 80
WHOLE = re.compile(r"\s*[+-]?[0-9]{1,19}\s*")
# How dates, numbers with a fraction and truth values are often written.
DATE = re.compile(r"\s*([0-9]{4}-[0-9]{1,2}-[0-9]{1,2}|[0-9]{1,2}[./][0-9]{1,2}[./][0-9]{2,4})([ T][0-9:.,+Z-]*)?\s*")
FRACTION = re.compile(r"\s*[+-]?[0-9][0-9.,' ]*[.,][0-9]+\s*")
TRUTHS = ("t", "f", "yes", "no", "y", "n", "1", "0", "on", "off")
NULL = "null"
# In a column that may be null the word null is null, and the text null stands in quotes. So a text that has this form with
# quotes takes one pair more, and each text has one form of its own.
SAYS_NULL = re.compile('("*)null\\1')


def base(kind: str) -> str:
    """A kind of column without its null: int, text or bool."""
    return kind.partition(" ")[0]


def is_nullable(kind: str) -> bool:
    return kind != base(kind)


def fits(value: object, kind: str) -> bool:
    """Whether a value is of a kind."""
    if value is None:
        return is_nullable(kind)
    if base(kind) == "bool":
        return isinstance(value, bool)
    if base(kind) == "int":
        return isinstance(value, int) and not isinstance(value, bool) and LEAST_INT <= value <= MOST_INT
    try:
        return isinstance(value, str) and "\0" not in value and len(value.encode()) <= MOST_TEXT
    except UnicodeEncodeError:
        return False


def without_quotes(text: str, kind: str) -> Optional[str]:
    """A text out of a cell in which `cell` wrote it, or None where the cell says null."""
    if is_nullable(kind) and SAYS_NULL.fullmatch(text):
        return None if text == "null" else text[1:-1]
    return text


def value_of(text: str, name: str, kind: str, null: str = NULL) -> object:
    """The value that a text says, for a column of this name and kind. `null` is the text that says null in a column that may be null;
    only if it is the word null, a text that looks like it stands in quotes. Raises CommandError."""
    told = without_quotes(text, kind) if null == NULL else None if is_nullable(kind) and text == null else text
    value = told
    if told is not None and base(kind) == "int" and WHOLE.fullmatch(told):
        value = int(told)
    if told is not None and base(kind) == "bool" and told.strip().lower() in ("true", "false"):
        value = told.strip().lower() == "true"
    if not fits(value, kind):
        raise CommandError(f"{wants(name, kind)}, and not {text[:MOST_SHOWN]!r}{cure_for(text, kind)}")
    return value


def wants(name: str, kind: str) -> str:
    """What a column of this name and kind wants, in words."""
    return f"{name} wants {WANTED[base(kind)]}{' or null' if is_nullable(kind) else ''}"


def cure_for(value: object, kind: Optional[str] = None) -> str:
    """What is told behind a value that is none of a kind: what it is, and what to do with it. `kind` is None if it is not known."""
    is_written = isinstance(value, str) and kind is not None
    if isinstance(value, (datetime.date, datetime.time)) or (is_written and base(kind) == "int" and DATE.fullmatch(value)):
        return ": this is a date, and no kind has dates; a column of the kind text keeps it, as '2024-03-01'"
    if isinstance(value, (decimal.Decimal, float)) or (is_written and base(kind) == "int" and FRACTION.fullmatch(value)):
        return ": this has a fraction, and no kind has fractions; keep a smaller unit, as cents, or a column of the kind text"
    if is_written and base(kind) == "bool" and value.strip().lower() in TRUTHS:
        return ": write true or false"
    return ""
