"""Texts for people: names, rows and tables as they are printed."""
import json
import unicodedata
from typing import Iterable

from .kinds import MOST_SHOWN, SAYS_NULL, base, is_nullable



def plain(text: str) -> str:
    """A text with everything escaped that steers a terminal or turns the direction of what follows."""
    if text.isprintable():
        return text
    return "".join(one if one.isprintable() else one.encode("unicode_escape", "surrogatepass").decode() for one in text)


def short(value: object) -> str:
    """A value as JSON, cut where it is long."""
    text = plain(json.dumps(value, ensure_ascii=False, default=str))
    return text if len(text) <= MOST_SHOWN else f"{text[:MOST_SHOWN]}.. ({len(text)} characters)"


def words_of(row):
    """A row as its columns and their values."""
    return ", ".join(f"{name} {short(value)}" for name, value in row.items()) if row else "no columns"


def listing(names: Iterable[str]) -> str:
    return " and ".join(names)


def counted(number: int, thing: str) -> str:
    """A number of things, as `1 row` or `2,000 rows`."""
    return f"{number:,} {thing}{'' if number == 1 else 's'}"


def enumeration(numbers):
    """Numbers as `4, 17 and 90`."""
    *first, last = map(str, numbers)
    return f"{', '.join(first)} and {last}" if first else last


def sides(edge):
    """A dependency in words."""
    return f"{listing(edge['left'])} {'determines' if len(edge['left']) == 1 else 'determine'} {listing(edge['right'])}"


def differing(edge, rows):
    """A dependency with those columns of its right side in which some of the rows differ."""
    return {"left": edge["left"], "right": [name for name in edge["right"] if any(row[name] != rows[0][name] for row in rows[1:])]}


def cell(value: object, kind: str) -> str:
    """A value as it stands in a cell: a text as it is, and any other as JSON. In a column that may be null the text null stands in
    quotes."""
    if not isinstance(value, str):
        return json.dumps(value)
    return f'"{value}"' if is_nullable(kind) and SAYS_NULL.fullmatch(value) else value


def width(text):
    """How many places a terminal takes for a text."""
    if text.isascii():
        return len(text)
    return sum(0 if unicodedata.combining(one) else 2 if unicodedata.east_asian_width(one) in "WF" else 1 for one in text)


def padded(text, places, kind):
    """A text with blanks, so that it takes so many places; a number stands at the right."""
    blanks = " " * (places - width(text))
    return blanks + text if base(kind) == "int" else text + blanks


def table(rows, columns):
    """Rows as lines of text. `columns` has the kind of each column by its name."""
    lines = [list(columns)] + [[plain(cell(row[name], kind)) for name, kind in columns.items()] for row in rows]
    widths = [max(map(width, column)) for column in zip(*lines)]
    printed = ["  ".join(map(padded, line, widths, columns.values())).rstrip() for line in lines]
    return "\n".join([printed[0], "  ".join("-" * places for places in widths), *printed[1:]])


def marked_table(rows, marked):
    """Rows of the same columns as lines of text, with the cells of some columns between stars."""
    names = list(rows[0])
    lines = [names] + [[f"*{short(row[name])}*" if name in marked else short(row[name]) for name in names] for row in rows]
    widths = [max(map(width, column)) for column in zip(*lines)]
    return "\n".join("    " + "  ".join(padded(text, places, "text") for text, places in zip(line, widths)).rstrip() for line in lines)


def safe_json(value):
    """JSON in which what steers a terminal is escaped."""
    text = json.dumps(value, ensure_ascii=False)
    return "".join(one if one.isprintable() else json.dumps(one)[1:-1] for one in text)
