"""Pages of a view: its rows in the order of its key, so many at once, after a row."""
import base64
import bisect
import collections
import json
from typing import Any, Dict, List, NamedTuple, Optional, Tuple

from ..rows import key_of
from . import long_json
from .catalog import Entry
from .problems import Problem
from .requests import encoded

# How many rows a page may have, and how many bytes of rows are kept in order for the next pages.
MOST_ROWS, MOST_KEPT = 10_000, 64 << 20


class Page(NamedTuple):
    """Rows as JSON, and where the next page begins; None behind the last."""

    rows: bytes
    after: Optional[str]


class Ordered:
    """The rows of one reply in the order of a key, each as JSON."""

    def __init__(self, rows: List[dict], key: List[str]):
        rows = sorted(rows, key=lambda row: order_of(row, key))
        self.orders, self.rows = [order_of(row, key) for row in rows], [encoded(row).encode() for row in rows]
        self.keys = [[row[name] for name in key] for row in rows]
        self.size = sum(map(len, self.rows)) * 2

    def page(self, limit: int, after: Optional[list]) -> Page:
        at = 0 if after is None else bisect.bisect_right(self.orders, [order_of_value(value) for value in after])
        end = min(at + limit, len(self.rows))
        return Page(b"[%b]" % b",".join(self.rows[at:end]), cursor_of(self.keys[end - 1]) if end < len(self.rows) and end > at else None)


def order_of(row: dict, key: List[str]) -> list:
    return [order_of_value(row[name]) for name in key]


def order_of_value(value: Any) -> Tuple:
    """Null comes first. Texts go byte by byte, and so do their code points."""
    return (value is not None, value)


def key_columns(entry: Entry) -> List[str]:
    """The columns by which the rows of a view are in order: those that determine all others."""
    return key_of(list(entry.columns), entry.dependencies)


def cursor_of(values: list) -> str:
    """The values of a key as a word for an address."""
    return base64.urlsafe_b64encode(encoded(values).encode()).decode().rstrip("=")


def values_of(cursor: str, entry: Entry, key: List[str]) -> list:
    """The values of a key out of a word that `cursor_of` gave. Raises Problem."""
    try:
        values = json.loads(base64.urlsafe_b64decode(cursor + "=" * (-len(cursor) % 4)).decode())
        # (what cannot be compared is told here)
        is_right = isinstance(values, list) and len(values) == len(key) and all(type_fits(value, entry.columns[name]) for value, name in zip(values, key))
    except ValueError:
        is_right = False
    if not is_right:
        raise Problem(400, "'after' is none that this view gave: take it from the header Link of the page before")
    return values


def type_fits(value: Any, kind: str) -> bool:
    wanted = {"int": int, "text": str, "bool": bool}[kind.partition(" ")[0]]
    return value is None or type(value) is wanted


class Pages:
    """Rows in order that were made for pages before, by the reply that they were made of."""

    def __init__(self):
        self.kept: "collections.OrderedDict[Tuple, Ordered]" = collections.OrderedDict()
        self.size = 0

    def ordered(self, question: Tuple, rows: bytes, key: List[str]) -> Ordered:
        """The rows of a reply in order. `question` says which they are, and of which version."""
        found = self.kept.get(question)
        if found is None:
            found = self.kept[question] = Ordered(long_json.loads(rows.decode()), key)
            self.size += found.size
            while self.size > MOST_KEPT and len(self.kept) > 1:
                self.size -= self.kept.popitem(last=False)[1].size
        self.kept.move_to_end(question)
        return found


def limit_of(text: str) -> int:
    if not text.isascii() or not text.isdigit() or not 1 <= int(text[:9]) <= MOST_ROWS:
        raise Problem(400, f"'limit' is a number from 1 to {MOST_ROWS:,}, and not {text[:40]}")
    return int(text)


def filtered(rows: bytes, wanted: Dict[str, Any]) -> bytes:
    """Those of the rows of a reply that have these values in these columns."""
    found = [row for row in long_json.loads(rows.decode()) if all(row[name] == value for name, value in wanted.items())]
    return encoded(found).encode()
