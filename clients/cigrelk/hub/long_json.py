"""JSON that may be long, read and written in pieces.

The standard library reads a text of JSON in one call, in which no other thread runs: 16 MiB hold everyone up for a tenth of a second.
Here a long text is read row by row, so another thread has its turn every few milliseconds. What comes out is the same.
"""
import json
import re
from typing import Any, Callable, Iterator, Optional

# Up to this many characters a text is read in one call.
SHORT = 1 << 16
# How deep a text is read in pieces: the rows of an edit of a batch lie four arrays and objects deep.
DEPTH = 4
# How many rows are written in one call.
ROWS_AT_ONCE = 256
BLANK = re.compile(r"[ \t\n\r]*")
encoded = json.JSONEncoder(ensure_ascii=False, allow_nan=False, separators=(",", ":")).encode


def loads(text: str, parse_int: Optional[Callable] = None) -> Any:
    """What `json.loads` gives. Raises ValueError and RecursionError as it does."""
    if len(text) <= SHORT:
        return json.loads(text, parse_int=parse_int)
    if text.startswith("\ufeff"):
        raise ValueError("a byte order mark stands in front")
    value, at = Pieces(text, parse_int).value(skipped(text, 0), DEPTH)
    if at != len(text):
        raise ValueError(f"more stands behind the value, at {at}")
    return value


def skipped(text: str, at: int) -> int:
    """The place behind white space."""
    return BLANK.match(text, at).end()


class Pieces:
    """A text that is read: arrays, and objects with an array in them, item by item down to a depth, and all else in one call each."""

    def __init__(self, text: str, parse_int: Optional[Callable]):
        self.text, self.whole = text, json.JSONDecoder(parse_int=parse_int).raw_decode

    def value(self, at: int, depth: int):
        """The value at a place, and the place behind it and the white space after it."""
        opening = self.text[at : at + 1]
        if depth and opening == "[":
            found, at = self.items(at, "]", lambda at: self.value(at, depth - 1))
        elif depth and opening == "{" and self.has_array(at):
            found, at = self.items(at, "}", lambda at: self.member(at, depth - 1))
            found = dict(found)
        else:
            found, at = self.whole(self.text, at)
        return found, skipped(self.text, at)

    def has_array(self, at: int) -> bool:
        """Whether an array begins in the object at a place before the first object in it ends, as far as marks tell."""
        return self.text.find("[", at, self.text.find("}", at)) >= 0

    def member(self, at: int, depth: int):
        name, at = self.whole(self.text, at)
        at = skipped(self.text, at)
        if not isinstance(name, str) or self.text[at : at + 1] != ":":
            raise ValueError(f"no member of an object stands at {at}")
        value, at = self.value(skipped(self.text, at + 1), depth)
        return (name, value), at

    def items(self, at: int, closing: str, item: Callable):
        found, at = [], skipped(self.text, at + 1)
        if self.text[at : at + 1] == closing:
            return found, at + 1
        while True:
            one, at = item(at)
            found.append(one)
            mark = self.text[at : at + 1]
            if mark == closing:
                return found, at + 1
            if mark != ",":
                raise ValueError(f"a comma or {closing} is wanted at {at}")
            at = skipped(self.text, at + 1)


def encode(value: Any) -> bytes:
    """A value as compact JSON in UTF-8. Raises ValueError for a float that is no number and for half of a surrogate pair."""
    for it in value.values() if isinstance(value, dict) else ():
        if isinstance(it, list) and len(it) > ROWS_AT_ONCE:
            return b"{%b}" % b",".join(encoded(name).encode() + b":" + b"".join(pieces(part)) for name, part in value.items())
    return encoded(value).encode()


def pieces(value: Any) -> Iterator[bytes]:
    if not isinstance(value, list) or len(value) <= ROWS_AT_ONCE:
        yield encoded(value).encode()
        return
    yield b"["
    for at in range(0, len(value), ROWS_AT_ONCE):
        yield (b"," if at else b"") + encoded(value[at : at + ROWS_AT_ONCE]).encode()[1:-1]
    yield b"]"
