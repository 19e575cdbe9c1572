"""The form of requests: those of the program, each with the hub's own member `session` beside `on`."""
import json
import re
from typing import List

from ..kinds import MOST_TEXT
from . import long_json
from .refusing import No

# The longest line, and the greatest version.
MOST_LINE, MOST_VERSION = 16 << 20, 2**64 - 1
NAME = re.compile(r"[a-z_][a-z0-9_]{0,31}")
encoded = json.JSONEncoder(ensure_ascii=False, allow_nan=False, separators=(",", ":")).encode


def is_name(value) -> bool:
    return isinstance(value, str) and NAME.fullmatch(value) is not None


def is_text(value) -> bool:
    return isinstance(value, str) and len(value.encode()) <= MOST_TEXT and "\0" not in value


def is_list(value) -> bool:
    return isinstance(value, list)


def is_string(value) -> bool:
    return isinstance(value, str)


def is_version(value) -> bool:
    return isinstance(value, int) and not isinstance(value, bool) and 0 <= value <= MOST_VERSION


def is_edit(value) -> bool:
    return isinstance(value, dict) and value.keys() == {"view", "remove", "add"} and all(SHAPES[name](it) for name, it in value.items())


SHAPES = {
    "text": is_text, "view": is_name, "column": is_name, "value": lambda value: True, "rows": is_list, "remove": is_list, "add": is_list,
    "csv": is_string, "on": is_version, "change": is_string, "session": is_string,
    "edits": lambda value: isinstance(value, list) and all(map(is_edit, value)),
}
# The members of each request: those that must be there, and those that may.
EDIT = (frozenset(("view", "remove", "add")), frozenset(("on", "session")))
MEMBERS = {
    "define": (frozenset(("text",)), frozenset()), "read": (frozenset(("view",)), frozenset()),
    "find": (frozenset(("view", "column", "value")), frozenset()), "put": (frozenset(("view", "rows")), EDIT[1]), "edit": EDIT,
    "preview": EDIT, "batch": (frozenset(("edits",)), EDIT[1]), "undo": (frozenset(), frozenset(("change",))),
    "export": (frozenset(("view",)), frozenset()), "import": (frozenset(("view", "csv")), EDIT[1]),
    "type": (frozenset(("view",)), frozenset()), "list": (frozenset(), frozenset()),
}
# The requests that may be under way beside others of one series of lines. Each other one waits for those before it.
IN_SERIES = frozenset(("read", "find", "put", "edit", "preview", "batch", "export", "import"))


def exact_int(text: str):
    """An integer of JSON. The program takes -0 for no integer, and so does this."""
    return -0.0 if text == "-0" else int(text)


def read_request(line: bytes) -> dict:
    """A line as a request. Raises No as the program refuses: 10, 11, 12."""
    if len(line) > MOST_LINE:
        raise No(10)
    try:
        text = line.decode()
        request = long_json.loads(text, exact_int if "-0" in text else None)
        # (half of a surrogate pair is no text, and a float may be no number)
        long_json.encode(request)
    except (ValueError, RecursionError):
        raise No(11) from None
    return shaped(request)


def shaped(request) -> dict:
    """A request whose members are right. Raises No(12) with the least wrong member."""
    if not isinstance(request, dict) or not isinstance(request.get("do"), str) or request["do"] not in MEMBERS:
        raise No(12, member="do")
    must, may = MEMBERS[request["do"]]
    there = request.keys() - {"do"}
    if must <= there <= must | may and all(SHAPES[name](request[name]) for name in there):
        return request
    wrong = (must - there) | (there - must - may) | {name for name in there & (must | may) if not SHAPES[name](request[name])}
    raise No(12, member=min(wrong, key=str.encode))


def named(request: dict) -> List[str]:
    """The tables and views that a request names."""
    return [request["view"]] if "view" in request else sorted({edit["view"] for edit in request["edits"]})


def line_of(request: dict) -> bytes:
    """A request as a line for the program. The members `on` and `session` are the hub's: versions of the hub are others than those
    of the program."""
    if "on" in request or "session" in request:
        request = {name: it for name, it in request.items() if name not in ("on", "session")}
    return long_json.encode(request)
