"""Replies of the program, as bytes and as what they tell."""
import json
from typing import Dict, List, Tuple

from . import long_json
from .refusing import No
from .requests import encoded

# How replies begin: a change or a preview was accepted, rows, a definition was taken, CSV, and a refusal as stale.
CHANGED, ROWS, OK, CSV_TEXT, STALE = b'{"changed":', b'{"ok":true,"rows":', b'{"ok":true', b'{"csv":', b'{"changed_at":'
VERSION = b',"version":'


def in_version(line: bytes, version: int) -> bytes:
    """An accepted reply with another version."""
    return b"%b%b%d}" % (line[: line.rindex(VERSION)], VERSION, version)


def version_in(line: bytes) -> int:
    """The version of an accepted reply. It stands last."""
    return int(line[line.rindex(VERSION) + len(VERSION) : -1])


def changed_tables(line: bytes) -> Dict[str, Tuple[List[dict], List[dict]]]:
    """What the reply to a change or a preview tells: for each table the rows removed and those added."""
    return {it["table"]: (it["remove"], it["add"]) for it in long_json.loads(line.decode())["changed"]}


def line_of_no(no: No) -> bytes:
    """A refusal as a reply."""
    return encoded(dict(sorted({**no.reply, "ok": False}.items()))).encode()


def error_in(line: bytes) -> int:
    return json.loads(line)["error"]
