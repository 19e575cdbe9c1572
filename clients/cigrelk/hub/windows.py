"""What a window tells of its changes: rows that were there and went, and rows that were not and came."""
from typing import Dict, Iterable, Iterator, List, Optional, Tuple

from . import long_json
from .requests import encoded

# Up to how many rows it is asked one by one whether a window shows them. For more the window is read.
MOST_ASKED = 64
CHANGES_SOMETHING = b'{"changed":[{'


def key_of(row) -> str:
    return encoded(sorted(row.items())) if isinstance(row, dict) else encoded(row)


def by_key(rows: Iterable) -> Dict[str, dict]:
    return {key_of(row): row for row in rows}


def in_order(rows: Iterable[dict]) -> List[dict]:
    """Rows as replies have them: by the values of their columns, in order of names, null first."""
    return sorted(rows, key=lambda row: [(row[name] is not None, row[name]) for name in sorted(row)])


def difference(before: Dict[str, dict], after: Dict[str, dict]) -> Tuple[List[dict], List[dict]]:
    """What is in one dict of rows by key alone, and what in the other alone."""
    return ([row for key, row in before.items() if key not in after], [row for key, row in after.items() if key not in before])


def edited(before: Dict[str, dict], remove: List[dict], add: List[dict]) -> Tuple[List[dict], List[dict]]:
    """How an accepted edit changes a window that showed these of its rows: the window shows what was asked for, by the law PutGet."""
    gone, come = by_key(remove), by_key(add)
    return difference(before, {**{key: row for key, row in before.items() if key not in gone}, **come})


class Watch:
    """How it is found which rows windows show: lines for the program, and what the replies to them say.

    A preview that removes a row is always accepted, and changes nothing if and only if the window does not show the row. It goes by
    key. For many rows the window is read instead."""

    def __init__(self, rows: Dict[str, Optional[List]]):
        """`rows` has for each window the rows to watch, or None for all."""
        self.rows = {view: None if it is None or len(it) > MOST_ASKED else list(by_key(it).values()) for view, it in rows.items()}
        self.lines = [encoded(line).encode() for line in self.requests()]

    def requests(self) -> Iterator[dict]:
        for view, rows in self.rows.items():
            if rows is None:
                yield {"do": "read", "view": view}
            else:
                yield from ({"do": "preview", "view": view, "remove": [row], "add": []} for row in rows)

    def shown(self, replies: List[bytes]) -> Dict[str, Dict[str, dict]]:
        """For each window, those of its watched rows that it shows, by key."""
        replies, found = iter(replies), {}
        for view, rows in self.rows.items():
            if rows is None:
                found[view] = by_key(long_json.loads(next(replies).decode()).get("rows", ()))
            else:
                found[view] = {key_of(row): row for row in rows if next(replies).startswith(CHANGES_SOMETHING)}
        return found
