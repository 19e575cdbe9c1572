"""Edits of any size: one change if they fit one request, and otherwise several, which are taken back if one of them is refused."""
from typing import Callable, Iterable, Iterator, List, Optional, Tuple

from .errors import CommandError
from .process import encoded
from .refusals import Refused
from .rows import Change

# How many bytes of rows one request has at most. The program takes lines of 16 MiB.
MOST_BYTES = 15 << 20
# How many requests can be taken back.
MOST_PIECES = 16

# A row that goes and the row that comes in its place, where None stands for no row.
Pair = Tuple[Optional[dict], Optional[dict]]


def edit_all(server, edits: Iterable[Tuple[str, List[Pair]]], on=None, told: Callable[[int], None] = lambda done: None) -> List[Change]:
    """Does edits, each a table or a view by its name with pairs of rows, and gives the changes. All are done or none: a refusal is
    raised once what was done before it has been taken back. `on` is that of `View.edit`; `told` is called with the number of pairs
    that are done. Raises CommandError if they are too many to be taken back."""
    requests = list(pieces(edits))
    if len(requests) > MOST_PIECES:
        raise CommandError(f"these are more than {MOST_PIECES * MOST_BYTES >> 20} MiB of rows, which is too much for one change: split them")
    changes, done = [], 0
    for request in requests:
        try:
            changes.append(one_change(server, request, on))
        except (Refused, KeyboardInterrupt):
            for _ in filter(None, changes):
                server.undo()
            raise
        # Nobody changes the tables in between.
        on = changes[-1]
        done += sum(max(len(remove), len(add)) for _, remove, add in request)
        told(done)
    return changes


def one_change(server, request, on) -> Change:
    if len(request) == 1:
        (name, remove, add), = request
        return server[name].edit(remove, add, on)
    return server.batch(request, on)


def pieces(edits) -> Iterator[List[Tuple[str, List[dict], List[dict]]]]:
    """The edits as lists that fit one request each. The two rows of a pair stay together."""
    request, size = [], 0
    for name, pairs in edits:
        request.append((name, [], []))
        for old, new in pairs:
            bytes_of_pair = sum(len(encoded(row).encode(errors="replace")) + 1 for row in (old, new) if row is not None)
            if size and size + bytes_of_pair > MOST_BYTES:
                yield request
                request, size = [(name, [], [])], 0
            _, remove, add = request[-1]
            size += bytes_of_pair
            remove += [] if old is None else [old]
            add += [] if new is None else [new]
    if request:
        yield request
