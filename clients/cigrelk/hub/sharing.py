"""Edits of several people made as one batch, so that they share a call of the disk. Each is answered as if it were made by itself.

A preview of each edit, all over the same tables, tells what the edit would change by itself. The edits that are independent of each
other are then sent as one batch. An edit is independent of the ones before it if what they change cannot alter what it changes:

* they change no table under its view; or
* they change only the root of its view (`catalog.Root`), it does too, and no dependency of the root has the same values on its left
  side both in a row of this edit, sent or changed, and in a row of theirs.

In the second case revision, drops and joins of the edit look at the rows that have such values in common with its own rows, and at
tables that stay as they are. An edit that is not independent waits for the next turn. The batch's reply is compared with the previews:
it has to tell the sum of them. A batch that is refused is sent again as single lines.
"""
import logging
from typing import Dict, Iterator, List, NamedTuple, Optional

from .catalog import Entry
from .engine import Job, Unknown
from .replies import CHANGED, changed_tables, in_version
from .windows import key_of

LOG = logging.getLogger("cigrelk.hub")


class Written:
    """What the edits before one change: for each table the keys of their rows, or None if nothing is known of them."""

    def __init__(self):
        self.keys: Dict[str, Optional[set]] = {}

    def is_apart(self, entry: Entry) -> bool:
        """Whether no table under a view is changed."""
        return entry.table_set.isdisjoint(self.keys)

    def is_independent(self, entry: Entry, changed: dict, keys: set) -> bool:
        """Whether an edit of a view that changes these rows of tables, with these keys, is independent."""
        if self.is_apart(entry):
            return True
        root = entry.root.table
        if changed.keys() - {root} or entry.table_set & self.keys.keys() != {root}:
            return False
        return self.keys[root] is not None and self.keys[root].isdisjoint(keys)

    def add(self, entry: Entry, changed: dict, keys: set) -> None:
        for table in changed:
            if table != entry.root.table:
                self.keys[table] = None
            elif self.keys.setdefault(table, set()) is not None:
                self.keys[table] |= keys


class Told(NamedTuple):
    """An edit whose preview tells its reply: the change, the reply to the preview, and what it changes; None if it is refused."""

    change: object
    line: bytes
    changed: Optional[dict]


async def make_together(desk, changes: list) -> list:
    """Makes edits in one turn, and gives those back that wait for the next."""
    try:
        replies = await previews(desk, changes)
    except Unknown:
        return changes
    written, told, left, held = Written(), [], [], set()
    for change, line in zip(changes, replies):
        if change.lane in held or not is_over(desk, change, line, written, told):
            # What waits behind it comes after it.
            left.append(change)
            held.add(change.lane)
    try:
        await send(desk, told)
    except Unknown:
        desk.lost([it.change for it in told if not it.change.done.done()])
    except OSError as error:
        for it in told:
            it.change.fail(error)
    return left


async def previews(desk, changes: list) -> List[bytes]:
    """The replies to a preview of each edit. What its window shows is asked with it."""
    lines = []
    for change in changes:
        line = b'{"do":"preview"' + change.bare[len(b'{"do":"edit"') :]
        if change.on is not None:
            line = b'%b,"on":%d}' % (line[:-1], desk.catalog.on_in_program(change.record.views, change.on))
        lines += [*(change.watch.lines if change.watch else ()), line]
    replies, found, at = await desk.engine.exchange(Job(lines)), [], 0
    for change in changes:
        end = at + (len(change.watch.lines) if change.watch else 0)
        change.before = replies[at:end]
        found.append(replies[end])
        at = end + 1
    return found


def is_over(desk, change, line: bytes, written: Written, told: List[Told]) -> bool:
    """Whether an edit is over with this turn. What it changes, or how it is refused, is put to what the edits before it are told."""
    entry, request = desk.catalog.entries.get(change.request["view"]), change.request
    if change.on is not None and change.on > desk.catalog.version and written.keys:
        # The version that it is based on may come with the edits before it.
        return False
    if not line.startswith(CHANGED):
        # It is refused in the same way behind the edits before it, if they change nothing under its view.
        if entry is None or written.is_apart(entry):
            told.append(Told(change, line, None))
            return True
        return False
    changed = changed_tables(line)
    root = entry.root
    keys = root.of_view(request["remove"] + request["add"]) | root.of_table(row for rows in changed.get(root.table, ()) for row in rows)
    if not written.is_independent(entry, changed, keys) or change.on is not None and not written.is_apart(entry):
        return False
    limit = desk.limit(change.user, entry)
    if limit is not None and not limit.issuperset(changed):
        change.fail(desk.not_through(desk.scope(change.user), entry, changed, limit))
        return True
    written.add(entry, changed, keys)
    told.append(Told(change, line, changed))
    return True


async def send(desk, told: List[Told]) -> None:
    """Notes edits in their order, sends those that are accepted, and notes what came of each."""
    shared = [it for it in told if it.changed is not None]
    if told:
        desk.journal.intend([it.change.record for it in told], desk.engine.session)
    if len(shared) < 2 or not await is_batch_made(desk, told, shared):
        lines = [it.change.bare for it in shared]
        if lines:
            await desk.engine.exchange(Job(lines, lambda job: take_lines(desk, told, iter(job.replies))))
        else:
            take_lines(desk, told, iter(()))
    for it in told:
        if it.change.line:
            desk.journal.outcome(it.change, it.change.line)
        else:
            desk.lost([it.change])


async def is_batch_made(desk, told: List[Told], shared: List[Told]) -> bool:
    """Sends edits as one batch, and tells whether the program accepts it."""
    bodies = (b"{" + it.change.bare[len(b'{"do":"edit",') :] for it in shared)
    line, = await desk.engine.exchange(Job([b'{"do":"batch","edits":[%b]}' % b",".join(bodies)], lambda job: take_batch(desk, told, job.replies[0])))
    return line.startswith(CHANGED)


def take_lines(desk, told: List[Told], replies: Iterator[bytes]) -> None:
    """Learns of edits in turn, of those that were sent by their own replies."""
    for it in told:
        desk.note(it.change, it.line if it.changed is None else next(replies))


def take_batch(desk, told: List[Told], line: bytes) -> None:
    """Learns of edits in turn, of those that were sent as if each was made by itself."""
    if not line.startswith(CHANGED):
        return
    if rows_of(changed_tables(line)) != sum_of(told):
        # This would be a fault of this module. What each edit changed is not known then.
        LOG.error("a batch of %d edits changed something else than their previews told", len(told))
        return desk.tell(desk.catalog.note(line))
    for it in told:
        if it.changed:
            desk.tell(desk.catalog.step(line, list(it.changed)))
        if it.changed is None:
            desk.note(it.change, it.line)
        else:
            it.change.take(in_version(it.line, desk.catalog.version), desk.stamp(it.change.user, it.change.request["view"]))


def rows_of(changed: dict) -> Dict[str, tuple]:
    """The rows that a reply tells of, without their order."""
    return {table: (set(map(key_of, remove)), set(map(key_of, add))) for table, (remove, add) in changed.items()}


def sum_of(told: List[Told]) -> Optional[Dict[str, tuple]]:
    """What edits change together, or None if two of them tell of the same row."""
    found: Dict[str, tuple] = {}
    for it in told:
        for table, sides in rows_of(it.changed or {}).items():
            for mine, theirs in zip(found.setdefault(table, (set(), set())), sides):
                if not mine.isdisjoint(theirs):
                    return None
                mine |= theirs
    return found
