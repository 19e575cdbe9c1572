"""The journal: who changed what, when, and by which request. Lines are only ever added, one of JSON for each event:

    {"at": .., "id": .., "user": .., "views": [..], "request": {..}}     before the request is sent to the program
    {"at": .., "id": .., "version": .., "changed": [..]}                 it was done; with "undoes" if it took another change back
    {"at": .., "id": .., "error": 42}                                    it was refused, and changed nothing
    {"at": .., "id": .., "unknown": ".."}                                the program or the hub ended first: it was done or not

The first is written, and not waited for. A change is answered when its second line is on the disk. Lines that come while the disk is
busy go together, by one call. So a kill of the hub loses no line, and a fall of the machine loses at most lines of changes that were
not answered.

The file STORE.journal is the last part. When it is long it gets the name STORE.journal.000001, and so on, and a new one is begun. The
first line of a part says what a start has to know of the parts before it, so a start reads the last part alone.
"""
import asyncio
import collections
import concurrent.futures
import datetime
import errno
import glob
import hashlib
import json
import os
import re
import threading
from typing import Dict, Iterator, List, NamedTuple, Optional, Tuple

from .requests import encoded

# Up to this length a request is written whole. Of a longer one the length and the SHA-256 are written.
MOST_REQUEST = 1 << 16
# From this length on a part is ended.
MOST_PART = 16 << 20
# How many changes of a user can be taken back, and how many bytes their lines may have in all.
MOST_UNDO, MOST_UNDO_BYTES = 100, 4 << 20
# How the replies to accepted changes begin, and that of one which changed something.
ACCEPTED, CHANGES_SOMETHING = (b'{"changed":', b'{"ok":true'), b'{"changed":[{'


def now() -> str:
    return datetime.datetime.now(datetime.timezone.utc).isoformat(timespec="milliseconds").replace("+00:00", "Z")


class Record:
    """What is noted of a change: its user, its line, the tables and views that it names, and the change that it takes back. It gets
    an `id` when it is written."""

    __slots__ = ("user", "line", "views", "undoes", "id")

    def __init__(self, user: str, line: bytes, views: List[str], undoes: Optional[str] = None):
        self.user, self.line, self.views, self.undoes, self.id = user, line, views, undoes, ""

    def request(self) -> bytes:
        if len(self.line) <= MOST_REQUEST:
            return self.line
        return encoded({"bytes": len(self.line), "sha256": hashlib.sha256(self.line).hexdigest()}).encode()


class Done(NamedTuple):
    """A change that can be taken back, and where its line is: the number of the part, the place in it, and the length."""

    id: str
    user: str
    views: List[str]
    part: int
    at: int
    length: int


class Journal:
    """The journal that a hub writes."""

    def __init__(self, path: str):
        self.path, self.number, self.part, self.size, self.fault = path, 0, 1, 0, None
        self.undoable: Dict[str, collections.deque] = collections.defaultdict(collections.deque)
        # By its id the user and the names of each change that is under way.
        self.under_way: Dict[str, Tuple[str, List[str]]] = {}
        self.waiting, self.flushing, self.is_cut = [], None, False
        self.disk, self.turn = concurrent.futures.ThreadPoolExecutor(1), threading.Lock()
        self.open()

    # Parts

    def open(self) -> None:
        """Reads the last part, ends a line that was cut off, and notes changes whose outcome nobody knows."""
        older = older_parts(self.path)
        is_there = os.path.exists(self.path) and os.path.getsize(self.path) > 0
        self.part = older[-1] + bool(is_there) if older else 1
        if is_there or older:
            self.recover(self.name(self.part, is_last=is_there))
        if is_there:
            self.file = os.open(self.path, os.O_RDWR | os.O_APPEND)
            self.size = os.fstat(self.file).st_size
            self.is_cut = os.pread(self.file, 1, self.size - 1) != b"\n"
        else:
            # A kill in the middle of a rotation leaves no last part.
            self.part += bool(older)
            self.begin_part()
        for id in sorted(self.under_way):
            self.write({"at": now(), "id": id, "unknown": "the hub ended"})
        self.under_way.clear()
        os.fsync(self.file)

    def name(self, part: int, is_last: bool) -> str:
        return self.path if is_last else f"{self.path}.{part:06d}"

    def begin_part(self) -> None:
        self.file = os.open(self.path, os.O_RDWR | os.O_APPEND | os.O_CREAT, 0o600)
        self.size, self.is_cut = 0, False
        undoable = [list(done) for all_of in self.undoable.values() for done in all_of]
        self.append(encoded({"part": self.part, "at": now(), "undoable": undoable, "under_way": self.under_way}).encode() + b"\n")
        os.fsync(self.file)
        folder = os.open(os.path.dirname(os.path.abspath(self.path)), os.O_RDONLY)
        os.fsync(folder)
        os.close(folder)

    def rotate(self) -> None:
        with self.turn:
            os.fsync(self.file)
            os.close(self.file)
            os.rename(self.path, self.name(self.part, is_last=False))
            self.part += 1
            self.begin_part()

    def recover(self, path: str) -> None:
        """Takes from a part which changes can be taken back, and which were under way."""
        for at, line in lines_of(path):
            entry = entry_of(line)
            if "part" in entry:
                for told in entry["undoable"]:
                    self.remember(Done(*told))
                self.under_way.update(entry["under_way"])
            elif "request" in entry:
                self.under_way[entry["id"]] = entry["user"], entry["views"]
            elif "id" in entry:
                first = self.under_way.pop(entry["id"], None)
                if first and entry.get("changed"):
                    self.settle_undo(Done(entry["id"], *first, self.part, at, len(line)), entry.get("undoes"))

    # What can be taken back

    def settle_undo(self, done: Done, undoes: Optional[str]) -> None:
        """Notes a change that can be taken back, or that one was. (An undo cannot be taken back itself.)"""
        if undoes is None:
            return self.remember(done)
        for user, all_of in self.undoable.items():
            self.undoable[user] = collections.deque(it for it in all_of if it.id != undoes)

    def remember(self, done: Done) -> None:
        mine = self.undoable[done.user]
        mine.append(done)
        while len(mine) > MOST_UNDO or sum(it.length for it in mine) > MOST_UNDO_BYTES:
            mine.popleft()

    def changes_of(self, done: Done) -> Optional[Dict[str, Tuple[List[dict], List[dict]]]]:
        """The differences of a change by table: rows removed, and rows added. None if its part was taken away."""
        try:
            with open(self.name(done.part, done.part == self.part), "rb") as file:
                line = os.pread(file.fileno(), done.length, done.at)
        except FileNotFoundError:
            return None
        entry = entry_of(line)
        return {it["table"]: (it["remove"], it["add"]) for it in entry["changed"]} if entry.get("id") == done.id else None

    # Lines

    def write(self, entry: dict) -> None:
        self.write_bytes(encoded(entry).encode() + b"\n")

    def write_bytes(self, data: bytes) -> int:
        """Adds whole lines, and gives the place of the first."""
        with self.turn:
            return self.append(data)

    def append(self, data: bytes) -> int:
        """(One call, so that a kill leaves whole lines. A full disk may leave a part of a line, which the next one ends.)"""
        data, at = (b"\n" + data, self.size + 1) if self.is_cut else (data, self.size)
        self.is_cut = True
        written = os.write(self.file, data)
        self.size += written
        if written != len(data):
            raise OSError(errno.ENOSPC, "the journal could not be written whole")
        self.is_cut = False
        return at

    def intend(self, records: List[Record], session: str) -> None:
        """Writes what is to be done, and gives each record its id. Raises OSError, and then nothing is to be done."""
        if self.fault:
            raise self.fault
        lines, at = [], now().encode()
        for record in records:
            self.number += 1
            record.id = f"{session}-{self.number}"
            lines.append(b'{"at":"%b","id":"%b","user":%b,"views":%b,"request":%b}\n'
                         % (at, record.id.encode(), encoded(record.user).encode(), encoded(record.views).encode(), record.request()))
        with self.turn:
            self.append(b"".join(lines))
            self.under_way.update((record.id, (record.user, record.views)) for record in records)

    def outcome(self, change, line: bytes) -> None:
        """Notes the reply to a change, and settles the change when the note is on the disk."""
        if not line.startswith(ACCEPTED):
            self.add({"at": now(), "id": change.record.id, "error": json.loads(line)["error"]})
            return change.settle()
        self.waiting.append((change, line))
        if self.flushing is None:
            self.flushing = asyncio.ensure_future(self.flush())

    def unknown(self, record: Record, why: str) -> None:
        self.add({"at": now(), "id": record.id, "unknown": why})

    def add(self, entry: dict) -> None:
        """Writes what nobody waits for."""
        try:
            self.write(entry)
        except OSError as error:
            self.fault = error
        with self.turn:
            self.under_way.pop(entry["id"], None)

    async def flush(self) -> None:
        loop = asyncio.get_running_loop()
        while self.waiting:
            batch, self.waiting = self.waiting, []
            records, lines = [change.record for change, _ in batch], [line_of(change.record, line) for change, line in batch]
            try:
                at = await loop.run_in_executor(self.disk, self.put, records, lines)
                for record, line in zip(records, lines):
                    if b'"changed":[{' in line[:200]:
                        self.settle_undo(Done(record.id, record.user, record.views, self.part, at, len(line)), record.undoes)
                    at += len(line)
            except OSError as error:
                # The change is made all the same. That further ones are refused says that something is wrong.
                self.fault = error
            for change, _ in batch:
                change.settle()
        self.flushing = None

    def put(self, records: List[Record], lines: List[bytes]) -> int:
        """Adds lines, sees that they are on the disk, and gives the place of the first."""
        if self.size > MOST_PART:
            self.rotate()
        with self.turn:
            at, file = self.append(b"".join(lines)), self.file
            for record in records:
                self.under_way.pop(record.id, None)
        os.fdatasync(file)
        return at

    async def settled(self) -> None:
        while self.flushing:
            await self.flushing


def line_of(record: Record, line: bytes) -> bytes:
    """The line of an accepted change. The reply has `changed` and `version`, and stands as it is."""
    undoes = b',"undoes":' + encoded(record.undoes).encode() if record.undoes else b""
    return b'{"at":"%b","id":"%b"%b,%b\n' % (now().encode(), record.id.encode(), undoes, line[1:])


# ---- Reading ----


def older_parts(path: str) -> List[int]:
    """The numbers of the parts before the last, in order."""
    ends = (name[len(path) + 1 :] for name in glob.glob(f"{glob.escape(path)}.*"))
    return sorted(int(end) for end in ends if re.fullmatch("[0-9]{6,}", end))


def lines_of(path: str) -> Iterator[Tuple[int, bytes]]:
    """The lines of a part, each with its place."""
    at = 0
    with open(path, "rb") as file:
        for line in file:
            yield at, line
            at += len(line)


def entry_of(line: bytes) -> dict:
    """The entry of a line, or an empty one for a line that was cut off."""
    try:
        entry = json.loads(line)
    except ValueError:
        return {}
    return entry if isinstance(entry, dict) else {}


class Wanted(NamedTuple):
    """Which changes are asked for: those of a person, those that name a table or a view or changed it, and those of a time. `since`
    and `until` are beginnings of times as the journal writes them, as 2026-12-01 or 2026-12-01T09:30."""

    person: Optional[str] = None
    view: Optional[str] = None
    since: Optional[str] = None
    until: Optional[str] = None

    def has(self, first: dict, second: dict) -> bool:
        at = first.get("at") or second.get("at", "")
        return (
            self.person in (None, first.get("user"))
            and (self.view is None or self.view in first.get("views", ()) or any(self.view == it["table"] for it in second.get("changed", ())))
            and (self.since is None or at >= self.since)
            and (self.until is None or at[: len(self.until)] <= self.until)
        )


def changes(path: str, wanted: Wanted = Wanted()) -> Iterator[Tuple[dict, dict]]:
    """The changes of a journal, in the order in which they ended: the line of each before it and the line after it. One of them is
    empty if it is not there; what is under way comes last."""
    begun: Dict[str, dict] = {}
    parts = [f"{path}.{part:06d}" for part in older_parts(path)] + [path] * os.path.exists(path)
    for part in parts:
        for _, line in lines_of(part):
            entry = entry_of(line)
            if "request" in entry:
                begun[entry["id"]] = entry
            elif "id" in entry:
                first = begun.pop(entry["id"], {})
                if wanted.has(first, entry):
                    yield first, entry
    yield from ((first, {}) for first in begun.values() if wanted.has(first, {}))


def summary(first: dict, second: dict) -> str:
    """A change as a line for people: when, who, what, and what came of it."""
    head = f"{first.get('at') or second['at']} {first.get('id') or second['id']} {first.get('user', '?')}"
    return f"{head}: {what(first, second)} -> {outcome_text(second)}"


def what(first: dict, second: dict) -> str:
    if "undoes" in second:
        return f"undo of {second['undoes']}"
    request = first.get("request", {})
    words = (request.get("do", f"a request of {request.get('bytes', 0):,} bytes"), ", ".join(first.get("views", ())), request.get("text", ""))
    return " ".join(filter(None, words))


def outcome_text(second: dict) -> str:
    if not second:
        return "under way"
    if "error" in second:
        return f"refused, {second['error']}"
    if "unknown" in second:
        return f"unknown: {second['unknown']}"
    tables = [f"{it['table']} -{len(it['remove'])} +{len(it['add'])}" for it in second.get("changed", ())]
    return f"version {second['version']}: {', '.join(tables) or 'nothing' if 'changed' in second else 'defined'}"
