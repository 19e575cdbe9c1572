"""The desk: the one place that decides what a user may ask, and what a reply tells him.

Whatever comes (a path of HTTP, a line, the editor's page) is a request of the program's own form here, and goes out as a reply of its
form. What was read of a request is written anew for the program, so that both read the same.

For a user a name is one of these:

* hidden: he has no right on it. It is answered as a name that is not there.
* open: he may read it, and all names that it is made of. He is told what the program tells.
* a window: he has a right on it, and not all of that. It is told as a table of its own, with its columns, dependencies and predicate.
  A change through it tells what it changes in the window, and nothing of the tables below.
"""
import asyncio
import collections
import csv
import json
import logging
from typing import Dict, List, Optional, Set

from ..csv_files import is_field, records_of
from ..kinds import MOST_TEXT, base, is_nullable
from ..language import Reader, defined
from . import long_json, sharing
from .catalog import Catalog, Entry, Scope, catalog_of, names_in, tables_in
from .engine import Busy, Change, Closing, Engine, Job, Program, Stale, Unknown
from .journal import Done, Journal, Record
from .kept import Kept, Stamp
from .refusing import BUSY, CHANGED_SINCE, CLOSING, NO_JOURNAL, NOT_THROUGH, UNKNOWN, No
from .replies import CHANGED, CSV_TEXT, OK, STALE, in_version, line_of_no, version_in
from .requests import encoded, line_of, named, read_request
from .rights import User, Users
from .windows import Watch, by_key, difference, edited, in_order, key_of

# From this length on a request or a reply is read beside the loop.
LONG = 1 << 17
# How many bytes a row has, as a guess.
ROW_SIZE = 64
LOG = logging.getLogger("cigrelk.hub")
# A byte that begins no token: a definition that ends with it is refused, at its first fault.
NO_TOKEN_BYTE = "\x01"
FAULTS = {Busy: BUSY, Unknown: UNKNOWN, Closing: CLOSING}


async def line_for(request: dict) -> bytes:
    """The line of a request, which is made beside the loop if it has many rows."""
    rows = sum(len(it) for it in request.values() if isinstance(it, list)) + sum(len(it["add"]) for it in request.get("edits", ()))
    return await aside(rows * ROW_SIZE, line_of, request)


async def aside(size: int, work, *given):
    """Does long work beside the loop, and short work at once."""
    return await asyncio.to_thread(work, *given) if size > LONG else work(*given)


class Making(Change):
    """A change that is made at the desk: who asks for it, the request, and how it is made in its turn.

    `bare` is its line without the version that it rests on, and `on` that version, one of the hub. `watch` has what windows are asked
    before it, and behind it if `also_after` says so. When it is made, `line` is the program's
    reply in versions of the hub, `stamp` says when it came, and `before` and `after` are the replies to what was watched."""

    def __init__(self, user: User, request: dict, make, bare: bytes, may_share: bool = False, watch: Optional[Watch] = None,
                 also_after: bool = False):
        self.bare, self.on = bare, request.get("on")
        record = Record(user.name, with_on(self.bare, self.on), named(request) if request["do"] in CHANGING else [])
        super().__init__(record, request.get("session"), len(self.bare), may_share)
        self.user, self.request, self.make, self.watch, self.also_after = user, request, make, watch, also_after
        self.line, self.stamp, self.before, self.after = b"", None, [], []

    def take(self, line: bytes, stamp: Stamp) -> None:
        self.line, self.stamp = line, stamp


def with_on(line: bytes, on: Optional[int]) -> bytes:
    """A line that rests on a version."""
    return line if on is None else b'%b,"on":%d}' % (line[:-1], on)


CHANGING = frozenset(("edit", "put", "import", "batch"))


class Desk:
    def __init__(self, users: Users, journal: Journal):
        self.users, self.journal, self.catalog, self.kept = users, journal, Catalog(), Kept()
        self.scopes: Dict[User, Scope] = {}
        self.listeners: Set = set()
        self.engine: Engine = None

    def start(self, words: List[str]):
        """Starts the program. What this gives is to be awaited."""
        self.engine = Engine(words, True, self.conduct, self.restarted, lambda version: version <= self.catalog.version)
        return self.engine.start()

    async def restarted(self, program: Program, listed: bytes) -> None:
        """Learns what is defined, at each start of the program."""
        told = json.loads(listed)
        jobs = [Job([encoded({"do": "type", "view": defined(text)[1]}).encode()]) for text in told["definitions"]]
        for job in jobs:
            program.send(job)
        self.catalog = catalog_of(told["definitions"], [(await job.done)[0] for job in jobs], told["version"])
        self.scopes.clear()
        self.kept.clear()
        for listener in self.listeners:
            listener.restarted(program.session)

    def reload(self) -> None:
        """Takes the users anew from their file. Streams of events are told so."""
        self.users.load()
        self.scopes.clear()
        for listener in self.listeners:
            listener.rights()

    def scope(self, user: User) -> Scope:
        found = self.scopes.get(user)
        if found is None or found.size != len(self.catalog.entries):
            found = self.scopes[user] = Scope(user, self.catalog)
        return found

    # Requests

    async def line(self, user: User, line: bytes) -> bytes:
        """The reply to a line."""
        try:
            request = await aside(len(line), read_request, line)
        except No as no:
            return line_of_no(no)
        return await self.answer(user, request)

    async def answer(self, user: User, request: dict) -> bytes:
        """The reply to a request of the right form. What is begun is ended, whoever goes away."""
        try:
            return await self.WORK[request["do"]](self, user, self.scope(user), request)
        except No as no:
            return line_of_no(no)
        except Stale:
            version = self.scope(user).version()
            return line_of_no(No(41, changed_at=version, version=version))
        except UnicodeEncodeError:
            return line_of_no(No(11))
        except (Busy, Unknown, Closing, OSError) as error:
            return line_of_no(No(FAULTS.get(type(error), NO_JOURNAL)))

    def stamp(self, user: User, view: Optional[str]) -> Stamp:
        """When a reply came that is looked at now."""
        at = self.catalog.changed_at(view) if view in self.catalog.entries else 0
        return Stamp(self.engine.session, self.scope(user).version(), at)

    def job(self, user: User, lines, request: dict) -> Job:
        """A question, whose replies are stamped for a user."""
        view = request.get("view")

        def then(job):
            job.stamped = self.stamp(user, view)

        return Job(lines, then, request.get("session"), request.get("on"))

    async def ask(self, user: User, request: dict, lines=None) -> Job:
        """A question with its replies. It is asked by its line, or by these lines."""
        job = self.job(user, lines or [await line_for(request)], request)
        await self.engine.submit(user.name, job)
        return job

    def told(self, line: bytes, stamp: Stamp) -> bytes:
        """A reply of the program with the user's version, and with the session of the run that gave it."""
        if line.startswith(STALE):
            return encoded({**json.loads(line), "changed_at": stamp.at, "version": stamp.version}).encode()
        if not line.startswith((CHANGED, OK, CSV_TEXT)):
            return line
        head, _, _ = line.rpartition(b',"version":')
        return b'%b,"session":"%b","version":%d}' % (head, stamp.session.encode(), stamp.version)

    # Questions

    async def read(self, user: User, scope: Scope, request: dict) -> bytes:
        scope.need(request["view"], "read")
        job = await self.ask(user, request)
        return self.told(job.replies[0], job.stamped)

    async def shared(self, user: User, request: dict):
        """The program's reply to one question by itself, and its stamp. It may be one that was given before. Raises No."""
        entry, line = self.scope(user).need(request["view"], "read"), line_of(request)
        job = self.kept.find(line, self.catalog.changed_at(entry.name))
        try:
            if job is None:
                job = self.job(user, [line], request)
                self.engine.submit(user.name, job)
                self.kept.begin(line, job)
            return (await asyncio.shield(job.done))[0], job.stamped
        except (Busy, Unknown, Closing) as error:
            raise No(FAULTS[type(error)]) from None

    async def type(self, user: User, scope: Scope, request: dict) -> bytes:
        entry = scope.need(request["view"])
        reply = {"columns": dict(sorted(entry.columns.items())), "dependencies": entry.dependencies, "ok": True, "predicate": entry.predicate,
                 "session": self.engine.session, "tables": entry.tables if entry.name in scope.open else [entry.name], "version": scope.version()}
        return encoded(reply).encode()

    async def list(self, user: User, scope: Scope, request: dict) -> bytes:
        texts = [scope.text(name) for name in self.catalog.entries if name in scope.rights]
        return encoded({"definitions": texts, "ok": True, "session": self.engine.session, "version": scope.version()}).encode()

    async def preview(self, user: User, scope: Scope, request: dict) -> bytes:
        # An empty preview says whether rows that were read are those of now, which is for who may read them.
        is_empty = not request["remove"] and not request["add"] and "read" in scope.rights.get(request["view"], ())
        entry = scope.need(request["view"], "read" if is_empty else "preview")
        watch = None if entry.name in scope.open else Watch({entry.name: request["remove"] + request["add"]})
        lines = [*(watch.lines if watch else ()), await line_for(request)]
        if "on" in request:
            # The version of the program is known when the lines are sent.
            lines = self.resting(lines, entry.name, request["on"])
        job = await self.ask(user, request, lines)
        line, limit = job.replies[-1], self.limit(user, entry)
        if line.startswith(CHANGED) and limit is not None and not limit.issuperset(tables_in(line)):
            raise self.not_through(scope, entry, tables_in(line), limit)
        if watch is None:
            return self.told(line, job.stamped)
        if not line.startswith(CHANGED):
            return self.refused(scope, request, line, job.stamped)
        return await self.edited(request, job.stamped, watch, job.replies[:-1])

    def resting(self, lines: List[bytes], view: str, on: int):
        *before, line = lines
        return lambda: [*before, with_on(line, self.catalog.on_in_program([view], on))]

    # Changes

    async def made(self, change: Making) -> Making:
        """Has a change made in its turn."""
        await self.engine.submit(change.user.name, change)
        return change

    async def edit(self, user: User, scope: Scope, request: dict) -> bytes:
        entry = scope.need(request["view"], "edit")
        is_open = entry.name in scope.open
        watch = None if is_open else Watch({entry.name: request["remove"] + request["add"]})
        request = {"do": "edit", **{name: it for name, it in request.items() if name != "do"}}
        change = await self.made(Making(user, request, self.make, await line_for(request), entry.root is not None, watch))
        if is_open:
            return self.told(change.line, change.stamp)
        if not change.line.startswith(CHANGED):
            return self.refused(scope, request, change.line, change.stamp)
        return await self.edited(request, change.stamp, watch, change.before)

    async def edited(self, request: dict, stamp: Stamp, watch: Watch, replies: List[bytes]) -> bytes:
        """What an accepted edit or preview is told to change in its window, out of what the window showed before."""
        def reply():
            before = watch.shown(replies)[request["view"]]
            return window_reply(stamp, {request["view"]: edited(before, request["remove"], request["add"])})

        return await aside(sum(map(len, replies)) + (len(request["remove"]) + len(request["add"])) * ROW_SIZE, reply)

    async def put(self, user: User, scope: Scope, request: dict) -> bytes:
        entry = scope.need(request["view"], "read", "edit")
        return await self.around(user, scope, request, [entry.name])

    async def batch(self, user: User, scope: Scope, request: dict) -> bytes:
        rows = collections.defaultdict(list)
        if not user.is_admin:
            for place, edit in enumerate(request["edits"]):
                try:
                    scope.need(edit["view"], "edit")
                except No as no:
                    raise no.of_edit(place) from None
                rows[edit["view"]] += edit["remove"] + edit["add"]
        return await self.around(user, scope, request, rows)

    async def around(self, user: User, scope: Scope, request: dict, views) -> bytes:
        """A change of these views. What windows show is asked before it and behind it. `views` may have the rows to watch."""
        if scope.open.issuperset(views):
            change = await self.made(Making(user, request, self.make, await line_for(request)))
            return self.told(change.line, change.stamp)
        watch = Watch(views if isinstance(views, dict) else {view: None for view in views})
        change = await self.made(Making(user, request, self.make, await line_for(request), watch=watch, also_after=True))
        if not change.line.startswith(CHANGED):
            return self.refused(scope, request, change.line, change.stamp)
        return await self.differences(change)

    async def differences(self, change: Making) -> bytes:
        """What a change is told to have changed in the windows that were watched."""
        def reply():
            before, after = change.watch.shown(change.before), change.watch.shown(change.after)
            return window_reply(change.stamp, {view: difference(before[view], after[view]) for view in before})

        return await aside(sum(map(len, change.before + change.after)), reply)

    def refused(self, scope: Scope, request: dict, line: bytes, stamp: Stamp) -> bytes:
        """A refusal through a window. Rows of it that the user did not send are for who may read it."""
        reply = json.loads(line)
        if reply.get("error") != 43:
            return self.told(line, stamp)
        edits = request["edits"][: reply["edit"] + 1] if "edit" in reply else [request]
        if "read" not in scope.rights.get(edits[-1]["view"], ()):
            sent = {key_of(row) for edit in edits for row in edit["add"]}
            reply["rows"] = [row for row in reply["rows"] if key_of(row) in sent]
        return encoded(reply).encode()

    # Turns

    async def conduct(self, changes: List[Making]) -> List[Making]:
        """Makes changes in one turn, and gives those back that wait for the next."""
        try:
            return await (sharing.make_together(self, changes) if len(changes) > 1 else self.make_alone(changes[0]))
        except Exception:
            # This would be a fault of the hub. What came of the changes is not known then.
            LOG.exception("a turn of %d changes", len(changes))
            self.lost(changes)
            return []

    async def make_alone(self, change: Making) -> List[Making]:
        try:
            await change.make(change)
        except Unknown:
            if not change.record.id:
                # Nothing of it was sent.
                return [change]
            self.lost([change])
        except (No, OSError) as error:
            change.fail(error)
        return []

    def lost(self, changes: List[Making]) -> None:
        """Notes changes whose outcome nobody knows."""
        for change in changes:
            if change.record.id:
                self.journal.unknown(change.record, "the program ended")
            change.fail(Unknown())

    async def make(self, change: Making) -> None:
        """Makes a change by its line."""
        on = None if change.on is None else self.catalog.on_in_program(change.record.views, change.on)
        await self.rehearse(change)
        await self.send(change, with_on(change.bare, on), *(change.watch.lines if change.watch else ()))

    async def send(self, change: Making, line: bytes, *watched: bytes) -> None:
        """Notes a change, sends its line with what is watched around it, and notes what came of it."""
        main = len(watched)
        self.journal.intend([change.record], self.engine.session)
        replies = await self.engine.exchange(Job([*watched, line, *(watched if change.also_after else ())],
                                                 lambda job: self.note(change, job.replies[main])))
        change.before, change.after = replies[:main], replies[main + 1 :]
        self.journal.outcome(change, change.line)

    def note(self, change: Making, line: bytes) -> None:
        """Learns what came of a change, before any later reply is looked at."""
        if line.startswith(CHANGED):
            self.tell(self.catalog.note(line))
            line = in_version(line, self.catalog.version)
        elif line.startswith(OK):
            self.catalog.pass_to(version_in(line))
            line = in_version(line, self.catalog.version)
        view = change.request.get("view")
        if line.startswith(STALE) and "edits" in change.request:
            view = change.request["edits"][json.loads(line)["edit"]]["view"]
        change.take(line, self.stamp(change.user, view))

    def tell(self, tables: List[str]) -> None:
        """Tells streams of events that tables were changed."""
        for listener in self.listeners if tables else ():
            listener.changed(tables)

    # The tables that an edit may change

    def limit(self, user: User, entry: Entry) -> Optional[frozenset]:
        """The tables that a user's edits of a view may change, or None if that is no less than all of its tables."""
        limit = user.limit(entry.name)
        return None if limit is None or limit >= entry.table_set else limit

    def not_through(self, scope: Scope, entry: Entry, tables, limit, **members) -> No:
        """The refusal of an edit that would change other tables. Those that the user may not see are not named."""
        return No(NOT_THROUGH, view=entry.name, tables=sorted((set(tables) - limit) & scope.rights.keys()), **members)

    async def rehearse(self, change: Making) -> None:
        """Sees by a preview, in the same turn, that a change changes no other tables than it may. Raises No."""
        scope, request = self.scope(change.user), change.request
        edits = request["edits"] if request["do"] == "batch" else [request]
        for place, edit in enumerate(edits):
            entry = self.catalog.entries.get(edit["view"])
            limit = entry and self.limit(change.user, entry)
            if limit is None:
                continue
            of_edit = {"edit": place} if request["do"] == "batch" else {}
            if len(edits) > 1:
                # What a batch changes is known only when it is made.
                raise self.not_through(scope, entry, (), limit, **of_edit, is_batch=True)
            preview = await self.preview_of(request["do"], entry, edit)
            if preview is None:
                continue
            reply, = await self.engine.exchange(Job([preview]))
            if reply.startswith(CHANGED) and not limit.issuperset(tables_in(reply)):
                raise self.not_through(scope, entry, tables_in(reply), limit, **of_edit)

    async def preview_of(self, do: str, entry: Entry, request: dict) -> Optional[bytes]:
        """A preview that changes what a request would change, or None for an import that the program refuses by its columns."""
        if do in ("edit", "batch"):
            return encoded({"do": "preview", "view": entry.name, "remove": request["remove"], "add": request["add"]}).encode()
        if do == "import" and any(map(is_nullable, entry.columns.values())):
            return None
        add = request["rows"] if do == "put" else await aside(len(request["csv"]), rows_of_csv, request["csv"], entry.columns)
        line, = await self.engine.exchange(Job([encoded({"do": "read", "view": entry.name}).encode()]))
        return await aside(len(line) + len(add) * ROW_SIZE, preview_of_put, entry.name, line, add)

    # Definitions

    async def define(self, user: User, scope: Scope, request: dict) -> bytes:
        """A definition is made of names that its user may read. He gets the rights on it that he has on all of these, and all on a
        table of his own."""
        scope.power("define")
        name, operands = read_definition(request["text"])
        if operands is None and not user.is_admin:
            return await self.fault_of(user, request["text"])
        change = await self.made(Making(user, request, lambda change: self.make_definition(change, name, operands), line_of(request)))
        return self.told(change.line, change.stamp)

    async def make_definition(self, change: Making, name: str, operands: Optional[List[str]]) -> None:
        scope, type_line = self.scope(change.user), encoded({"do": "type", "view": name}).encode()
        for operand in operands if not change.user.is_admin else ():
            scope.need(operand, "read")

        def then(job):
            line, told = job.replies
            self.note(change, line)
            if line.startswith(OK):
                self.catalog.add(change.request["text"], json.loads(told))

        self.journal.intend([change.record], self.engine.session)
        line, _ = await self.engine.exchange(Job([change.bare, type_line], then))
        if line.startswith(OK):
            self.give_rights(change.user, name, operands)
            change.stamp = self.stamp(change.user, name)
        self.journal.outcome(change, change.line)

    async def fault_of(self, user: User, text: str) -> bytes:
        """What the program says of a definition that the hub cannot read. The program does not take it."""
        line = encoded({"do": "define", "text": text[: MOST_TEXT // 4] + NO_TOKEN_BYTE}).encode()
        job = Job([line])
        return (await self.engine.submit(user.name, job))[0]

    def give_rights(self, user: User, name: str, operands: Optional[List[str]]) -> None:
        if user.is_admin:
            return
        rights = frozenset.intersection(*(user.on(it) for it in operands)) if operands else ("edit", "preview", "read")
        limits = [user.limit(it) for it in operands or () if user.limit(it) is not None]
        words = [f"{name}:through={','.join(frozenset.intersection(*limits))}"] if limits else []
        self.users.grant(user.name, [f"{name}={','.join(rights)}", *words])
        self.scopes.clear()

    # Undo

    async def undo(self, user: User, scope: Scope, request: dict) -> bytes:
        """Takes a change back by its differences, as an edit of the tables, if no one changed the same rows since: the user's last
        one, or the one that is named. An admin may name anyone's."""
        scope.power("undo")
        change = await self.made(Making(user, request, self.make_undo, line_of(request), also_after=True))
        if change.watch is None or not change.line.startswith(CHANGED):
            return self.told(change.line, change.stamp)
        return await self.differences(change)

    def to_undo(self, user: User, id: Optional[str]) -> Done:
        mine = self.journal.undoable[user.name]
        if id is None:
            found = mine[-1] if mine else None
        else:
            everyone = [it for all_of in self.journal.undoable.values() for it in all_of] if user.is_admin else mine
            found = next((it for it in everyone if it.id == id), None)
        if found is None:
            raise No(44)
        return found

    async def make_undo(self, change: Making) -> None:
        user, scope = change.user, self.scope(change.user)
        done = self.to_undo(user, change.request.get("change"))
        changes = self.journal.changes_of(done)
        if changes is None or not changes.keys() <= self.catalog.entries.keys():
            raise No(44)
        self.may_undo(user, scope, done, changes)
        edits = [{"view": name, "remove": added, "add": removed} for name, (removed, added) in changes.items()]
        previews = await self.engine.exchange(Job([encoded({"do": "preview", **edit}).encode() for edit in edits]))
        if any(json.loads(reply).get("changed") != [{"add": edit["add"], "remove": edit["remove"], "table": edit["view"]}]
               for reply, edit in zip(previews, edits)):
            raise No(CHANGED_SINCE)
        request = {"do": "batch", "edits": edits}
        change.request, change.bare = request, line_of(request)
        change.record = Record(user.name, change.bare, named(request), done.id)
        if not scope.open.issuperset(changes):
            change.watch = Watch({view: None for view in done.views if "read" in scope.rights.get(view, ())})
        await self.send(change, change.bare, *(change.watch.lines if change.watch else ()))

    def may_undo(self, user: User, scope: Scope, done: Done, changes: dict) -> None:
        """Raises No if a right on what was changed is gone."""
        if user.is_admin:
            return
        entries = [scope.need(view, "edit") for view in done.views]
        allowed = set()
        for entry in entries:
            limit = self.limit(user, entry)
            allowed |= entry.table_set if limit is None else limit
        if not allowed >= changes.keys():
            raise self.not_through(scope, entries[0], changes, allowed)

    WORK = {"read": read, "find": read, "export": read, "type": type, "list": list, "preview": preview, "edit": edit, "put": put,
            "import": put, "batch": batch, "define": define, "undo": undo}


def window_reply(stamp: Stamp, differences: dict) -> bytes:
    changed = [{"add": in_order(add), "remove": in_order(remove), "table": view} for view, (remove, add) in sorted(differences.items())]
    return encoded({"changed": [it for it in changed if it["add"] or it["remove"]], "ok": True, "session": stamp.session,
                    "version": stamp.version}).encode()


def read_definition(text: str):
    """The name of a definition, and the names that it is made of; None for these if the hub cannot read it."""
    try:
        return defined(text)[1], names_in(Reader(text).definition())
    except (ValueError, RecursionError):
        return defined(text)[1][:32], None
    except AttributeError:
        # It begins with no word and no name.
        return "x", None


def preview_of_put(view: str, line: bytes, rows: List) -> bytes:
    """The preview of the edit that makes these the rows of a view, whose reply to a read is there."""
    there, come = by_key(long_json.loads(line.decode())["rows"]), by_key(rows)
    remove, add = difference(there, come)
    return long_json.encode({"do": "preview", "view": view, "remove": remove, "add": add})


def rows_of_csv(text: str, columns: Dict[str, str]) -> List[dict]:
    """The rows of a text of CSV. Raises No(45) with the first record that is none, as the program does."""
    try:
        records = [fields for _, fields in records_of(text)]
    except csv.Error:
        raise No(45, record=0) from None
    if not records or sorted(records[0]) != sorted(columns):
        raise No(45, record=0)
    for number, fields in enumerate(records[1:], 1):
        if len(fields) != len(columns) or not all(is_field(field, columns[name]) for name, field in zip(records[0], fields)):
            raise No(45, record=number)
    read = {"int": int, "bool": lambda field: field == "true", "text": str}
    return [{name: read[base(columns[name])](field) for name, field in zip(records[0], fields)} for fields in records[1:]]
