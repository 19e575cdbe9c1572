"""The server: tables and views as objects, over the program."""
import collections
import json
import os
import uuid
import weakref
from typing import Callable, Dict, Iterable, Iterator, List, Mapping, Optional, Tuple, Union

from .completion import Completer, Completion
from .effects import names_of, refuse_others
from .language import Named, UnknownForm, columns_compared, columns_of, condition_of, defined, expanded, path_to, shown_columns
from .process import MOST_INPUT, Ended, NotStarted, Program, default_program, encoded, line_of
from .reasons import Reasons
from .refusals import BadRecord, Refused, Stale, refusal, stale
from .remote import Remote, is_address
from .rows import Change, CsvText, Fault, Rows, by_key, in_order, key_of, listed, shape_fault, values
from .store_files import make_private, refuse_other_files, why_closed
from .texts import differing, listing, sides, words_of

# How many requests of a series may be under way, and the length of a reply from which on they become fewer.
MOST_UNDER_WAY, LONG_REPLY = 256, 1 << 16

# A value of a column, and a row by its columns.
Value = Union[int, str, bool, None]
Row = Mapping[str, Value]


class View:
    """A table or a view by its name."""

    def __init__(self, server, name):
        self.server, self.name = server, name

    def ask(self, do: str, **members) -> dict:
        return self.server.ask({"do": do, "view": self.name, **members})

    def type(self) -> dict:
        """The reply to `type`: columns, dependencies, predicate and tables."""
        return self.ask("type")

    def columns(self) -> Dict[str, str]:
        """The kind of each column by its name, in the order of the definition. (Columns never change, so they are asked once.)"""
        if self.name not in self.server.kinds:
            self.server.kinds[self.name] = self.server.in_order(self.name, self.type()["columns"])
        return dict(self.server.kinds[self.name])

    def dependencies(self) -> List[dict]:
        """The dependencies, each with the columns of its `left` and its `right` side in the order of the definition."""
        return [{side: [name for name in self.columns() if name in edge[side]] for side in ("left", "right")} for edge in self.type()["dependencies"]]

    def key(self) -> List[str]:
        """The columns that determine all others, in the order of the definition. (They never change, so they are asked once.)"""
        if self.name not in self.server.keys:
            self.server.keys[self.name] = key_of(list(self.columns()), self.type()["dependencies"])
        return self.server.keys[self.name]

    def read(self) -> Rows:
        """The rows, in the order of the key."""
        return self.rows_of(self.ask("read"))

    def find(self, column: str, value: Value) -> Rows:
        """The rows that have a value in a column. No table is gone over for them where the column alone is the left side of a
        dependency. Raises UnknownColumn where there is no such column, and KindClash where the value is none of its kind."""
        return self.rows_of(self.ask("find", column=column, value=value))

    def rows_of(self, reply):
        columns = self.columns()
        rows = by_key([in_order(row, columns) for row in reply["rows"]], self.key(), columns)
        return Rows(rows, columns, reply["version"], reply.get("session", self.server.session))

    def current(self) -> Rows:
        """The rows as `read` gives them, but read anew only where a table under them was changed since."""
        kept = self.server.kept.get(self.name)
        try:
            if kept is not None:
                self.preview(on=kept)
                return kept
        except Stale:
            pass
        self.server.kept[self.name] = self.read()
        return self.server.kept[self.name]

    def put(self, rows: Iterable[Row], on=None) -> Change:
        """Makes these the rows. `on` takes the rows, or the change, that this rests on; raises Stale where a table was changed
        since. Raises OffPredicate, Clash and BadRow where a row is refused."""
        return Change(self.server, self.ask("put", rows=listed(rows), **self.server.rests(on)))

    def edit(self, remove: Iterable[Row] = (), add: Iterable[Row] = (), on=None, only: Optional[Iterable[str]] = None, tries: int = 10) -> Change:
        """Removes and adds rows. `on` and the exceptions are those of `put`.

        `only` takes names of tables: then a preview comes first, OtherTable is raised where it changes another table, and the edit
        is made on the version of the preview. Where another change came between, and no `on` was given, both are done again."""
        remove, add = listed(remove), listed(add)
        if only is None:
            return Change(self.server, self.ask("edit", remove=remove, add=add, **self.server.rests(on)))
        only = names_of(only)
        while True:
            preview, tries = self.preview(remove, add, on, only), tries - 1
            try:
                return self.edit(remove, add, on=preview)
            except Stale:
                if on is not None or tries <= 0:
                    raise

    def preview(self, remove: Iterable[Row] = (), add: Iterable[Row] = (), on=None, only: Optional[Iterable[str]] = None) -> Change:
        """What the same edit would change. Nothing is changed."""
        remove, add = listed(remove), listed(add)
        change = Change(self.server, self.ask("preview", remove=remove, add=add, **self.server.rests(on)))
        if only is not None:
            refuse_others(self, remove, change, only)
        return change

    def complete(self, row: Row, typed: Row, among: Iterable[Row] = ()) -> Completion:
        """A row with what its keys determine, as a Completion. `row` has the columns as they were, and none for a new row; `typed`
        has the values that were typed. Those stay. The columns that they determine are taken from the row that has the key, first
        of the rows `among`, which are not sent yet, and then of the table under this view; so on to the end of a chain of keys.
        Where no row has a key, typed values stay, those that came with the old key go, and what is missing is told. Raises
        UnknownColumn, and KindClash where a key is no value of its column."""
        return Completer(self, among).complete(row, typed)

    def export_csv(self) -> CsvText:
        """The rows as CSV: a text whose first record has the names of the columns. Raises NullableColumn where a column may be
        null."""
        reply = self.ask("export")
        return CsvText(reply["csv"], reply["version"], reply.get("session", self.server.session))

    def import_csv(self, text: str, on=None) -> Change:
        """Makes the rows of a text of CSV the rows, as `put` does; its columns stand in any order. `on` takes what `export_csv`
        gave too. Raises BadRecord for the first record that is no row, and NullableColumn and the exceptions of `put`."""
        try:
            return Change(self.server, self.ask("import", csv=text, **self.server.rests(on)))
        except BadRecord as error:
            error.args = (error.text(self.columns()),)
            raise

    def change(self, edit: Callable[[Rows], Tuple[Iterable[Row], Iterable[Row]]], tries: int = 10) -> Change:
        """Reads the rows, has `edit` give those to remove and those to add, and sends them on the version that was read. Where
        another change came between, it does so again, and raises Stale after so many tries."""
        while True:
            rows, tries = self.read(), tries - 1
            remove, add = edit(rows)
            try:
                return self.edit(remove, add, on=rows)
            except Stale:
                if tries <= 0:
                    raise

    def faults(self, remove: Iterable[Row] = (), add: Iterable[Row] = ()) -> List[Fault]:
        """All reasons for which this edit would be refused, as a list of Fault, in the order of their first place. The list is
        empty exactly where the edit would be accepted."""
        remove, add = listed(remove), listed(add)
        said, columns = self.type(), self.columns()
        bad = {place: shape_fault(row, columns) for place, row in enumerate(add)}
        found = [Fault(40, [place], text, column, columns=[column] if column else []) for place, (column, text) in bad.items() if text]
        whole = [place for place in bad if not bad[place][1]]
        found += self.off_predicate(add, whole, said)
        for edge in self.dependencies():
            found += self.clashes(remove, add, whole, edge)
        return sorted(found, key=lambda fault: fault.places[0])

    def off_predicate(self, add, places, said):
        """The faults of the rows that the predicate refuses, by a preview of each row alone."""
        if not said["predicate"]:
            return []
        conditions = [(text, condition_of(text)) for text in said["predicate"]]
        previews = ({"do": "preview", "view": self.name, "remove": [], "add": [add[place]]} for place in places)
        found = []
        for place, (request, reply) in zip(places, self.server.exchange(previews)):
            if reply.get("error") == 42:
                failed = [(text, condition) for text, condition in conditions if condition and not condition.holds(add[place])]
                found.append(self.off(add[place], place, failed or conditions))
            elif reply.get("error") not in (None, 43):
                raise refusal(reply, request)
        return found

    def off(self, row, place, failed):
        """The fault of a row for which these conditions do not hold."""
        compared = set().union(*(columns_compared(condition) for _, condition in failed if condition))
        columns, condition = [name for name in self.columns() if name in compared], listing(text for text, _ in failed)
        text = f"{self.name} shows only rows where {condition}, and this one has {words_of(in_order(row, columns))}"
        return Fault(42, [place], text, columns=columns, condition=condition)

    def clashes(self, remove, add, places, edge):
        """The faults of one dependency: rows that agree on its left side, and do not all agree on its right side."""
        left = edge["left"]
        groups = collections.defaultdict(list)
        for place in places:
            groups[values(add[place], left)].append(place)
        columns = self.columns()
        gone = {values(row, columns) for row in remove if set(row) == set(columns)}
        stays = collections.defaultdict(list)
        for row in self.current():
            if values(row, left) in groups and values(row, columns) not in gone:
                stays[values(row, left)].append(row)
        found = []
        for key, group in groups.items():
            apart = differing(edge, [*(add[place] for place in group), *stays[key]])
            if apart["right"]:
                found.append(Fault(43, group, f"{sides(apart)}, and these rows differ in it", None, edge, stays[key], apart["right"]))
        return found

    def why(self, remove: Iterable[Row] = (), add: Iterable[Row] = (), change: Optional[Change] = None,
            most: Optional[int] = None) -> List[Tuple[str, str, dict, List[str]]]:
        """Why an edit changes what it changes: for each row of its preview (which is asked for where no `change` is given) the
        table, 'remove' or 'add', the row, and the reasons as sentences. Rows come in the order of the change; `most` limits them
        to so many of each table and side."""
        remove, add = listed(remove), listed(add)
        change = self.preview(remove, add) if change is None else change
        found = []
        for name, (removed, added) in change.tables.items():
            reasons, columns = Reasons(self, name, (removed, added), remove, add), self.server[name].columns()
            found += [(name, "remove", in_order(row, columns), reasons.of_removed(row)) for row in removed[:most]]
            found += [(name, "add", in_order(row, columns), reasons.of_added(row)) for row in added[:most]]
        return found


class Server:
    """The program, started over a store or in memory; or a hub that has it, by its address (`https://..`) and a token, or that of
    CIGRELK_TOKEN in the environment. Use it in a `with`, or call `close`. Any thread may use it.

    A store that is not there is made, for its owner alone. Raises NotStarted if there is no program, NotStore if the
    file is another one than a store (the program never sees it then), and Ended if the store cannot be opened (status 6) or is
    damaged (7). Of a hub it raises NoToken, and Unreachable if it gives no reply."""

    def __init__(self, store=None, program=None, token=None):
        if isinstance(store, str) and is_address(store):
            return self.connect(Remote(store, token or os.environ.get("CIGRELK_TOKEN", "")))
        words = [program] if isinstance(program, str) else list(program or [default_program()])
        words += ["--max-input", str(MOST_INPUT)]
        # By `=`, since a store may have the name of an option.
        words += [] if store is None else [f"--store={os.fspath(store)}"]
        self.session, self.kinds, self.keys, self.kept, self.is_shared = uuid.uuid4().hex, {}, {}, {}, False
        made = False
        if store is not None:
            refuse_other_files(store)
            made = make_private(store)
        try:
            self.start(words, store)
        except Ended:
            if made and os.path.exists(store) and not os.path.getsize(store):
                os.remove(store)
            raise

    @classmethod
    def over(cls, program):
        """The server behind what answers lines as a hub does."""
        server = cls.__new__(cls)
        server.connect(program)
        return server

    def connect(self, program):
        # The session is the hub's. It comes with each reply, since the hub may start its program again.
        self.session, self.kinds, self.keys, self.kept, self.is_shared, self.program = None, {}, {}, {}, True, program
        self.closes = weakref.finalize(self, program.close)
        self.list()

    def start(self, words, store):
        try:
            self.program = Program(words)
        except OSError as error:
            raise NotStarted(f"the program {words[0]} cannot be started ({error.strerror}); CIGRELK in the environment names another") from None
        # A server that is dropped without `close` ends its program too.
        self.closes = weakref.finalize(self, self.program.close)
        try:
            # A store that cannot be opened is told here, and not at the first request.
            self.list()
        except Ended as error:
            self.close()
            if error.status == 6 and store is not None:
                raise Ended(6, None, why_closed(store)) from None
            raise
        except (ValueError, TypeError, KeyError, Refused):
            self.program.process.kill()
            self.closes()
            raise NotStarted(f"the program {words[0]} answers as another program does; CIGRELK in the environment names another") from None

    def __enter__(self):
        return self

    def __exit__(self, *_):
        self.close()

    @property
    def process(self):
        return self.program.process

    def close(self) -> None:
        """Ends the program. Raises Ended where it did not end well and nobody was told."""
        self.closes()
        if self.program.end and self.program.end[0] and not self.program.told:
            raise self.program.ended()

    def ask(self, request: dict) -> dict:
        """The reply to a request, as a dict; a refusal is raised."""
        reply = json.loads(self.program.ask(line_of(request)))
        if not reply["ok"]:
            raise refusal(reply, request)
        self.session = reply.get("session", self.session)
        return reply

    def ask_all(self, requests: Iterable[dict]) -> Iterator[dict]:
        """The replies to requests, in order, with many of them under way at once. The first refusal is raised; requests behind it
        that were sent by then are done all the same."""
        for request, reply in self.exchange(requests):
            if not reply["ok"]:
                raise refusal(reply, request)
            yield reply

    def exchange(self, requests: Iterable[dict]) -> Iterator[Tuple[dict, dict]]:
        """Pairs of a request and its reply, refused or not. Where replies are long, fewer requests are under way. What is wrong
        with a request is raised once the pairs before it were given."""
        requests, under_way, most, fault = iter(requests), collections.deque(), 2, None
        while True:
            if not fault and len(under_way) <= most // 2:
                batch, fault = some_of(requests, most - len(under_way))
                under_way.extend(zip((request for request, _ in batch), self.program.send([line for _, line in batch])))
            if not under_way:
                break
            request, reply = under_way.popleft()
            line = self.program.wait(reply)
            most = min(MOST_UNDER_WAY, 2 * most) if len(line) < LONG_REPLY else max(2, most // 2)
            yield request, json.loads(line)
        if not isinstance(fault, StopIteration):
            raise fault

    def pass_on(self, line: bytes) -> bytes:
        """The reply to a line of bytes, as bytes. Raises ValueError where there is a newline in it."""
        if b"\n" in line:
            raise ValueError("a request is one line")
        return self.program.ask(line)

    def rests(self, on):
        """The member `on` for rows that were read or exported, for a change, for a version, or for nothing. Raises Stale for rows
        of an earlier start of the program: versions count from each start, so the program may take theirs for one of now."""
        session = self.session
        if isinstance(on, (Rows, CsvText, Change)):
            if on.session != self.session and not self.is_shared:
                raise stale()
            session, on = on.session, on.version
        # (a hub may have started its program again since, so it is told which run this rests on)
        return {} if on is None else {"on": on, "session": session} if self.is_shared else {"on": on}

    def batch(self, edits: Iterable[Tuple[Union[View, str], Iterable[Row], Iterable[Row]]], on=None) -> Change:
        """Does edits in order as one change, each on the rows that those before it gave: all of them, or none. Each is a table or a
        view, or its name, with rows to remove and rows to add. The refusal of the first that is refused is raised, with its place
        as `edit`. `on` is that of `View.put`, for all their tables."""
        edits = [{"view": getattr(view, "name", view), "remove": listed(remove), "add": listed(add)} for view, remove, add in edits]
        return Change(self, self.ask({"do": "batch", "edits": edits, **self.rests(on)}))

    def undo(self) -> Change:
        """Takes the last put, edit, batch or import of this start of the program back, whoever sent it, and gives that change. The
        last 16 can be taken back, one after another; raises NothingToUndo where none is left."""
        return Change(self, self.ask({"do": "undo"}))

    def define(self, text: str) -> View:
        """Adds a table or a view, and gives it."""
        self.ask({"do": "define", "text": text})
        return self[defined(text)[1]]

    def __getitem__(self, name: str) -> View:
        return View(self, name)

    def list(self) -> "list[str]":
        """The texts of the definitions, in order."""
        return self.ask({"do": "list"})["definitions"]

    def names(self) -> Dict[str, str]:
        """The kind of each name, 'table' or 'view', in the order of the definitions."""
        return {name: kind for kind, name in map(defined, self.list())}

    def version(self) -> int:
        return self.ask({"do": "list"})["version"]

    def tree(self, name):
        """What a table or a view is made of, down to its tables. Raises UnknownForm where this client is older than the words of
        the definition."""
        return expanded(Named(name), {defined(text)[1]: text for text in self.list()})

    def in_order(self, name, kinds):
        """Columns and kinds as a reply to `type` has them, in the order of the definition."""
        try:
            return {column: kinds[column] for column in columns_of(self.tree(name))}
        except UnknownForm:
            return kinds

    def shown_by(self, name: str, row: Row) -> "List[Tuple[str, List[dict]]]":
        """For a row of a table: each view over the table, with those of its rows that show this one; none where it hides it."""
        found = []
        for view, kind in self.names().items():
            path = path_to(self.tree(view), name) if kind == "view" else None
            if path:
                columns = shown_columns(path)
                found.append((view, [shown for shown in self[view].current() if values(shown, columns.values()) == values(row, columns)]))
        return found

    def propose(self, edits: Iterable[Tuple[str, Iterable[Row], Iterable[Row]]]) -> str:
        """A text that proposes edits, each a view's name, rows to remove and rows to add. A line has the edit as a request, and
        the next one what its preview changes. Raises Refused where a preview is refused."""
        lines = []
        for view, remove, add in edits:
            remove, add = listed(remove), listed(add)
            change = self[view].preview(remove, add)
            changed = [{"add": added, "remove": removed, "table": name} for name, (removed, added) in change.tables.items()]
            lines += [encoded({"do": "edit", "view": view, "remove": remove, "add": add}), encoded({"changed": changed})]
        return "".join(f"{line}\n" for line in lines)


def some_of(requests, most):
    """At most so many requests with their lines, and the exception that ended the requests or that one of them raised."""
    batch = []
    try:
        while len(batch) < most:
            request = next(requests)
            batch.append((request, line_of(request)))
    except Exception as fault:
        return batch, fault
    return batch, None
