"""What is asked of the hub over HTTP. The table ROUTES has each request: requests are routed by it, and the OpenAPI document is made
of it."""
import asyncio
import itertools
import json
import re
from typing import Any, Callable, Dict, Iterable, List, NamedTuple, Optional, Tuple
from urllib.parse import parse_qsl, quote, urlencode

from aiohttp import web

from ..kinds import base, fits, without_quotes
from ..language import defined
from . import long_json
from .catalog import Entry
from .desk import aside
from .events import events
from .journal import Wanted, changes
from .lines import lines
from .paging import Pages, filtered, key_columns, limit_of, values_of
from .problems import Problem
from .refusing import No
from .replies import CSV_TEXT, ROWS
from .requests import MOST_LINE, encoded, is_name, shaped
from .web import CSV, JSON, LINES, STREAM, Hub, Whole, body_of, give_long, refused, stream_of, written

# The end of a reply.
WHEN = re.compile(rb'"session":"([0-9a-f]*)","version":([0-9]+)}$')
ETAG = re.compile(r'(W/)?"(?:([0-9a-f]{12})\.([0-9]{1,19})(\.csv)?|[^"]*)"')
PAGING = ("limit", "after")
# A filter by a column that has the name of another parameter is written with this in front.
COLUMN = "column."
VARY = "Accept, Authorization"


# ---- What a request says ----


def content_type(request: web.BaseRequest, *kinds: str) -> str:
    """(The library reads this header by a parser of mail, which takes a third of the time of a whole request.)"""
    kind = request.headers.get("Content-Type", "").partition(";")[0].strip().lower()
    if kind not in kinds:
        raise Problem(415, f"the body is to be {' or '.join(kinds)}, and not {kind[:60] or 'of no kind'}")
    return kind


async def json_of(request: web.BaseRequest, hub: Hub, kind: type = dict, most: int = MOST_LINE) -> Any:
    """The body as a value of JSON. Raises Problem."""
    body = await body_of(request, hub, most)
    try:
        found = await aside(len(body), lambda: long_json.loads(body.decode()))
    except (ValueError, RecursionError) as error:
        raise Problem(400, f"the body is no JSON: {str(error)[:200] or 'it is nested too deep'}") from None
    if not isinstance(found, kind):
        raise Problem(400, f"the body is to be {'an object' if kind is dict else 'an array'} of JSON")
    return found


def members(told: dict, *names: str) -> dict:
    """An object that has no other members. Raises Problem."""
    for name in told:
        if name not in names:
            raise Problem(400, f"the body has the member {name[:60]!r}, and may have {' and '.join(names)}")
    return told


def name_of(request: web.BaseRequest) -> str:
    name = request["name"]
    if not is_name(name):
        raise No(22, name=name[:32])
    return name


def rests_on(request: web.BaseRequest, hub: Hub, is_needed: bool = False) -> Dict[str, Any]:
    """The members `on` and `session` out of If-Match. Of several ETags one has to hold; `*` rests on nothing. Raises Problem."""
    told = ",".join(request.headers.getall("If-Match", ()))
    if not told and is_needed:
        raise Problem(428, "a PUT replaces the whole view: send If-Match, with the ETag of the rows that it is based on, or * for none")
    if not told or told.strip() == "*":
        return {}
    # A weak ETag says too little for a change, and one of another run of the program is stale.
    session = hub.desk.engine.session
    found = [(tag[2] == session, int(tag[3]), tag[2]) for tag in etags(told) if tag[3] and not tag[1]]
    if not found:
        raise Problem(412, f"If-Match has no ETag of this hub: {told[:100]}")
    _, on, session = max(found)
    return {"session": session, "on": on}


def etags(told: str) -> List[re.Match]:
    """The ETags of a list; none for what is no list of them."""
    found, rest = [], told.strip(", \t")
    while rest:
        tag = ETAG.match(rest)
        if tag is None:
            return []
        found.append(tag)
        rest = rest[tag.end() :].lstrip(", \t")
    return found


def etag(session: str, at: int, kind: str) -> str:
    return f'"{session}.{at}{".csv" if kind == CSV else ""}"'


def wants(request: web.BaseRequest, *kinds: str) -> str:
    """The first of the kinds that the client accepts best."""
    accepts = request.headers.get("Accept", "*/*")
    best, found = 0.0, None
    for part in accepts.split(","):
        name, *words = (it.strip() for it in part.split(";"))
        told = next((word[2:] for word in words if word.startswith("q=")), "1")
        quality = float(told) if re.fullmatch(r"[01](\.[0-9]{0,3})?", told) else 0.0
        for kind in kinds:
            if quality > best and name in (kind, "*/*", kind.partition("/")[0] + "/*"):
                best, found = quality, kind
    if found is None:
        raise Problem(406, f"this is given as {' or '.join(kinds)}, and not as {accepts[:100]}")
    return found


class Query(NamedTuple):
    """What stands behind the question mark of a view: values by column, and the page."""

    filters: Dict[str, Any]
    limit: Optional[int]
    after: Optional[str]


def query_of(request: web.BaseRequest, entry: Entry) -> Query:
    """Raises Problem and No."""
    _, _, text = request.raw_path.partition("?")
    if not text:
        return Query({}, None, None)
    try:
        pairs = parse_qsl(text, keep_blank_values=True, strict_parsing=True, errors="strict", max_num_fields=200)
    except ValueError:
        raise Problem(400, f"the query is to be NAME=VALUE&.., and not {text[:100]}") from None
    found, page = {}, {}
    for name, value in pairs:
        if name in PAGING:
            place, known = page, name
        else:
            known = name[len(COLUMN) :] if name.startswith(COLUMN) else name
            place = found
            if known not in entry.columns:
                raise No(23, name=known[:32])
        if known in place:
            raise Problem(400, f"{name[:60]} stands twice in the query")
        place[known] = value if place is page else cell_value(value, entry.columns[known])
    if "after" in page and "limit" not in page:
        raise Problem(400, "'after' goes with 'limit'")
    return Query(found, limit_of(page["limit"]) if page else None, page.get("after"))


def cell_value(text: str, kind: str) -> Any:
    """A value of a column out of a query, as a cell is written. A text that says none is given as it is: the program refuses it."""
    told = without_quotes(text, kind)
    if told is None or base(kind) == "text":
        return told
    try:
        return json.loads(text)
    except ValueError:
        return text


# ---- Questions ----


async def views(hub: Hub, request: web.BaseRequest) -> Whole:
    scope = hub.scope(request)
    told = {"session": hub.desk.engine.session, "version": scope.version(), "user": scope.user.name, "may": sorted(scope.user.may),
            "views": [described(hub, scope, name) for name in hub.desk.catalog.entries if name in scope.rights]}
    return Whole(encoded(told).encode())


def described(hub: Hub, scope, name: str) -> dict:
    entry = hub.desk.catalog.entries[name]
    limit = hub.desk.limit(scope.user, entry)
    through = {} if limit is None else {"through": sorted(limit & scope.rights.keys())}
    return {"name": name, "kind": entry.kind if name in scope.open else "window",
            "columns": [{"name": it, "kind": told} for it, told in entry.columns.items()], "key": key_columns(entry),
            "dependencies": entry.dependencies, "predicate": entry.predicate, "rights": sorted(scope.rights[name]),
            "version": hub.desk.catalog.changed_at(name), **through}


async def rows(hub: Hub, request: web.BaseRequest):
    """The rows of a view, all or those of a query, or a page of them."""
    name, kind = name_of(request), wants(request, JSON, CSV) if "Accept" in request.headers else JSON
    entry = hub.scope(request).need(name, "read")
    query = query_of(request, entry)
    if kind == CSV and (query.filters or query.limit):
        raise Problem(400, "rows are filtered and given in pages as JSON alone")
    is_same, known = is_known(hub, request, name, kind)
    if is_same:
        return Whole(b"", 304, None, {"ETag": known, "Vary": VARY})
    asked, rest = question(entry, query.filters, kind)
    line, stamp = await hub.desk.shared(request["who"], asked)
    if not line.startswith((ROWS, CSV_TEXT)):
        return refused(json.loads(line), asked)
    headers = {"ETag": etag(stamp.session, stamp.at, kind), "Vary": VARY}
    if kind == CSV:
        return await give_long(request, json.loads(line)["csv"].encode(), kind, headers)
    body = memoryview(line)[len(ROWS) : line.rindex(b',"version":')]
    if rest:
        body = await aside(len(body), filtered, bytes(body), rest)
    if query.limit:
        body, headers["Link"] = await page_of(hub, request, entry, query, (line, tuple(sorted(rest))), bytes(body))
        if not headers["Link"]:
            del headers["Link"]
    return await give_long(request, body, kind, headers)


def is_known(hub: Hub, request: web.BaseRequest, name: str, kind: str) -> Tuple[bool, str]:
    """Whether the client has the rows of now, and their ETag."""
    told = request.headers.get("If-None-Match")
    if told is None or hub.desk.engine.program is None:
        return False, ""
    now = etag(hub.desk.engine.session, hub.desk.catalog.changed_at(name), kind)
    return told.strip() == now or any(tag[0].removeprefix("W/") == now for tag in etags(told)), now


def question(entry: Entry, filters: Dict[str, Any], kind: str) -> Tuple[dict, Dict[str, Any]]:
    """What is asked of the program, and the filters that are left. A find goes by a column that is a key of its own, if one is."""
    if not filters:
        return {"do": "export" if kind == CSV else "read", "view": entry.name}, {}
    keys = {edge["left"][0] for edge in entry.dependencies if len(edge["left"]) == 1}
    # (a value of the wrong kind is for the program to refuse)
    column = min(filters, key=lambda name: (fits(filters[name], entry.columns[name]), name not in keys))
    rest = {name: value for name, value in filters.items() if name != column}
    return {"do": "find", "view": entry.name, "column": column, "value": filters[column]}, rest


async def page_of(hub: Hub, request: web.BaseRequest, entry: Entry, query: Query, made_of: Tuple, body: bytes) -> Tuple[bytes, str]:
    """A page, and the header that leads to the next."""
    key = key_columns(entry)
    after = None if query.after is None else values_of(query.after, entry, key)
    ordered = await aside(len(body), hub.pages.ordered, (entry.name, *made_of), body, key)
    page = ordered.page(query.limit, after)
    if page.after is None:
        return page.rows, ""
    _, _, text = request.raw_path.partition("?")
    kept = [(name, value) for name, value in parse_qsl(text, keep_blank_values=True) if name != "after"]
    return page.rows, f'</views/{quote(entry.name)}?{urlencode([*kept, ("after", page.after)])}>; rel="next"'


async def definitions(hub: Hub, request: web.BaseRequest) -> Whole:
    reply = json.loads(await hub.desk.answer(request["who"], {"do": "list"}))
    return Whole(encoded(reply["definitions"]).encode())


async def journal(hub: Hub, request: web.BaseRequest) -> web.StreamResponse:
    hub.scope(request).power("admin")
    wanted = Wanted(**wanted_of(request))
    found = changes(hub.desk.journal.path, wanted)
    response = stream_of(LINES)
    await response.prepare(request)
    while True:
        piece = await asyncio.to_thread(next_entries, found)
        if not piece:
            return response
        await written(request, response, piece)


def wanted_of(request: web.BaseRequest) -> Dict[str, str]:
    """Which changes of the journal are asked for. Raises Problem."""
    _, _, text = request.raw_path.partition("?")
    told = dict(parse_qsl(text, keep_blank_values=True))
    for name in told:
        if name not in Wanted._fields:
            raise Problem(400, f"the journal is filtered by {', '.join(Wanted._fields)}, and not by {name[:60]}")
    return told


def next_entries(found, most: int = 200) -> bytes:
    """The lines of the next changes."""
    return b"".join(encoded(entry).encode() + b"\n" for pair in itertools.islice(found, most) for entry in pair if entry)


async def health(hub: Hub, request: web.BaseRequest) -> Whole:
    is_well = hub.desk.engine.program is not None and not hub.desk.engine.failed and not hub.desk.journal.fault
    return Whole(encoded({"ok": is_well}).encode(), 200 if is_well else 503)


# ---- Changes ----


async def edit(hub: Hub, request: web.BaseRequest) -> Whole:
    return await edited(hub, request, "edit")


async def preview(hub: Hub, request: web.BaseRequest) -> Whole:
    return await edited(hub, request, "preview")


async def edited(hub: Hub, request: web.BaseRequest, do: str) -> Whole:
    content_type(request, JSON)
    told = members(await json_of(request, hub), "remove", "add")
    return await changed(hub, request, {"do": do, "view": name_of(request), "remove": told.get("remove", []), "add": told.get("add", []), **rests_on(request, hub)})


async def batch(hub: Hub, request: web.BaseRequest) -> Whole:
    content_type(request, JSON)
    told = members(await json_of(request, hub), "edits")
    return await changed(hub, request, {"do": "batch", "edits": told.get("edits"), **rests_on(request, hub)})


async def replace(hub: Hub, request: web.BaseRequest) -> Whole:
    name, kind, rests = name_of(request), content_type(request, JSON, CSV), rests_on(request, hub, True)
    if kind == JSON:
        return await changed(hub, request, {"do": "put", "view": name, "rows": await json_of(request, hub, list), **rests})
    try:
        return await changed(hub, request, {"do": "import", "view": name, "csv": (await body_of(request, hub)).decode(), **rests})
    except UnicodeDecodeError as error:
        raise Problem(400, f"the CSV is not UTF-8, at byte {error.start}") from None


async def undo(hub: Hub, request: web.BaseRequest) -> Whole:
    is_empty = request.content_length == 0 or not request.can_read_body
    told = {} if is_empty else members(await json_of(request, hub), "change")
    return await changed(hub, request, {"do": "undo", **told})


async def define(hub: Hub, request: web.BaseRequest) -> Whole:
    content_type(request, "text/plain")
    try:
        text = (await body_of(request, hub, 1 << 16)).decode().strip()
    except UnicodeDecodeError as error:
        raise Problem(400, f"the definition is not UTF-8, at byte {error.start}") from None
    asked = shaped({"do": "define", "text": text})
    reply = json.loads(await hub.desk.answer(request["who"], asked))
    if not reply["ok"]:
        return refused(reply, asked)
    name = defined(text)[1]
    return Whole(encoded(described(hub, hub.scope(request), name)).encode(), 201, JSON, {"Location": f"/views/{name}"})


async def changed(hub: Hub, request: web.BaseRequest, asked: dict) -> Whole:
    """A change or a preview: what it changes, with the ETag of what comes after."""
    line = await hub.desk.answer(request["who"], shaped(asked))
    if not line.startswith(b'{"changed":'):
        return refused(json.loads(line), asked)
    if asked["do"] == "preview":
        return Whole(line)
    session, version = WHEN.search(line, max(0, len(line) - 80)).groups()
    return Whole(line, 200, JSON, {"ETag": f'"{session.decode()}.{version.decode()}"'})


# ---- The table of routes ----


class Route(NamedTuple):
    """One request: how it is asked, what answers it, and what the OpenAPI document says of it. `body` and `reply` are schemas."""

    method: str
    path: str
    answer: Callable
    says: str
    takes: Tuple[str, ...] = ()
    gives: Tuple[str, ...] = (JSON,)
    statuses: Tuple[int, ...] = (200,)
    body: Optional[dict] = None
    reply: Optional[dict] = None
    parameters: Tuple[dict, ...] = ()
    is_open: bool = False

    @property
    def methods(self) -> Iterable[str]:
        """(An answer that streams has no HEAD: its head says nothing.)"""
        return ("GET", "HEAD") if self.method == "GET" and not {LINES, STREAM} & set(self.gives) else (self.method,)


def schema(name: str) -> dict:
    return {"$ref": f"#/components/schemas/{name}"}


def header(name: str, says: str, is_required: bool = False) -> dict:
    return {"name": name, "in": "header", "required": is_required, "description": says, "schema": {"type": "string"}}


def asked_for(name: str, says: str, **kind: Any) -> dict:
    return {"name": name, "in": "query", "description": says, "schema": {"type": "string", **kind}}


IF_MATCH = "The ETags of rows or changes that this is based on: it is refused (412) if the tables were changed since. * is based on nothing."
RESTS, MUST_REST = (header("If-Match", IF_MATCH),), (header("If-Match", IF_MATCH, True),)
FILTERS = (
    {"name": "column", "in": "query", "style": "form", "explode": True, "description": "Rows with these values: COLUMN=VALUE&..",
     "schema": {"type": "object", "additionalProperties": {"type": "string"}}},
    asked_for("limit", "So many rows, in the order of the key.", pattern="^[0-9]+$"),
    asked_for("after", "The page after a row, out of the header Link of the page before."),
    header("If-None-Match", "ETags of rows that the client has."),
)
JOURNAL = (asked_for("person", "Changes of this user."), asked_for("view", "Changes that name this table or view, or changed it."),
           asked_for("since", "Changes from this time on, as 2026-12-01T09:30."), asked_for("until", "Changes up to this time."))
EDIT_BODY = {"type": "object", "additionalProperties": False, "properties": {"remove": schema("Rows"), "add": schema("Rows")}}
ONE_EDIT = {"type": "object", "required": ["view", "remove", "add"], "additionalProperties": False,
            "properties": {"view": {"type": "string"}, "remove": schema("Rows"), "add": schema("Rows")}}
BATCH_BODY = {"type": "object", "required": ["edits"], "additionalProperties": False, "properties": {"edits": {"type": "array", "items": ONE_EDIT}}}
UNDO_BODY = {"type": "object", "additionalProperties": False, "properties": {"change": {"type": "string"}}}
CHANGE = (200, 404, 408, 409, 412, 413, 415, 422, 507)
ROUTES = (
    Route("GET", "/views", views, "The tables and views that you may see: columns, key, dependencies, predicate, and your rights.", reply=schema("Views")),
    Route("GET", "/views/{name}", rows, "The rows of a table or a view, or those with values in columns, or a page of them.", gives=(JSON, CSV),
          statuses=(200, 304, 404, 406, 422), parameters=FILTERS, reply=schema("Rows")),
    Route("PUT", "/views/{name}", replace, "Makes these rows, or the records of this CSV, its rows.", takes=(JSON, CSV), statuses=(*CHANGE, 428),
          parameters=MUST_REST, body=schema("Rows"), reply=schema("Change")),
    Route("POST", "/views/{name}/edit", edit, "Removes these rows, and adds those.", takes=(JSON,), statuses=CHANGE, parameters=RESTS,
          body=EDIT_BODY, reply=schema("Change")),
    Route("POST", "/views/{name}/preview", preview, "Tells what the same edit would change, and changes nothing.", takes=(JSON,), statuses=CHANGE,
          parameters=RESTS, body=EDIT_BODY, reply=schema("Change")),
    Route("POST", "/batch", batch, "Makes edits of tables and views in turn, as one change: all of them, or none.", takes=(JSON,), statuses=CHANGE,
          parameters=RESTS, body=BATCH_BODY, reply=schema("Change")),
    Route("POST", "/undo", undo, "Takes your last change back, or the one that is named, if no one changed the same rows since.", takes=(JSON,),
          statuses=(200, 404, 408, 409, 413, 507), body=UNDO_BODY, reply=schema("Change")),
    Route("GET", "/definitions", definitions, "The definitions, as you may see them: what is made of names that you may not read is told as a table.",
          reply={"type": "array", "items": {"type": "string"}}),
    Route("POST", "/definitions", define, "Makes a table or a view.", takes=("text/plain",), statuses=(201, 404, 408, 409, 413, 415, 422, 507),
          body={"type": "string"}, reply=schema("View")),
    Route("GET", "/events", events, "A stream that tells which views changed at which version.", gives=(STREAM,),
          parameters=(header("Last-Event-ID", "The last event that the client heard."),)),
    Route("POST", "/lines", lines, "Requests of the program's own form, a line each; a line of reply for each, in order.", takes=(LINES,), gives=(LINES,),
          statuses=(200, 415), body={"type": "string"}),
    Route("GET", "/journal", journal, "Who changed what, when, and by which request.", gives=(LINES,), parameters=JOURNAL),
    Route("GET", "/health", health, "Whether changes can be made.", statuses=(200, 503), reply=schema("Health"), is_open=True),
)


def add_routes(hub: Hub, routes: Iterable[Route] = ROUTES) -> None:
    """Adds requests to a hub."""
    hub.pages = Pages()
    for route in routes:
        hub.add(route.methods, route.path, route.answer, route.is_open)
