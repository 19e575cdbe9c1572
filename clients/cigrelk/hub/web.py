"""The hub over HTTP: connections, which requests are looked at, and what becomes of what goes wrong. aiohttp parses HTTP."""
import asyncio
import email.utils
import http
import logging
import time
from typing import Any, Awaitable, Callable, Dict, Iterable, Optional, Tuple
from urllib.parse import unquote

from aiohttp import web, web_protocol

from .desk import Desk
from .problems import Problem, problem_of
from .refusing import CLOSING, NO_TOKEN, No
from .requests import MOST_LINE, encoded

# How many connections may be open, and how long (in seconds) one may be silent, take to send a request, and leave a reply unread.
MOST_CONNECTIONS, MOST_IDLE, MOST_SENDING, MOST_STALLED = 1200, 75, 60, 30
# How long a connection may be open that has shown no token, and how many requests one may send ahead.
MOST_UNKNOWN, MOST_AHEAD = 10, 64
# How many bytes of bodies may be held for all, and for one user.
MOST_BODIES, MOST_BODIES_OF_ONE = 512 << 20, 64 << 20
# A longer answer goes out in pieces of this length.
PIECE = 1 << 16
LOG = logging.getLogger("cigrelk.hub")
# (the library logs an assertion of its own for each client that goes away at a bad moment; faults of the hub are logged here)
logging.getLogger("aiohttp.server").setLevel(logging.CRITICAL)

JSON, CSV, LINES, PROBLEM, STREAM = "application/json", "text/csv", "application/x-ndjson", "application/problem+json", "text/event-stream"
HEADERS = {"Server": "cigrelk", "Cache-Control": "no-cache", "X-Content-Type-Options": "nosniff", "Referrer-Policy": "no-referrer",
           "Cross-Origin-Resource-Policy": "same-origin", "Content-Security-Policy": "default-src 'none'; frame-ancestors 'none'"}
# After these the connection is closed: it is not sure where its next request would begin.
CLOSES = frozenset((400, 408, 413, 421, 500))


# ---- Answers ----


class Whole:
    """An answer whose body is known. It is written by one call, which costs a fourth of what the library's own class does."""

    __slots__ = ("status", "body", "kind", "headers", "keep_alive", "writer")
    prepared = False

    def __init__(self, body: bytes, status: int = 200, kind: Optional[str] = JSON, headers: Optional[Dict[str, str]] = None):
        self.status, self.body, self.kind, self.headers, self.keep_alive, self.writer = status, body, kind, headers, True, None

    def force_close(self) -> None:
        self.keep_alive = False

    async def prepare(self, request: web.BaseRequest) -> None:
        transport = request.transport
        if transport is None:
            raise ConnectionResetError("the client is gone")
        self.keep_alive = self.keep_alive and request.keep_alive
        own = "".join(f"{name}: {value}\r\n" for name, value in self.headers.items()) if self.headers else ""
        if not self.keep_alive:
            own += "Connection: close\r\n"
        elif request.version < (1, 1):
            own += "Connection: keep-alive\r\n"
        has_body = self.status not in (204, 304)
        length = b"Content-Length: %d\r\n" % len(self.body) if has_body else b""
        body = self.body if has_body and request.method != "HEAD" else b""
        transport.write(b"%b%b%b\r\n%b" % (Heads.of(self.status, self.kind, self.headers), own.encode(), length, body))
        self.writer = request.writer

    async def write_eof(self, _: bytes = b"") -> None:
        # A client that does not read gets no further answer.
        await self.writer.drain()


class Heads:
    """The first lines of answers, which are made once a second."""

    second, kept = 0, {}

    @classmethod
    def of(cls, status: int, kind: Optional[str], own: Optional[Dict[str, str]]) -> bytes:
        """The first lines of an answer of a status and a kind, without those headers that it has by itself."""
        second = int(time.time())
        if second != cls.second:
            cls.second, cls.kept = second, {}
        if own and not own.keys().isdisjoint(HEADERS):
            return cls.made(status, kind, own)
        found = cls.kept.get((status, kind))
        if found is None:
            found = cls.kept[status, kind] = cls.made(status, kind, {})
        return found

    @classmethod
    def made(cls, status: int, kind: Optional[str], own: Dict[str, str]) -> bytes:
        headers = {name: value for name, value in HEADERS.items() if name not in own}
        headers.update({"Date": email.utils.formatdate(cls.second, usegmt=True)}, **({"Content-Type": kind} if kind else {}))
        lines = "".join(f"{name}: {value}\r\n" for name, value in headers.items())
        return f"HTTP/1.1 {status} {http.HTTPStatus(status).phrase}\r\n{lines}".encode()


def stream_of(kind: str, headers: Optional[Dict[str, str]] = None) -> web.StreamResponse:
    return web.StreamResponse(headers={**HEADERS, "Content-Type": kind, **(headers or {})})


async def give_long(request: web.BaseRequest, body, kind: str, headers: Dict[str, str]):
    """A body that others may share, piece by piece, so that a client who does not read holds a piece and no copy of all."""
    if len(body) <= PIECE or request.method == "HEAD":
        return Whole(body if request.method == "HEAD" else bytes(body), 200, kind, headers)
    response = stream_of(kind, {**headers, "Content-Length": str(len(body))})
    await response.prepare(request)
    view = memoryview(body)
    for at in range(0, len(body), PIECE):
        await written(request, response, view[at : at + PIECE])
    return response


async def written(request: web.BaseRequest, response: web.StreamResponse, data) -> None:
    """Writes a piece of an answer. Raises ConnectionResetError, and ends the connection, if the client does not read."""
    try:
        async with asyncio.timeout(MOST_STALLED):
            await response.write(data)
    except TimeoutError:
        request.transport and request.transport.abort()
        raise ConnectionResetError("the client does not read") from None


def problem(status: int, told: Dict[str, Any], headers: Optional[Dict[str, str]] = None) -> Whole:
    more = {"Retry-After": "1"} if status in (429, 503) else {"WWW-Authenticate": "Bearer"} if status == 401 else {}
    return Whole(encoded(told).encode(), status, PROBLEM, {**more, **(headers or {})})


def refused(reply: dict, asked: Optional[dict]) -> Whole:
    return problem(*problem_of(reply, asked))


# ---- Bodies ----


class Room:
    """The room for bodies of one user, within that of all."""

    def __init__(self, hub: "Hub"):
        self.hub, self.size = hub, 0

    def take(self, size: int) -> None:
        self.size += size
        self.hub.bodies += size
        if size > 0 and (self.size > MOST_BODIES_OF_ONE or self.hub.bodies > MOST_BODIES):
            raise Problem(429, "too many long requests are under way", Retry_After="1")


async def body_of(request: web.BaseRequest, hub: "Hub", most: int = MOST_LINE) -> bytes:
    """The body, within the limits of bytes and time."""
    told = request.content_length
    if told is not None and told > most:
        raise Problem(413, f"the body has {told:,} bytes, and at most {most:,} are taken here")
    if told is not None and request.content.is_eof():
        return request.content.read_nowait()
    room, pieces, size = hub.room(request["who"].name), [], 0
    try:
        async with asyncio.timeout(MOST_SENDING):
            async for piece in request.content.iter_any():
                size += len(piece)
                room.take(len(piece))
                if size > most:
                    raise Problem(413, f"the body has more than {most:,} bytes")
                pieces.append(piece)
    except TimeoutError:
        raise Problem(408, f"the body did not come in {MOST_SENDING} seconds") from None
    finally:
        request["taken"] = size
    return b"".join(pieces)


# ---- The hub ----


class Router:
    """Finds what answers a request. A path is a fixed one, or /FIRST/{name}, or /FIRST/{name}/LAST."""

    def __init__(self):
        self.fixed: Dict[str, Dict[str, Tuple]] = {}
        self.named: Dict[Tuple[str, str], Dict[str, Tuple]] = {}

    def add(self, methods: Iterable[str], path: str, answer: Callable, is_open: bool) -> None:
        place = self.named.setdefault(ends_of(path)[::2], {}) if "{" in path else self.fixed.setdefault(path, {})
        place.update((method, (answer, is_open)) for method in methods)

    def find(self, request: web.BaseRequest) -> Tuple[Callable, bool]:
        """What answers a request, and whether it needs no token. Raises Problem: 404, 405."""
        path = path_of(request)
        place = self.fixed.get(path)
        if place is None:
            first, name, last = ends_of(path)
            place = self.named.get((first, last)) if name else None
            request["name"] = unquote(name)
        if place is None:
            raise Problem(404, f"there is no place {path[:200]} here: /openapi.json has all")
        if request.method not in place:
            methods = ", ".join(sorted(place))
            raise Problem(405, f"{path[:200]} takes {methods}, and not {request.method[:20]}", Allow=methods)
        return place[request.method]


def path_of(request: web.BaseRequest) -> str:
    """The path of a request as it was sent."""
    path = request.raw_path.partition("?")[0]
    # (a request to a proxy has a whole address)
    return path if path.startswith("/") else request.rel_url.raw_path


def ends_of(path: str) -> Tuple[str, str, str]:
    """The first part of a path, its second, and what stands behind it."""
    first, _, rest = path[1:].partition("/")
    name, _, last = rest.partition("/")
    return first, name, last


class Hub:
    """The desk over HTTP."""

    def __init__(self, desk: Desk, hosts: Iterable[str]):
        self.desk, self.hosts, self.is_closing, self.bodies, self.rooms = desk, frozenset(hosts), False, 0, {}
        self.router = Router()

    def scope(self, request: web.BaseRequest):
        return self.desk.scope(request["who"])

    def room(self, name: str) -> Room:
        found = self.rooms.get(name)
        if found is None:
            found = self.rooms[name] = Room(self)
        return found

    def add(self, methods: Iterable[str], path: str, answer: Callable[["Hub", web.BaseRequest], Awaitable], is_open: bool = False) -> None:
        """Adds a request: how it is asked, what answers it, and whether it needs no token."""
        self.router.add(methods, path, answer, is_open)

    async def answer(self, request: web.BaseRequest):
        """The answer to each request, whatever goes wrong."""
        try:
            self.check(request)
            answer, is_open = self.router.find(request)
            if not is_open:
                self.know(request)
            response = await answer(self, request)
        except Problem as error:
            response = problem(error.status, error.told(), error.headers)
        except No as no:
            response = refused(no.reply, None)
        except (ConnectionError, asyncio.CancelledError):
            raise
        except web.RequestPayloadError:
            response = problem(400, Problem(400, "the body is not whole").told())
        except Exception:
            LOG.exception("%s %s", request.method, request.raw_path)
            response = problem(500, Problem(500, "a fault of the hub, which is noted").told())
        finally:
            request.protocol.free_since = time.monotonic()
            if "taken" in request:
                self.room(request["who"].name).take(-request["taken"])
        if not response.prepared and (response.status in CLOSES or not request.content.is_eof()):
            response.force_close()
        return response

    def check(self, request: web.BaseRequest) -> None:
        """A request has one host, which is this hub's, and comes from no page of another origin. Its end has one reading."""
        headers = request.headers
        hosts = headers.getall("Host", ())
        if len(hosts) != 1 or hosts[0].lower() not in self.hosts:
            raise Problem(421, f"this hub has another name than {', '.join(hosts)[:200] or 'none'}: --host names it")
        if "Origin" in headers and headers["Origin"].partition("://")[2].lower() != hosts[0].lower():
            raise Problem(403, "a page of another origin may not ask here")
        if headers.get("Sec-Fetch-Site", "none") not in ("none", "same-origin"):
            raise Problem(403, "a page of another origin may not ask here")
        if "Transfer-Encoding" in headers:
            if headers.getall("Transfer-Encoding") != ["chunked"] or "Content-Length" in headers:
                raise Problem(400, "the length of the body has two readings")
        elif len(headers.getall("Content-Length", ())) > 1:
            raise Problem(400, "the length of the body has two readings")
        if "Content-Encoding" in headers:
            raise Problem(400, f"a body is sent as it is, and not packed as {headers['Content-Encoding'][:40]}")

    def know(self, request: web.BaseRequest) -> None:
        """Finds who asks. Raises No."""
        scheme, _, token = request.headers.get("Authorization", "").partition(" ")
        user, key = self.desk.users.with_token(token.strip()) if scheme.lower() == "bearer" else (None, None)
        if user is None:
            raise No(NO_TOKEN)
        if self.is_closing:
            raise No(CLOSING)
        request["who"], request["key"], request.protocol.is_known = user, key, True


# ---- Connections ----


class Connection(web_protocol.RequestHandler):
    """A connection that notes since when it has no whole request, and is closed if there are too many.

    (What it reads of its library, `_messages`, `_current_request` and `_manager`, is not told on the library's pages. Without them
    these limits would not hold, and nothing else would fail.)"""

    free_since, is_known = 0.0, False

    def connection_made(self, transport) -> None:
        super().connection_made(transport)
        self.free_since = time.monotonic()
        if len(self._manager.connections) > MOST_CONNECTIONS:
            transport.abort()

    def data_received(self, data: bytes) -> None:
        """(The library keeps all requests that come before the first is answered, however many.)"""
        super().data_received(data)
        if len(self._messages) > MOST_AHEAD and self.transport:
            self.transport.abort()


async def close_silent(server: web.Server) -> None:
    """Closes connections that are silent, or that are slow to say what they ask, be it a byte now and then."""
    while True:
        await asyncio.sleep(MOST_UNKNOWN / 4)
        for connection in list(server.connections):
            free = time.monotonic() - connection.free_since
            if free > (MOST_IDLE if connection.is_known else MOST_UNKNOWN) and connection._current_request is None and connection.transport:
                connection.transport.abort()
