"""A stream of events for each client that listens: which views changed at which version."""
import asyncio
import re
from typing import List

from aiohttp import web

from .requests import encoded
from .rights import User
from .web import STREAM, Hub, stream_of, written

# How long (in seconds) a change waits for others that are told with it, and how often a silent stream says that it is there.
WAIT, HEARTBEAT = 0.02, 15
EVENT_ID = re.compile(r"([0-9a-f]{12})\.([0-9]{1,19})")


class Listener:
    """One stream of events: which views of its user changed since it was last told, whatever their number. So a client that does
    not read costs the memory of a set of names."""

    def __init__(self, hub: Hub, who: User, key: str):
        self.hub, self.who, self.key = hub, who, key
        self.views, self.session, self.has_rights, self.wake = set(), None, False, asyncio.Event()

    def changed(self, tables: List[str]) -> None:
        touched = self.hub.desk.scope(self.who).readable(tables)
        if touched:
            self.views |= touched
            self.wake.set()

    def restarted(self, session: str) -> None:
        self.session = session
        self.wake.set()

    def rights(self) -> None:
        self.has_rights = True
        self.wake.set()

    def take(self) -> bytes:
        """What is to be told now, as events of the stream."""
        self.wake.clear()
        catalog, told = self.hub.desk.catalog, []
        if self.has_rights:
            self.has_rights = False
            told.append(self.event("rights", {}))
        if self.session:
            told.append(self.event("session", {"session": self.session}))
            self.session = None
        # (a right may have gone since)
        rights = self.hub.desk.scope(self.who).rights
        views = {name: catalog.changed_at(name) for name in sorted(self.views) if "read" in rights.get(name, ())}
        if views:
            told.append(self.event("change", {"views": views}))
        self.views = set()
        return b"".join(told)

    def event(self, name: str, data: dict) -> bytes:
        version, session = self.hub.desk.scope(self.who).version(), self.hub.desk.engine.session
        return b"event: %b\nid: %b.%d\ndata: %b\n\n" % (name.encode(), session.encode(), version, encoded({"session": session, **data}).encode())


async def events(hub: Hub, request: web.BaseRequest) -> web.StreamResponse:
    """The stream of events. With Last-Event-ID it begins with what changed since."""
    listener = Listener(hub, request["who"], request["key"])
    scope, catalog = hub.scope(request), hub.desk.catalog
    since = EVENT_ID.fullmatch(request.headers.get("Last-Event-ID", ""))
    if since and since[1] == hub.desk.engine.session:
        listener.views = {name for name, rights in scope.rights.items() if "read" in rights and catalog.changed_at(name) > int(since[2])}
    elif since:
        listener.session = hub.desk.engine.session
    response = stream_of(STREAM, {"Cache-Control": "no-store", "X-Accel-Buffering": "no"})
    await response.prepare(request)
    hub.desk.listeners.add(listener)
    try:
        await written(request, response, listener.event("hello", {}) + listener.take())
        while not hub.is_closing:
            try:
                async with asyncio.timeout(HEARTBEAT):
                    await listener.wake.wait()
            except TimeoutError:
                await written(request, response, b": still here\n\n")
                continue
            await asyncio.sleep(WAIT)
            user = hub.desk.users.by_hash.get(listener.key)
            if user is None:
                break
            listener.who = user
            await written(request, response, listener.take())
    except (ConnectionError, asyncio.CancelledError):
        pass
    finally:
        hub.desk.listeners.discard(listener)
    return response
