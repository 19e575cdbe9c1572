"""Lines of the program's own form over one request of HTTP, each answered by a line, in order."""
import asyncio
import collections
from typing import AsyncIterator, Optional

from aiohttp import web

from .desk import LONG, aside
from .refusing import NO_TOKEN, No
from .replies import line_of_no
from .requests import IN_SERIES, MOST_LINE, read_request
from .web import LINES, PIECE, Hub, stream_of, written

# How many lines of one series may be under way, and how many bytes of their replies may be kept for it.
MOST_LINES, MOST_REPLIES = 128, 1 << 20


async def lines(hub: Hub, request: web.BaseRequest) -> web.StreamResponse:
    """Answers lines as they come. Many are under way at once."""
    series = Series(hub, request)
    response = stream_of(LINES)
    await response.prepare(request)
    writer = asyncio.ensure_future(series.write(response))
    # (who waits for room goes on when nobody reads any more)
    writer.add_done_callback(lambda _: series.leave())
    try:
        async for line in lines_of(request):
            if writer.done():
                break
            await series.add(line)
        await series.end()
        await writer
    finally:
        writer.cancel()
        series.leave()
    return response


async def lines_of(request: web.BaseRequest) -> AsyncIterator[Optional[bytes]]:
    """The lines of a body as they come, and None for one that is too long, which is passed over."""
    pieces, size = [], 0
    async for data in request.content.iter_any():
        *whole, rest = data.split(b"\n")
        for line in whole:
            yield None if size + len(line) > MOST_LINE else b"".join([*pieces, line])
            pieces, size = [], 0
        size += len(rest)
        pieces = [*pieces, rest] if size <= MOST_LINE else []
    if size:
        yield None if size > MOST_LINE else b"".join(pieces)


class Series:
    """The requests of one series of lines that are under way, in order."""

    def __init__(self, hub: Hub, request: web.BaseRequest):
        self.hub, self.who, self.key, self.request = hub, request["who"], request["key"], request
        self.waiting, self.more, self.room, self.kept = collections.deque(), asyncio.Event(), asyncio.Event(), 0
        self.is_over = self.is_left = False
        self.room.set()

    async def add(self, line: Optional[bytes]) -> None:
        while (len(self.waiting) >= MOST_LINES or self.kept > MOST_REPLIES) and self.waiting:
            self.room.clear()
            await self.room.wait()
        try:
            if line is None:
                raise No(10)
            request = await aside(len(line), read_request, line)
        except No as no:
            return self.begin(refuse(no))
        # A token may be taken away while the series goes on.
        user = self.hub.desk.users.by_hash.get(self.key)
        if user is None:
            return self.begin(refuse(No(NO_TOKEN)))
        # (a long request takes its place only when its line is made)
        if request["do"] in IN_SERIES and len(line) <= LONG:
            return self.begin(self.hub.desk.answer(user, request))
        if self.waiting:
            await asyncio.wait(self.waiting)
        await asyncio.wait([self.begin(self.hub.desk.answer(user, request))])

    def begin(self, work) -> asyncio.Task:
        """(Tasks begin in the order in which they are made, and each takes its place before it first waits.)"""
        task = asyncio.ensure_future(work)
        task.add_done_callback(self.came)
        self.waiting.append(task)
        self.more.set()
        return task

    def came(self, task: asyncio.Task) -> None:
        """(What is kept counts until it is written, or until the series is left.)"""
        if not self.is_left and not task.cancelled() and not task.exception():
            self.hold(len(task.result()))

    def hold(self, size: int) -> None:
        self.kept += size
        self.hub.desk.engine.hold(self.who.name, size)
        if size < 0:
            self.room.set()

    async def end(self) -> None:
        self.is_over = True
        self.more.set()

    async def write(self, response: web.StreamResponse) -> None:
        while True:
            while not self.waiting:
                if self.is_over:
                    return
                self.more.clear()
                await self.more.wait()
            ready = [await asyncio.shield(self.waiting[0])]
            self.waiting.popleft()
            while self.waiting and self.waiting[0].done() and len(ready) < MOST_LINES:
                ready.append(self.waiting.popleft().result())
            data = b"\n".join([*ready, b""])
            for at in range(0, len(data), PIECE):
                await written(self.request, response, data[at : at + PIECE])
            self.hold(len(ready) - len(data))

    def leave(self) -> None:
        """The client is gone, or all is written. What is under way is done all the same, and its replies are dropped."""
        self.is_left = True
        self.waiting.clear()
        self.hold(-self.kept)
        self.room.set()


async def refuse(no: No) -> bytes:
    return line_of_no(no)
