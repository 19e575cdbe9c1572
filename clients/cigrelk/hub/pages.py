"""The editor's page, served by the hub, to each person with the tables and views that he may see.

What the page asks is answered by the editor's own Application. Its Server is the hub's desk, with the rights of the user, so the page
can do nothing that lines cannot. The token is in the page's memory for this window, and goes with each request: there is no cookie,
so a page of another site has nothing to send.
"""
import asyncio
import collections
import concurrent.futures
import json
import os
from typing import Dict, List, Optional

from aiohttp import web

from ..editor.application import Application, BadAsk
from ..editor.web import MAX_BODY, PAGE, content_policy
from ..server import Server
from .problems import Problem
from .rights import User
from .routes import json_of
from .web import HEADERS, JSON, Hub, Whole

# For how many people an application is kept, how many requests of pages are answered at once, and how long (in seconds) one may take.
MOST_PEOPLE, MOST_AT_ONCE, MOST_WAIT = 256, 8, 120
SCRIPT = os.path.join(os.path.dirname(os.path.abspath(__file__)), "page.js")


class AtDesk:
    """What a Server asks of a program, asked of the desk from another thread."""

    end = None

    def __init__(self, hub: Hub, loop: asyncio.AbstractEventLoop, user: User):
        self.hub, self.loop, self.user = hub, loop, user

    def ask(self, line):
        return self.wait(self.begin(line))

    def begin(self, line):
        return asyncio.run_coroutine_threadsafe(self.hub.desk.line(self.user, line), self.loop)

    def send(self, lines):
        return [self.begin(line) for line in lines]

    def wait(self, reply):
        return reply.result(MOST_WAIT)

    def close(self):
        pass


class EditorPages:
    def __init__(self, hub: Hub):
        self.hub, self.loop = hub, asyncio.get_running_loop()
        self.threads, self.people = concurrent.futures.ThreadPoolExecutor(MOST_AT_ONCE), {}
        self.turns: Dict[str, asyncio.Lock] = collections.defaultdict(asyncio.Lock)
        with open(PAGE, encoding="utf-8") as page, open(SCRIPT, encoding="utf-8") as script:
            self.page = with_script(page.read(), script.read()).encode()
        self.headers = {**HEADERS, "Content-Security-Policy": content_policy(self.page), "Cache-Control": "no-store",
                        "Cross-Origin-Opener-Policy": "same-origin"}

    def add_routes(self) -> None:
        self.hub.add(("GET", "HEAD"), "/", self.give_page, True)
        self.hub.add(("POST",), "/page/{ask}", self.answer)

    async def give_page(self, hub: Hub, request: web.BaseRequest) -> Whole:
        return Whole(self.page, 200, "text/html; charset=utf-8", self.headers)

    async def answer(self, hub: Hub, request: web.BaseRequest) -> Whole:
        ask, user = request["name"], request["who"]
        if ask not in Application.ASKS:
            raise Problem(404, f"the page asks nothing that is called {ask[:40]}")
        asked = await json_of(request, hub, dict, MAX_BODY)
        try:
            # (one thread for each person, so that nobody takes all of them)
            async with self.turns[user.name]:
                reply = await self.loop.run_in_executor(self.threads, self.reply, user, ask, asked)
        except (BadAsk, ValueError, KeyError, IndexError, TypeError, AttributeError, RecursionError):
            raise Problem(400, f"the page sends no such request as this {ask}") from None
        return Whole(reply, 200, JSON)

    def reply(self, user: User, ask: str, asked: dict) -> bytes:
        return json.dumps(self.person(user).reply(ask, asked), ensure_ascii=False).encode()

    def person(self, user: User) -> Application:
        """The application of a user. One whose rights were changed gets another."""
        found = self.people.pop(user.name, None)
        if found is None or found[0] is not user:
            found = (user, Application(lambda: Server.over(AtDesk(self.hub, self.loop, user)), False, lambda name: self.rights(user, name)))
        self.people[user.name] = found
        while len(self.people) > MOST_PEOPLE:
            self.people.pop(next(iter(self.people)))
        return found[1]

    def rights(self, user: User, name: Optional[str]) -> List[str]:
        """What a user may do with a table or a view, and for None what he may do at all."""
        return [power for power in ("define", "undo") if user.can(power)] if name is None else sorted(user.on(name))


def with_script(page: str, script: str) -> str:
    """The page with a script before its own ones."""
    before, mark, rest = page.partition("<script>")
    return f"{before}<script>{script}</script>\n\n{mark}{rest}"
