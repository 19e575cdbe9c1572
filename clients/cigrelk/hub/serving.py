"""The start of a hub, and its end."""
import argparse
import asyncio
import gc
import os
import resource
import signal
import ssl
import sys
from typing import Optional

from aiohttp import web

from ..errors import CommandError
from ..process import MOST_INPUT, default_program
from ..store_files import make_private, refuse_other_files
from .desk import Desk
from .engine import Closing
from .journal import Journal
from .openapi import ROUTE
from .pages import EditorPages
from .rights import Users
from .routes import ROUTES, add_routes
from .web import MOST_CONNECTIONS, MOST_IDLE, Connection, Hub, close_silent

# How long (in seconds) answers have to go out when the hub ends.
LAST_ANSWERS = 3
# After how many new objects garbage is looked for. Requests leave next to none that has to be looked for.
GARBAGE = (20_000, 20, 20)


def run(options: argparse.Namespace) -> int:
    """Serves until it is stopped. The status is that of the program."""
    _, most = resource.getrlimit(resource.RLIMIT_NOFILE)
    resource.setrlimit(resource.RLIMIT_NOFILE, (min(most, 4 * MOST_CONNECTIONS), most))
    try:
        with asyncio.Runner(loop_factory=loop_factory()) as runner:
            return runner.run(serve(options))
    except Closing as error:
        raise CommandError(str(error)) from None


def loop_factory():
    """The loop of uvloop if it is installed: it takes less time for each connection."""
    try:
        import uvloop
    except ImportError:
        return None
    return None if os.environ.get("CIGRELK_LOOP") == "asyncio" else uvloop.new_event_loop


async def serve(options: argparse.Namespace) -> int:
    store = options.store
    refuse_other_files(store)
    make_private(store)
    desk = Desk(Users(f"{store}.users"), Journal(f"{store}.journal"))
    await desk.start([default_program(), "--max-input", str(MOST_INPUT), f"--store={store}"])
    hub = Hub(desk, host_names(options))
    add_routes(hub, (*ROUTES, ROUTE))
    EditorPages(hub).add_routes()
    server = web.Server(hub.answer, keepalive_timeout=MOST_IDLE, access_log=None)
    loop = asyncio.get_running_loop()
    listening = await loop.create_server(lambda: Connection(server, loop=loop, **server._kwargs), options.listen, options.port,
                                         ssl=tls(options), backlog=1024)
    watcher = asyncio.ensure_future(close_silent(server))
    print(f"http{'s' if options.cert else ''}://{options.listen}:{listening.sockets[0].getsockname()[1]}/", flush=True)
    # What is there now stays: it need not be looked through for garbage, nor need that be done so often.
    gc.freeze()
    gc.set_threshold(*GARBAGE)
    await until_stopped(desk)
    # What is under way is answered, streams of events end, and nothing new is taken.
    listening.close()
    hub.is_closing = True
    for listener in desk.listeners:
        listener.wake.set()
    status = await desk.engine.close()
    await desk.journal.settled()
    await asyncio.sleep(0.1)
    watcher.cancel()
    await server.shutdown(LAST_ANSWERS)
    return status


def host_names(options: argparse.Namespace) -> set:
    """What a request may call the hub."""
    names = {"127.0.0.1", "localhost", options.listen, *options.host}
    return {name.lower() for name in {f"{name}:{options.port}" for name in names} | set(options.host)}


def tls(options: argparse.Namespace) -> Optional[ssl.SSLContext]:
    if options.cert is None:
        return None
    context = ssl.create_default_context(ssl.Purpose.CLIENT_AUTH)
    context.minimum_version = ssl.TLSVersion.TLSv1_2
    context.load_cert_chain(options.cert, options.key)
    return context


async def until_stopped(desk: Desk) -> None:
    loop, stop = asyncio.get_running_loop(), asyncio.Event()
    for number in (signal.SIGTERM, signal.SIGINT):
        loop.add_signal_handler(number, stop.set)
    loop.add_signal_handler(signal.SIGHUP, reload, desk)
    stopping = asyncio.ensure_future(stop.wait())
    while not stopping.done() and not desk.engine.failed:
        await asyncio.wait([stopping], timeout=0.5)
    if desk.engine.failed:
        print(f"cigrelk hub: {desk.engine.failed}", file=sys.stderr)


def reload(desk: Desk) -> None:
    try:
        desk.reload()
    except (OSError, ValueError, KeyError, TypeError) as error:
        print(f"cigrelk hub: the users stay as they were: {error}", file=sys.stderr)
