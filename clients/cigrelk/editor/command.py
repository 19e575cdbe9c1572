"""Edits the tables and views of a store in the browser.

It starts the program over the store (or in memory), serves one page to this machine alone, and prints the page's address. The
address has a secret, and only programs of the user who started the editor are answered. Whoever has both may read everything,
and without --read-only change everything. A store that is made here is readable by this user alone. Ctrl-C ends it.
"""
import argparse
import contextlib
import re
import secrets
import signal
import webbrowser

from ..errors import CommandError
from ..server import Server
from ..store_files import private_copy
from .application import Application, all_rights
from .web import WebServer, handler

SUMMARY = "edits the tables and views of a store in the browser"
READ_ONLY = "this editor was started with --read-only, so it changes nothing"


def port_number(text):
    """A number of a port."""
    if not re.fullmatch("[0-9]{1,5}", text) or int(text) > 65535:
        raise argparse.ArgumentTypeError(f"a port is a number from 0 to 65535, and not {text}")
    return int(text)


def add_arguments(parser: argparse.ArgumentParser) -> None:
    parser.add_argument("store", nargs="?", metavar="STORE", help="the file of the store; without it the tables are in memory alone")
    parser.add_argument("--port", type=port_number, default=0, metavar="N", help="the port of the page; without it one that is free")
    parser.add_argument("--quiet", action="store_true", help="opens no browser")
    parser.add_argument("--read-only", action="store_true", help="refuses every change, and serves a private copy: no byte of the store and of its folder changes")


def read_alone(_):
    return ("read",)


def interrupt(*_):
    raise KeyboardInterrupt


def serve(web: WebServer, options: argparse.Namespace) -> None:
    with contextlib.ExitStack() as room:
        store = room.enter_context(private_copy(options.store)) if options.read_only and options.store is not None else options.store
        rights, denied = (read_alone, READ_ONLY) if options.read_only else (all_rights, "")
        application = Application(lambda: Server(store), store is not None, rights, denied)
        room.callback(application.close)
        secret, port = secrets.token_urlsafe(16), web.server_address[1]
        web.RequestHandlerClass = handler(application, secret, port)
        address = f"http://127.0.0.1:{port}/{secret}/"
        print(address, flush=True)
        if not options.quiet:
            webbrowser.open(address)
        web.serve_forever()


def run(options: argparse.Namespace) -> int:
    signal.signal(signal.SIGTERM, interrupt)
    try:
        web = WebServer(options.port)
    except OSError as error:
        raise CommandError(f"the port {options.port} cannot be served: {error.strerror}") from None
    try:
        with web:
            serve(web, options)
    except KeyboardInterrupt:
        # This is how it is ended.
        pass
    return 0
