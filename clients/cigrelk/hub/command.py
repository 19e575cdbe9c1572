"""Shares one store among many programs and people, over HTTP, each with rights by table and view.

    cigrelk hub shop.db --grant ann stock=read,preview,edit undo     prints the token of a new user, once
    cigrelk hub shop.db                                              serves http://127.0.0.1:8080/
    cigrelk hub shop.db --journal --person ann --since 2026-12-01    who changed what, when, by which request

Users, the hashes of their tokens and their rights are in STORE.users, and every change is in STORE.journal. A running hub reads
STORE.users again at SIGHUP. At SIGTERM and Ctrl-C it answers what is under way, and ends.

Rights are words: VIEW=read,preview,edit gives these rights on a table or a view (* means all of them, and VIEW= removes the rights),
VIEW:through=TABLE,.. lets edits of a view change only these tables, and define, undo and admin are powers.

The hub listens beyond this machine only with --cert and --key. Behind a proxy on this machine, --host gives the name by which
clients call it.
"""
import argparse
import json

from ..errors import CommandError
from ..texts import plain
from .journal import Wanted, changes, summary
from .rights import Users

SUMMARY = "shares one store among many programs and people, over HTTP"
LOCAL = ("127.0.0.1", "::1")
WITHOUT_AIOHTTP = "the hub needs aiohttp: install Debian's package python3-aiohttp and run it by /usr/bin/python3, or `pip install aiohttp`"


def add_arguments(parser: argparse.ArgumentParser) -> None:
    parser.add_argument("store", metavar="STORE", help="the file of the store")
    serving = parser.add_argument_group("to serve")
    serving.add_argument("--port", type=int, default=8080, metavar="N", help="the port, by default 8080")
    serving.add_argument("--listen", default=LOCAL[0], metavar="ADDRESS", help="the address to listen on, by default 127.0.0.1")
    serving.add_argument("--host", action="append", default=[], metavar="NAME", help="a name by which clients call it")
    serving.add_argument("--cert", metavar="FILE", help="the certificate for TLS")
    serving.add_argument("--key", metavar="FILE", help="the key of the certificate")
    rights = parser.add_argument_group("to give and take rights").add_mutually_exclusive_group()
    rights.add_argument("--grant", nargs="+", metavar=("USER", "RIGHT"), help="gives a user rights")
    rights.add_argument("--new-token", metavar="USER", help="gives a user a new token in place of the old ones")
    rights.add_argument("--revoke", metavar="USER", help="removes a user")
    rights.add_argument("--journal", action="store_true", help="prints the journal")
    journal = parser.add_argument_group("of the journal")
    journal.add_argument("--person", metavar="USER", help="changes of this user")
    journal.add_argument("--view", metavar="NAME", help="changes that name this table or view, or changed it")
    journal.add_argument("--since", metavar="TIME", help="changes from this time on, as 2026-12-01T09:30, in UTC")
    journal.add_argument("--until", metavar="TIME", help="changes up to this time")
    journal.add_argument("--json", action="store_true", help="prints the lines as they are")


def run(options: argparse.Namespace) -> int:
    try:
        if options.journal:
            return show_journal(options)
        if options.grant or options.new_token or options.revoke:
            return change_users(options)
    except ValueError as error:
        raise CommandError(str(error)) from None
    if (options.cert is None) != (options.key is None):
        raise CommandError("--cert and --key go together")
    if options.listen not in LOCAL and options.cert is None:
        raise CommandError("to listen beyond this machine takes --cert and --key: without them tokens and rows could be read on the way")
    try:
        from . import serving
    except ImportError as error:
        if (error.name or "").partition(".")[0] != "aiohttp":
            raise
        raise CommandError(WITHOUT_AIOHTTP) from None
    return serving.run(options)


def change_users(options: argparse.Namespace) -> int:
    """Gives and takes rights. A new token is printed."""
    users, token = Users(f"{options.store}.users"), None
    try:
        if options.grant:
            token = users.grant(options.grant[0], options.grant[1:])
        elif options.new_token:
            token = users.new_token(options.new_token)
        else:
            users.revoke(options.revoke)
    except KeyError as error:
        raise CommandError(f"there is no user {error.args[0]}") from None
    if token:
        print(token)
    return 0


def show_journal(options: argparse.Namespace) -> int:
    for first, second in changes(f"{options.store}.journal", Wanted(options.person, options.view, options.since, options.until)):
        for line in (json.dumps(it) for it in (first, second) if it) if options.json else (summary(first, second),):
            print(plain(line))
    return 0
