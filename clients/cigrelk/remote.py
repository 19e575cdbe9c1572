"""A hub by its address, in place of a program of one's own."""
import json
import re
import select
import threading
import urllib.parse

from .process import ReplyLost
from .refusals import refusal

# How many bytes of requests go to a hub at once. One longer request goes by itself.
MOST_SERIES = 1 << 17
# How long (in seconds) a reply may take.
MOST_WAIT = 120


def is_address(text: str) -> bool:
    """Whether a text is the address of a hub, and not the path of a store."""
    return re.match("https?://", text) is not None


class Unreachable(ReplyLost):
    """The hub gave no reply, or none that can be read. A request under way was done or not, which a read tells."""


class Remote:
    """A hub that answers lines, many at once, over one connection. Any thread may use it.

    If an exchange is broken off, its connection is closed, so no reply goes to another request than its own."""

    end = None

    def __init__(self, address, token):
        # (loading this takes a third of the start of a command, and few commands speak to a hub)
        import http.client

        self.failures = OSError, ValueError, http.client.HTTPException
        found = urllib.parse.urlsplit(address)
        self.make = http.client.HTTPSConnection if found.scheme == "https" else http.client.HTTPConnection
        self.host, self.path, self.turn, self.connection = found.netloc, f"{found.path.rstrip('/')}/lines", threading.Lock(), None
        self.headers = {"Authorization": f"Bearer {token}", "Content-Type": "application/x-ndjson"}

    def ask(self, line):
        return self.exchange([line])[0]

    def send(self, lines):
        """(What goes at once is short enough to be sent whole before a reply is read.)"""
        found, series, size = [], [], 0
        for line in lines:
            if series and size + len(line) > MOST_SERIES:
                found += self.exchange(series)
                series, size = [], 0
            series.append(line)
            size += len(line) + 1
        return found + (self.exchange(series) if series else [])

    def wait(self, reply):
        return reply

    def exchange(self, lines):
        with self.turn:
            try:
                return self.exchanged(lines)
            except BaseException:
                self.close()
                raise

    def exchanged(self, lines):
        try:
            connection = self.connected()
            connection.request("POST", self.path, b"".join(line + b"\n" for line in lines), self.headers)
            response = connection.getresponse()
            found = response.read()
        except self.failures as error:
            raise Unreachable(f"the hub at {self.host} gave no reply ({error or type(error).__name__}): a request under way was done or not") from None
        if response.status != 200:
            raise self.refused(response.status, found)
        replies = found.split(b"\n")[:-1]
        if len(replies) != len(lines):
            raise Unreachable(f"the hub at {self.host} answered {len(replies)} of {len(lines)} requests: read, to see which were done")
        return replies

    def refused(self, status, body):
        """The exception for an answer that is none of lines."""
        try:
            told = json.loads(body)
            return refusal({**told, "ok": False}) if "error" in told else Unreachable(f"the hub at {self.host} says: {told['detail']}")
        except (ValueError, KeyError, TypeError):
            return Unreachable(f"the hub at {self.host} answers with the status {status}: it may be no hub")

    def connected(self):
        """The connection, made anew if the hub has closed it meanwhile."""
        if self.connection and self.connection.sock and select.select([self.connection.sock], [], [], 0)[0]:
            self.close()
        if self.connection is None:
            self.connection = self.make(self.host, timeout=MOST_WAIT)
        return self.connection

    def close(self):
        if self.connection:
            self.connection.close()
        self.connection = None
