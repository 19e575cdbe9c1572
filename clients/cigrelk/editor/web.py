"""The server of HTTP before the editor: whom it answers, and with which page."""
import base64
import hashlib
import hmac
import http.server
import json
import os
import re
import sys
import threading

from .application import Application, BadAsk

PAGE = os.path.join(os.path.dirname(os.path.abspath(__file__)), "page.html")
MAX_BODY = 64 << 20
# How many connections may be open, and how many seconds one may be silent. A page asks every three seconds.
MAX_CONNECTIONS, MAX_SILENCE = 64, 30


def user_at_other_end(port, other_port):
    """The number of the user whose program is at the other end of a connection within this machine, or None."""
    with open("/proc/net/tcp") as connections:
        for line in connections:
            words = line.split()
            if words[1:3] == [f"0100007F:{other_port:04X}", f"0100007F:{port:04X}"]:
                return int(words[7])
    return None


class WebServer(http.server.ThreadingHTTPServer):
    """Listens on the loopback address, answers programs of this user and of root alone, and holds few connections at once."""

    # (a browser opens several connections at once, and one that finds the queue full waits for a second)
    daemon_threads, request_queue_size = True, 128

    def __init__(self, port):
        self.room = threading.Semaphore(MAX_CONNECTIONS)
        super().__init__(("127.0.0.1", port), None)

    def is_own_user(self, address):
        try:
            user = user_at_other_end(self.server_address[1], address[1])
        except OSError:
            user = None
        return user in (None, 0, os.getuid())

    def process_request(self, request, address):
        if self.room.acquire(blocking=False):
            super().process_request(request, address)
        else:
            self.shutdown_request(request)

    def process_request_thread(self, request, address):
        try:
            if self.is_own_user(address):
                super().process_request_thread(request, address)
            else:
                self.shutdown_request(request)
        finally:
            self.room.release()

    def handle_error(self, request, address):
        # (a browser that goes away in the middle is no fault)
        if not isinstance(sys.exc_info()[1], OSError):
            super().handle_error(request, address)


def content_policy(page):
    """What the page may do: run its own scripts, take its own style, and ask this server."""
    def hashes(tag):
        texts = re.findall(rb"<%s>(.*?)</%s>" % (tag, tag), page, re.S)
        return " ".join(f"'sha256-{base64.b64encode(hashlib.sha256(text).digest()).decode()}'" for text in texts)

    return (f"default-src 'none'; script-src {hashes(b'script')}; style-src {hashes(b'style')}; connect-src 'self'; "
            "img-src data:; base-uri 'none'; form-action 'none'; frame-ancestors 'none'")


def handler(application, secret, port):
    """The class that answers the requests of HTTP."""
    hosts = {f"127.0.0.1:{port}", f"localhost:{port}"}
    origins = {f"http://{host}" for host in hosts}
    with open(PAGE, "rb") as file:
        page = file.read()
    headers = {
        "Cache-Control": "no-store", "Content-Security-Policy": content_policy(page), "Referrer-Policy": "no-referrer",
        "X-Content-Type-Options": "nosniff", "Cross-Origin-Resource-Policy": "same-origin", "Cross-Origin-Opener-Policy": "same-origin",
    }

    class Handler(http.server.BaseHTTPRequestHandler):
        protocol_version, timeout = "HTTP/1.1", MAX_SILENCE

        def version_string(self):
            return "cigrelk"

        def is_of_page(self, path):
            """Whether the request is for this path, and comes from the page. A page of another site can reach this machine too,
            by its address or by a name that leads to it."""
            found = self.headers.get_all("Host") or []
            return (len(found) == 1 and found[0] in hosts and origins.issuperset(self.headers.get_all("Origin") or ())
                    and self.headers.get("Sec-Fetch-Site", "none") in ("none", "same-origin")
                    and hmac.compare_digest(self.path.encode(), path.encode()))

        def length(self):
            """The length of the body, or None where it is not told once and in digits: else the end of the request has two
            readings, and another request could hide in its body."""
            told = self.headers.get_all("Content-Length") or ["0"]
            is_sure = len(told) == 1 and re.fullmatch("[0-9]{1,18}", told[0]) and "Transfer-Encoding" not in self.headers
            return int(told[0]) if is_sure else None

        def give(self, status, body=b"", kind="text/plain"):
            if status != 200:
                # (a body may be left unread)
                self.close_connection = True
            self.send_response(status)
            for name, value in {"Content-Type": kind, "Content-Length": str(len(body)), **headers}.items():
                self.send_header(name, value)
            if self.close_connection:
                self.send_header("Connection", "close")
            self.end_headers()
            self.wfile.write(body)

        def do_GET(self):
            if self.length() != 0:
                return self.give(400)
            if not self.is_of_page(f"/{secret}/"):
                return self.give(404, b"The address has a secret: take the whole one that was printed.\n")
            self.give(200, page, "text/html; charset=utf-8")

        def do_POST(self):
            length, ask = self.length(), self.path.rpartition("/")[2]
            if not self.is_of_page(f"/{secret}/{ask}") or ask not in Application.ASKS:
                return self.give(404)
            if length is None or length > MAX_BODY:
                return self.give(400 if length is None else 413)
            try:
                asked = json.loads(self.rfile.read(length))
                if not isinstance(asked, dict):
                    raise BadAsk
                # (half of a surrogate pair is no text: it is refused here)
                json.dumps(asked, ensure_ascii=False).encode()
                reply = application.reply(ask, asked)
            except (BadAsk, ValueError, KeyError, IndexError, TypeError, AttributeError, RecursionError):
                return self.give(400)
            self.give(200, json.dumps(reply, ensure_ascii=False).encode(), "application/json")

        def log_message(self, *_):
            pass

    return Handler
