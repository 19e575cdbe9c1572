"""Starts hubs for the tests, asks them, and puts each reply to what the OpenAPI document of the hub says of it."""
import http.client
import json
import os
import re
import select
import shutil
import signal
import socket
import sys
import tempfile
import time

HERE = os.path.dirname(os.path.realpath(__file__))
TOP = os.path.dirname(os.path.dirname(HERE))
sys.path.insert(0, os.path.dirname(HERE))
import hub_starts
from cigrelk.hub.rights import Users

try:
    import jsonschema
except ImportError:
    jsonschema = None
# A longer body is not put to the document: that takes longer than the test.
MOST_CHECKED = 1 << 17
HUB = [sys.executable, f"{TOP}/cigrelk", "hub"]
SHELL = [sys.executable, f"{TOP}/cigrelk", "shell"]
EXAMPLES = f"{TOP}/examples"
PROGRAM = os.environ.get("CIGRELK") or f"{TOP}/serve"
# Where stores lie whose tests are not about the disk.
MEMORY = "/dev/shm" if os.path.isdir("/dev/shm") else None
SHOP = [
    {"do": "define", "text": "table tracks (track text, date int, rating int, album text) with track -> date rating"},
    {"do": "define", "text": "table albums (album text, quantity int) with album -> quantity"},
    {"do": "define", "text": "view stock = select from (drop date determined by (track, 2018) from (join_dl tracks with albums)) where quantity > 2"},
    {"do": "put", "view": "albums", "rows": [{"album": name, "quantity": count} for name, count in (("Disintegration", 6), ("Show", 3), ("Galore", 1), ("Paris", 4), ("Wish", 5))]},
    {"do": "put", "view": "tracks", "rows": [{"track": track, "date": date, "rating": rating, "album": album} for track, date, rating, album in (
        ("Lullaby", 1989, 3, "Galore"), ("Lullaby", 1989, 3, "Show"), ("Lovesong", 1989, 5, "Galore"), ("Lovesong", 1989, 5, "Paris"), ("Trust", 1992, 4, "Wish"))]},
]


KINDS = ("edit", "edit", "preview", "put", "batch", "undo", "read", "import", "find")


def some_row(chance):
    """A row of the view of the shop."""
    return {"track": chance.choice(("Lullaby", "Trust", "Cold", "Lovesong", "New")), "rating": chance.randrange(1, 5),
            "album": chance.choice(("Show", "Wish", "Paris", "Push", "Other")), "quantity": chance.randrange(1, 6)}


def some_request(chance, kinds=KINDS):
    """A request over the view of the shop."""
    rows = [some_row(chance) for _ in range(chance.randrange(3))]
    do = chance.choice(kinds)
    if do in ("edit", "preview"):
        return {"do": do, "view": "stock", "remove": [some_row(chance)], "add": rows}
    if do == "put":
        return {"do": do, "view": "stock", "rows": rows}
    if do == "import":
        return {"do": do, "view": "stock", "csv": "track,rating,album,quantity\n" + "".join("{track},{rating},{album},{quantity}\n".format(**row) for row in rows)}
    if do == "batch":
        return {"do": do, "edits": [{"view": "stock", "remove": [some_row(chance)], "add": rows}, {"view": "stock", "remove": rows, "add": [some_row(chance)]}]}
    if do == "find":
        return {"do": do, "view": "stock", "column": "track", "value": chance.choice(("Trust", "Cold"))}
    return {"do": do} if do == "undo" else {"do": do, "view": "stock"}


def free_port():
    with socket.socket() as it:
        it.bind(("127.0.0.1", 0))
        return it.getsockname()[1]


class HubAt:
    """A hub over a store of its own. `users` has the words of each user's rights, and `constants` values that are others than usual, by
    module of the hub and name."""

    def __init__(self, users=None, requests=SHOP, constants=None, folder=MEMORY, **environment):
        self.folder = tempfile.mkdtemp(prefix="hub-", dir=folder)
        self.constants = constants or {}
        self.store, self.port, self.tokens, self.document = f"{self.folder}/shop.db", free_port(), {}, None
        self.environment = {**os.environ, "PYTHONDONTWRITEBYTECODE": "1", **environment}
        self.users = Users(f"{self.store}.users")
        for name, words in {"root": ["admin"], **(users or {})}.items():
            self.grant(name, *words)
        self.start()
        if requests:
            replies = self.lines("root", requests)
            assert all(reply["ok"] for reply in replies), replies

    def grant(self, name, *words):
        self.tokens[name] = self.users.grant(name, list(words)) or self.tokens[name]

    def start(self):
        self.process = hub_starts.start([self.store, "--port", str(self.port)], self.environment, self.constants)

    def reload(self):
        os.kill(self.process.pid, signal.SIGHUP)
        time.sleep(0.2)

    def program(self):
        """The number of the program's process: the hub's youngest, since one that was killed may not have been waited for yet."""
        with open(f"/proc/{self.process.pid}/task/{self.process.pid}/children") as file:
            return int((file.read().split() or [0])[-1])

    def memory(self):
        """What the hub has in memory, in MiB."""
        with open(f"/proc/{self.process.pid}/status") as file:
            return next(int(line.split()[1]) for line in file if line.startswith("VmRSS")) >> 10

    def stop(self):
        self.process.terminate()
        return self.wait()

    def kill(self):
        program = os.pidfd_open(self.program())
        self.process.kill()
        self.wait()
        # (its number may be seen for seconds yet, until some process has waited for it)
        select.select([program], [], [], 30)
        os.close(program)

    def wait(self):
        """The status with which the hub ends."""
        self.process.join(20)
        status = self.process.exitcode
        self.process.close()
        self.process = None
        return status

    def __enter__(self):
        return self

    def __exit__(self, *_):
        if self.process:
            self.stop()
        shutil.rmtree(self.folder)

    # Requests

    def connect(self):
        return http.client.HTTPConnection("127.0.0.1", self.port, timeout=30)

    def ask(self, who, method, path, body=None, connection=None, **headers):
        """The status, the headers and the body of an answer; a body of JSON as a value."""
        headers = {name.replace("_", "-"): value for name, value in headers.items()}
        if who:
            headers["Authorization"] = f"Bearer {self.tokens.get(who, who)}"
        if isinstance(body, (dict, list)):
            headers.setdefault("Content-Type", "application/json")
            body = json.dumps(body)
        mine = connection or self.connect()
        mine.request(method, path, body, headers)
        answer = mine.getresponse()
        found = answer.read()
        if connection is None:
            mine.close()
        kind = answer.headers.get("Content-Type", "")
        told = json.loads(found) if found and "json" in kind and "ndjson" not in kind else found.decode()
        self.check(method, path, answer.status, kind, told if len(found) < MOST_CHECKED else None)
        return answer.status, dict(answer.getheaders()), told

    def check(self, method, path, status, kind, told):
        """Raises AssertionError if a reply is another than the document says."""
        if jsonschema is None:
            return
        if self.document is None:
            self.document = Document(self)
        self.document.check(method, path, status, kind, told)

    def raw_lines(self, who, lines):
        return self.ask(who, "POST", "/lines", b"".join(line + b"\n" for line in lines), Content_Type="application/x-ndjson")[2].encode().split(b"\n")[:-1]

    def lines(self, who, requests):
        return [json.loads(line) for line in self.raw_lines(who, [json.dumps(it).encode() for it in requests])]

    def raw(self, data, seconds=3):
        """What comes on a connection of its own for raw bytes, until it is closed or silent."""
        with socket.create_connection(("127.0.0.1", self.port)) as it:
            it.settimeout(seconds)
            it.sendall(data)
            found = b""
            try:
                while True:
                    more = it.recv(65536)
                    if not more:
                        return found, True
                    found += more
            except TimeoutError:
                return found, False
            except ConnectionResetError:
                return found, True


class Document:
    """The OpenAPI document of a hub."""

    def __init__(self, hub):
        connection = hub.connect()
        connection.request("GET", "/openapi.json", headers={"Authorization": f"Bearer {hub.tokens['root']}"})
        self.told = json.loads(connection.getresponse().read())
        connection.close()
        self.validators = {}

    def operation(self, method, path):
        """What the document says of a request, or None if it knows none."""
        path = path.partition("?")[0]
        template = re.sub("^/views/[^/]+", "/views/{name}", path)
        return self.told["paths"].get(template, {}).get(method.lower())

    def check(self, method, path, status, kind, told):
        operation = self.operation(method, path)
        if operation is None:
            return
        response = operation["responses"].get(str(status))
        assert response, f"{method} {path} is answered with {status}, which the document does not have"
        if method == "HEAD" or status == 304:
            return
        content = response["content"].get(kind.partition(";")[0])
        assert content is not None, f"{method} {path} is answered as {kind}, which the document does not have"
        if "schema" in content and told is not None:
            self.validator(content["schema"]).validate(told)

    def validator(self, schema):
        name = json.dumps(schema)
        if name not in self.validators:
            whole = {**schema, "components": self.told["components"]}
            jsonschema.Draft202012Validator.check_schema(whole)
            self.validators[name] = jsonschema.Draft202012Validator(whole)
        return self.validators[name]


class Events:
    """A stream of events."""

    def __init__(self, hub, who, since=None):
        self.socket = socket.create_connection(("127.0.0.1", hub.port))
        last = f"Last-Event-ID: {since}\r\n" if since else ""
        self.socket.sendall(f"GET /events HTTP/1.1\r\nHost: 127.0.0.1:{hub.port}\r\nAuthorization: Bearer {hub.tokens[who]}\r\n{last}\r\n".encode())
        self.text = ""

    def next(self, name, seconds=10):
        """The next event of this name: its text."""
        self.socket.settimeout(seconds)
        while True:
            found = re.search(rf"event: {name}\n.*?\n\n", self.text, re.S)
            if found:
                self.text = self.text[found.end() :]
                return found[0]
            more = self.socket.recv(65536)
            if not more:
                raise AssertionError(f"the stream ended without {name}: {self.text}")
            self.text += more.decode()

    def close(self):
        self.socket.close()

    def __enter__(self):
        return self

    def __exit__(self, *_):
        self.close()
