"""The hub over HTTP: what web clients expect, many clients at once, ends of the program and of the hub, and hostile clients."""
import http.client
import json
import os
import random
import signal
import socket
import subprocess
import sys
import threading
import time
import unittest
import zlib

from hubs import HERE, HUB, PROGRAM, SHELL, SHOP, Events, HubAt
from packages import wants

import cigrelk

ROW = {"track": "Trust", "rating": 4, "album": "Wish", "quantity": 5}
KEYS = [{"do": "define", "text": "table pairs (k int, v int, w text) with k -> v w"},
        {"do": "put", "view": "pairs", "rows": [{"k": k, "v": 7 * k + 1, "w": "x" * 50} for k in range(2000)]},
        {"do": "define", "text": "view low = select from pairs where k < 100000"}]
ALL = ["*=read,preview,edit", "undo"]
# The test stops at so many finds that the hub answers, and at so many updates that it accepts, or after so many seconds. A busy machine
# makes fewer.
FINDS, UPDATES, MOST_SECONDS = 8000, 250, 20


@wants("python3-aiohttp")
class Web(unittest.TestCase):
    @classmethod
    def setUpClass(cls):
        cls.hub = HubAt({"ann": ["stock=read,preview,edit", "undo"], "all": ALL})

    @classmethod
    def tearDownClass(cls):
        cls.hub.__exit__()

    def setUp(self):
        self.hub.lines("root", SHOP[3:])

    def test_a_change_rests_on_what_was_read(self):
        _, headers, rows = self.hub.ask("ann", "GET", "/views/stock")
        tag = headers["ETag"]
        self.assertEqual(self.hub.ask("ann", "GET", "/views/stock", If_None_Match=tag)[0], 304)
        status, headers, told = self.hub.ask("ann", "POST", "/views/stock/edit", {"remove": [ROW], "add": [{**ROW, "rating": 1}]}, If_Match=tag)
        self.assertEqual((status, told["changed"][0]["table"]), (200, "stock"))
        status, _, told = self.hub.ask("ann", "POST", "/views/stock/edit", {"add": [ROW]}, If_Match=tag)
        self.assertEqual((status, told["error"], told["name"]), (412, 41, "Stale"))
        status, after, told = self.hub.ask("ann", "PUT", "/views/stock", rows, If_Match=headers["ETag"])
        self.assertEqual(status, 200)
        self.assertEqual(self.hub.ask("ann", "GET", "/views/stock", If_None_Match=after["ETag"])[0], 304)
        self.assertEqual(self.hub.ask("ann", "PUT", "/views/stock", rows)[0], 428)
        self.assertEqual(self.hub.ask("ann", "PUT", "/views/stock", rows, If_Match='"0123456789ab.99"')[0], 412)
        self.assertEqual(self.hub.ask("ann", "PUT", "/views/stock", rows, If_Match="W/x")[0], 412)

    def test_csv(self):
        status, headers, text = self.hub.ask("ann", "GET", "/views/stock", Accept="text/csv")
        self.assertEqual((status, headers["Content-Type"], text.partition("\n")[0]), (200, "text/csv", "album,quantity,rating,track"))
        put = lambda text: self.hub.ask("ann", "PUT", "/views/stock", text, If_Match=headers["ETag"], Content_Type="text/csv")
        self.assertEqual(put(text.replace(",5,4,", ",5,four,"))[2]["record"], 3)
        self.assertEqual(put(text.replace(",5,4,", ",5,2,"))[0], 200)
        self.assertEqual(put(text)[0], 412)

    def test_finds_and_problems(self):
        self.assertEqual(self.hub.ask("ann", "GET", "/views/stock?track=Trust")[2], [ROW])
        self.assertEqual(self.hub.ask("ann", "GET", "/views/stock?rating=4")[2], [ROW])
        for path, status, error in (("/views/stock?date=1", 422, 23), ("/views/stock?rating=x", 422, 24), ("/views/nowhere", 404, 22), ("/views/tracks", 404, 22), ("/views/a%20b", 404, 22)):
            found, headers, told = self.hub.ask("ann", "GET", path)
            self.assertEqual((found, told["error"], headers["Content-Type"]), (status, error, "application/problem+json"), told)
        status, _, told = self.hub.ask("ann", "POST", "/views/stock/edit", {"add": [{**ROW, "quantity": 1}]})
        self.assertEqual((status, told["name"], told["row"]), (422, "OffPredicate", {**ROW, "quantity": 1}))
        status, _, told = self.hub.ask("ann", "POST", "/views/stock/edit", {"add": [{**ROW, "track": "x", "quantity": 9}]})
        self.assertEqual((status, told["name"], len(told["rows"])), (409, "Clash", 2))
        for path, body, status in (("/views/stock/edit", "[1", 400), ("/views/stock/edit", "[]", 400), ("/views/stock/edit", {"more": 1}, 400), ("/batch", {"edits": [1]}, 400),
                                   ("/nowhere", "", 404), ("/views", "", 405), ("/views/stock/edit", '{"add":[{"track":"\\ud800"}]}', 400), ("/views/stock/edit", "[" * 100000, 400)):
            self.assertEqual(self.hub.ask("ann", "POST", path, body, Content_Type="application/json")[0], status, (path, str(body)[:50]))
        self.assertEqual(self.hub.ask("ann", "POST", "/views/stock/edit", "{}", Content_Type="text/plain")[0], 415)
        self.assertEqual(self.hub.ask("ann", "GET", "/views/stock", Accept="image/png")[0], 406)

    def test_lines_are_those_of_the_program(self):
        bad = [b"", b"{", b"[]", b'{"do":"x"}', b'{"do":"read"}', b'{"do":"read","view":"stock","more":1}', b'{"do":"read","view":3}', b'{"do":"edit","view":"albums","remove":[],"add":[{"album":"z","quantity":-0}]}',
               b'{"do":"edit","view":"albums","remove":[],"add":[{"album":"z","quantity":1e2}]}', b'{"do":"edit","view":"albums","remove":[],"add":[{"album":"z","quantity":99999999999999999999}]}',
               b'{"do":"edit","view":"albums","remove":[],"add":[{"album":"z","quantity":1e999}]}', b'{"do":"edit","view":"albums","remove":[],"add":[{"album":"\\ud800","quantity":1}]}', b'\xff', b'\xef\xbb\xbf{"do":"list"}',
               b'{"do":"find","view":"stock","column":"track","value":NaN}', b'{"do":"put","view":"albums","rows":[],"on":-1}', b'{"do":"put","view":"albums","rows":[],"on":1.0}', b'{"do":"put","view":"albums","rows":[],"on":null}',
               b'{"do":"put","do":"read","view":"nowhere"}', b'{"do":"batch","edits":[{"view":"A","remove":[],"add":[]}]}', b'{"do":"define","text":"a\\u0000"}', b'{"do":"define","text":"' + b"x" * 5000 + b'"}', b" " * 20 + b"\t\r",
               b'{"do":"batch","edits":[],"on":18446744073709551616}', b'{"do":"undo","on":1}', b'{"do":"list"} x', b'"' + b"x" * 17000000 + b'"', b"[" * 200, b'{"do":"find","view":"stock","column":"track"}']
        told = subprocess.run([PROGRAM], input=b"".join(json.dumps(it).encode() + b"\n" for it in SHOP) + b"".join(line + b"\n" for line in bad), capture_output=True).stdout.split(b"\n")[len(SHOP) : -1]
        for line, one, other in zip(bad, told, self.hub.raw_lines("root", bad), strict=True):
            self.assertEqual(one, other, line[:80])

    def test_events(self):
        with Events(self.hub, "all") as events, Events(self.hub, "ann") as blind:
            events.next("hello"), blind.next("hello")
            self.hub.lines("root", [{"do": "edit", "view": "albums", "remove": [], "add": [{"album": "Best", "quantity": 4}]}])
            told = events.next("change")
            self.assertTrue('"albums":' in told and '"stock":' in told and '"tracks":' not in told, told)
            told = blind.next("change")
            self.assertTrue('"stock":' in told and "albums" not in told, told)
        since = told[told.index("id: ") + 4 :].partition("\n")[0]
        self.hub.ask("ann", "POST", "/views/stock/edit", {"add": [{"track": "New", "rating": 1, "album": "Best", "quantity": 4}]})
        with Events(self.hub, "ann", since) as again:
            self.assertIn('"stock":', again.next("change"))

    @wants("python3-jsonschema")
    def test_the_document_is_true(self):
        """Each operation of the document is there. (Each reply that a test of the hub gets is put to it, in `hubs.Document`.)"""
        _, _, told = self.hub.ask("ann", "GET", "/openapi.json")
        self.assertEqual(sorted(told["components"]["schemas"]), ["Change", "Health", "Problem", "Row", "Rows", "View", "Views", "row_of_stock"])
        for path, operations in told["paths"].items():
            for method, operation in operations.items():
                for who, body, headers in ((None, "", {}), ("ann", "", {}), ("ann", "{}", {"Content_Type": "application/json"}), ("root", "[]", {"Content_Type": "application/json", "If_Match": "*"}), ("ann", "x", {"Content_Type": "text/plain"})):
                    if path == "/events" and who:
                        continue
                    status = self.hub.ask(who, method.upper(), path.replace("{name}", "stock"), body if method != "get" else None, **headers)[0]
                    self.assertIn(str(status), operation["responses"], (path, method, who, status))
            for method in {"get", "put", "post", "delete"} - set(operations):
                self.assertEqual(self.hub.ask("ann", method.upper(), path.replace("{name}", "stock"))[0], 405, (path, method))

    def test_hosts_and_origins(self):
        ask = lambda **headers: self.hub.ask("ann", "GET", "/views", **headers)[0]
        self.assertEqual(ask(Host="evil.example"), 421)
        self.assertEqual(ask(Host=f"localhost:{self.hub.port}"), 200)
        self.assertEqual(ask(Origin="http://evil.example"), 403)
        self.assertEqual(ask(Origin="null"), 403)
        self.assertEqual(ask(Sec_Fetch_Site="cross-site"), 403)
        self.assertEqual(ask(Origin=f"http://127.0.0.1:{self.hub.port}"), 200)
        status, headers, _ = self.hub.ask(None, "OPTIONS", "/views", Origin="http://evil.example")
        self.assertNotIn("Access-Control-Allow-Origin", headers)
        status, headers, page = self.hub.ask(None, "GET", "/")
        self.assertEqual(status, 200)
        self.assertIn("script-src 'sha256-", headers["Content-Security-Policy"])

    def test_smuggling(self):
        """A request whose end has two readings is refused, and nothing behind it is answered."""
        host, token = f"127.0.0.1:{self.hub.port}", self.hub.tokens["root"]
        head = f"POST /batch HTTP/1.1\r\nHost: {host}\r\nAuthorization: Bearer {token}\r\nContent-Type: application/json\r\n"
        inner = f"GET /health HTTP/1.1\r\nHost: {host}\r\n\r\n"
        body = '{"edits":[]}'
        for name, lines, rest in (
            ("length and chunks", "Content-Length: 12\r\nTransfer-Encoding: chunked\r\n\r\n", "0\r\n\r\n" + inner),
            ("two lengths", "Content-Length: 12\r\nContent-Length: 13\r\n\r\n", body + inner),
            ("equal lengths", "Content-Length: 12\r\nContent-Length: 12\r\n\r\n", body + inner),
            ("signed length", "Content-Length: +12\r\n\r\n", body + inner),
            ("spaced length", "Content-Length : 12\r\n\r\n", body + inner),
            ("underscored", "Content-Length: 1_2\r\n\r\n", body + inner),
            ("xchunked", "Transfer-Encoding: xchunked\r\n\r\n", "c\r\n" + body + "\r\n0\r\n\r\n" + inner),
            ("chunked twice", "Transfer-Encoding: chunked, chunked\r\n\r\n", "c\r\n" + body + "\r\n0\r\n\r\n" + inner),
            ("identity", "Transfer-Encoding: chunked, identity\r\n\r\n", "c\r\n" + body + "\r\n0\r\n\r\n" + inner),
            ("hex sign", "Transfer-Encoding: chunked\r\n\r\n", "+c\r\n" + body + "\r\n0\r\n\r\n" + inner),
            ("hex prefix", "Transfer-Encoding: chunked\r\n\r\n", "0xc\r\n" + body + "\r\n0\r\n\r\n" + inner),
            ("fold", "X: y\r\n Content-Length: 12\r\n\r\n", inner),
            ("bare cr", "X: y\rContent-Length: 12\r\n\r\n", body + inner),
            ("nul", "X: \0\r\nContent-Length: 12\r\n\r\n", body + inner),
        ):
            found, _ = self.hub.raw((head + lines + rest).encode(), 1)
            statuses = [int(it[:3]) for it in found.decode(errors="replace").split("HTTP/1.1 ")[1:]]
            with self.subTest(name=name, found=found[:300]):
                self.assertTrue(not statuses or (statuses[0] >= 400 and len(statuses) == 1), statuses)
        found, _ = self.hub.raw(f"GET /health HTTP/1.1\r\nHost: {host}\r\nHost: evil\r\n\r\n".encode(), 1)
        self.assertTrue(found.split()[1][:1] == b"4", found[:100])

    def test_limits(self):
        self.assertEqual(self.hub.ask("all", "POST", "/batch", "x" * (16 << 20) + "yy", Content_Type="application/json")[0], 413)
        found, closed = self.hub.raw(b"GET /" + b"x" * 100000, 2)
        self.assertEqual((found.split()[1][:1], closed), (b"4", True))
        head = f"POST /batch HTTP/1.1\r\nHost: 127.0.0.1:{self.hub.port}\r\nAuthorization: Bearer {self.hub.tokens['all']}\r\nContent-Type: application/json\r\nContent-Length: 99999999\r\n\r\n"
        self.assertEqual(self.hub.raw(head.encode(), 2)[0].split()[1], b"413")

    def test_packed_bodies(self):
        packed = zlib.compress(b" " * (200 << 20))
        self.assertEqual(self.hub.ask("all", "POST", "/batch", packed, Content_Type="application/json", Content_Encoding="deflate")[0], 400)
        chunks = f"POST /batch HTTP/1.1\r\nHost: 127.0.0.1:{self.hub.port}\r\nAuthorization: Bearer {self.hub.tokens['all']}\r\nContent-Type: application/json\r\nTransfer-Encoding: chunked\r\n\r\nzz\r\n"
        self.assertEqual(self.hub.raw(chunks.encode(), 2)[0].split()[1], b"400")

    def test_undo_of_own(self):
        edit = lambda who, track: self.hub.ask(who, "POST", "/views/stock/edit", {"add": [{"track": track, "rating": 1, "album": "Wish", "quantity": 5}]})
        edit("ann", "one"), edit("all", "two"), edit("ann", "three")
        status, _, told = self.hub.ask("ann", "POST", "/undo", {})
        self.assertEqual((status, told["changed"][0]["remove"][0]["track"]), (200, "three"))
        self.hub.ask("all", "POST", "/views/stock/edit", {"remove": [{"track": "one", "rating": 1, "album": "Wish", "quantity": 5}]})
        status, _, told = self.hub.ask("ann", "POST", "/undo", {})
        self.assertEqual((status, told["name"]), (409, "ChangedSince"))
        mine = json.loads(next(line for line in self.hub.ask("root", "GET", "/journal")[2].split("\n") if '"user":"all"' in line))["id"]
        self.assertEqual(self.hub.ask("ann", "POST", "/undo", {"change": mine})[2]["error"], 44)
        edit("ann", "four")
        hers = [json.loads(line)["id"] for line in self.hub.ask("root", "GET", "/journal")[2].split("\n") if '"user":"ann"' in line][-1]
        self.assertEqual(self.hub.ask("root", "POST", "/undo", {"change": hers})[0], 200)
        self.assertEqual(self.hub.ask("ann", "POST", "/undo", {"change": hers})[2]["error"], 44)


@wants("python3-aiohttp")
class Clients(unittest.TestCase):
    def test_python(self):
        with HubAt({"ann": ["stock=read,preview,edit", "undo"], "all": ALL}) as hub:
            with cigrelk.Server(f"http://127.0.0.1:{hub.port}", token=hub.tokens["ann"]) as server, cigrelk.Server(f"http://127.0.0.1:{hub.port}", token=hub.tokens["all"]) as other:
                stock = server["stock"]
                rows = stock.read()
                self.assertEqual(server.names(), {"stock": "table"})
                self.assertEqual(list(rows.columns), ["track", "rating", "album", "quantity"])
                change = stock.edit(remove=[ROW], add=[{**ROW, "rating": 1}], on=rows)
                self.assertEqual(change.tables, {"stock": ([ROW], [{**ROW, "rating": 1}])})
                self.assertRaises(cigrelk.Stale, stock.edit, add=[ROW], on=rows)
                change.undo()
                self.assertEqual(stock.read(), rows)
                self.assertEqual([why for *_, why in stock.why(remove=[ROW])], [["removed from stock"]])
                self.assertTrue(stock.faults(add=[{**ROW, "quantity": 1}, {**ROW, "quantity": 8}]))
                self.assertEqual(stock.import_csv(stock.export_csv()).tables, {})
                self.assertEqual(len(list(server.ask_all({"do": "find", "view": "stock", "column": "track", "value": "Trust"} for _ in range(1000)))), 1000)
                self.assertIn("follows", str(other["stock"].why(remove=[{"track": "Lullaby", "rating": 3, "album": "Show", "quantity": 3}], add=[{"track": "Lullaby", "rating": 1, "album": "Show", "quantity": 3}])))
                self.assertRaises(cigrelk.NoRight, server.define, "table t (a int)")
                server.batch([("stock", [ROW], []), (stock, [], [ROW])])
                self.assertRaises(cigrelk.NothingToUndo, lambda: [server.undo() for _ in range(9)])
                rows = stock.read()
                os.kill(hub.program(), signal.SIGKILL)
                time.sleep(0.5)
                self.assertRaises(cigrelk.Stale, stock.edit, add=[ROW], on=rows)
                self.assertEqual(stock.read(), rows)
            self.assertRaises(cigrelk.NoToken, cigrelk.Server, f"http://127.0.0.1:{hub.port}", token="no")

    def test_the_shell(self):
        with HubAt({"ann": ["stock=read,preview,edit", "undo"]}) as hub:
            told = subprocess.run([*SHELL, f"http://127.0.0.1:{hub.port}"], env={**hub.environment, "CIGRELK_TOKEN": hub.tokens["ann"]}, capture_output=True, text=True,
                                  input="list\nstock\npreview change stock track=Trust set rating=1\nchange stock track=Trust set rating=1\nundo\nstock\n")
            self.assertEqual((told.returncode, told.stderr), (0, ""), told.stdout)
            self.assertIn("Trust", told.stdout)

    def test_each_reply_goes_to_who_asked(self):
        """Clients that go away in the middle, at any place, beside clients that check each reply."""
        with HubAt({"all": ALL, "rude": ALL}, KEYS) as hub:
            wrong, asked, stop = [], [0], time.monotonic() + MOST_SECONDS
            goes_on = lambda: asked[0] < FINDS and time.monotonic() < stop

            def honest(number):
                connection, chance = hub.connect(), random.Random(number)
                while goes_on():
                    keys = [chance.randrange(2000) for _ in range(chance.choice((1, 1, 20)))]
                    if len(keys) == 1:
                        found = [hub.ask("all", "GET", f"/views/pairs?k={keys[0]}", connection=connection)[2]]
                    else:
                        found = hub.ask("all", "POST", "/lines", "".join(json.dumps({"do": "find", "view": "pairs", "column": "k", "value": key}) + "\n" for key in keys), connection, Content_Type="application/x-ndjson")[2]
                        found = [json.loads(line)["rows"] for line in found.split("\n")[:-1]]
                    asked[0] += len(keys)
                    wrong.extend((key, rows) for key, rows in zip(keys, found, strict=True) if [row["k"] for row in rows] != [key])
                connection.close()

            def rude(number):
                chance = random.Random(1000 + number)
                while goes_on():
                    lines = "".join(json.dumps({"do": "find", "view": "pairs", "column": "k", "value": chance.randrange(2000)}) + "\n" for _ in range(chance.randrange(1, 400)))
                    head = f"POST /lines HTTP/1.1\r\nHost: 127.0.0.1:{hub.port}\r\nAuthorization: Bearer {hub.tokens['rude']}\r\nContent-Type: application/x-ndjson\r\nContent-Length: {len(lines)}\r\n\r\n"
                    with socket.create_connection(("127.0.0.1", hub.port)) as it:
                        data = (head + lines).encode()
                        it.sendall(data[: chance.randrange(1, len(data) + 1)])
                        if chance.random() < 0.5:
                            it.setsockopt(socket.SOL_SOCKET, socket.SO_LINGER, b"\1\0\0\0\0\0\0\0")
                    # (or the threads of this test leave each other no time)
                    time.sleep(0.02)

            threads = [threading.Thread(target=work, args=(number,)) for number in range(12) for work in (honest, rude)]
            [it.start() for it in threads], [it.join() for it in threads]
            self.assertEqual(wrong, [])
            self.assertGreater(asked[0], 100)

    def test_no_update_is_lost(self):
        """Clients that each read a number and put the next one, by ETag or by `on`, beside changes of other tables: as many as were
        accepted is the number at the end."""
        start = [{"do": "define", "text": "table count (v int)"}, {"do": "define", "text": "table other (v int)"}, {"do": "put", "view": "count", "rows": [{"v": 0}]}]
        with HubAt({"all": ALL, "window": ["shown=read,edit"]}, [*start, {"do": "define", "text": "view shown = select from count where v >= 0"}]) as hub:
            accepted, refused, stop = [], [], time.monotonic() + MOST_SECONDS
            goes_on = lambda: len(accepted) < UPDATES and time.monotonic() < stop

            def by_etag(who):
                connection = hub.connect()
                while goes_on():
                    _, headers, rows = hub.ask(who, "GET", "/views/shown", connection=connection)
                    status = hub.ask(who, "PUT", "/views/shown", [{"v": rows[0]["v"] + 1}], connection, If_Match=headers["ETag"])[0]
                    self.assertIn(status, (200, 412))
                    (accepted if status == 200 else refused).append(1)
                connection.close()

            def by_on(who):
                while goes_on():
                    read = hub.lines(who, [{"do": "read", "view": "shown"}] * 5)[3]
                    reply, = hub.lines(who, [{"do": "put", "view": "shown", "rows": [{"v": read["rows"][0]["v"] + 1}], "on": read["version"], "session": read["session"]}])
                    (accepted if reply["ok"] else refused).append(1)

            def beside(_):
                while goes_on():
                    hub.lines("all", [{"do": "edit", "view": "other", "remove": [], "add": [{"v": random.randrange(10**9)}]}] * 5)

            threads = [threading.Thread(target=work, args=(who,)) for work in (by_etag, by_on) for who in ("all", "all", "window", "root")] + [threading.Thread(target=beside, args=(0,))]
            [it.start() for it in threads], [it.join() for it in threads]
            self.assertEqual(hub.ask("root", "GET", "/views/count")[2], [{"v": len(accepted)}])
            print(f"{len(accepted)} updates accepted, {len(refused)} refused as stale", file=sys.stderr)


@wants("python3-aiohttp")
class Ends(unittest.TestCase):
    def edits(self, hub, told, stop):
        """Threads that make edits, each of a row of its own, until the event stop; those that were answered are noted."""
        def work(number):
            connection, count = None, 0
            while not stop.is_set():
                row = {"k": 10000 + 10000 * number + count, "v": 1, "w": ""}
                count += 1
                try:
                    connection = connection or hub.connect()
                    status, _, _ = hub.ask("all", "POST", "/views/pairs/edit", {"add": [row]}, connection)
                    told.append((row["k"], status))
                except (OSError, http.client.HTTPException):
                    connection.close()
                    connection = None
                    told.append((row["k"], 0))
                    time.sleep(0.05)
            connection and connection.close()

        threads = [threading.Thread(target=work, args=(number,)) for number in range(6)]
        [it.start() for it in threads]
        return threads

    def until(self, stop, threads, told, times, kill):
        """Kills so many times while edits go on, each time when some more were answered."""
        try:
            for _ in range(times):
                before, deadline = len(told), time.monotonic() + 60
                while sum(status == 200 for _, status in told[before:]) < 3 and time.monotonic() < deadline:
                    time.sleep(0.01)
                kill()
            time.sleep(0.5)
        finally:
            stop.set()
            [it.join() for it in threads]

    def check(self, hub, told):
        """What was answered is in the table and in the journal; what is in the table is in the journal, or unknown there."""
        keys = {row["k"] for row in hub.lines("all", [{"do": "read", "view": "pairs"}])[0]["rows"] if row["k"] >= 10000}
        done = {key for key, status in told if status == 200}
        self.assertEqual(done - keys, set())
        asked, found, unknown = {}, set(), set()
        for line in hub.ask("root", "GET", "/journal")[2].split("\n")[:-1]:
            entry = json.loads(line)
            if "request" in entry and entry["request"].get("do") == "edit":
                asked[entry["id"]] = entry["request"]["add"][0]["k"]
            elif entry["id"] in asked:
                (found if "changed" in entry else unknown).add(asked[entry["id"]])
        self.assertEqual(done - found, set())
        self.assertEqual(keys - found - unknown, set())
        self.assertEqual(set(asked.values()) - found - unknown, set())
        return len(done), len(unknown)

    def test_the_program_is_killed(self):
        # On a busy machine a killed program lets go of its store late.
        with HubAt({"all": ALL}, KEYS, {"engine.MOST_STARTS": 100, "engine.MOST_HELD_UP": 60}) as hub, Events(hub, "all") as events:
            told, stop = [], threading.Event()
            events.next("hello")
            tag = hub.ask("all", "GET", "/views/low")[1]["ETag"]
            killed = set()

            def kill():
                deadline = time.monotonic() + 60
                while hub.program() in killed | {0}:
                    self.assertLess(time.monotonic(), deadline, "the hub does not start the program again")
                    time.sleep(0.01)
                killed.add(hub.program())
                os.kill(hub.program(), signal.SIGKILL)

            self.until(stop, self.edits(hub, told, stop), told, 20, kill)
            events.next("session")
            self.assertEqual(hub.ask("all", "PUT", "/views/low", [], If_Match=tag)[0], 412)
            self.assertLessEqual({status for _, status in told}, {200, 503})
            done, unknown = self.check(hub, told)
            print(f"program killed {len(killed)} times: {done} edits answered, {unknown} unknown", file=sys.stderr)

    def test_the_hub_is_killed(self):
        with HubAt({"all": ALL}, KEYS) as hub:
            told, stop = [], threading.Event()

            def kill():
                hub.kill()
                hub.start()

            self.until(stop, self.edits(hub, told, stop), told, 20, kill)
            done, unknown = self.check(hub, told)
            print(f"hub killed 20 times: {done} edits answered, {unknown} unknown", file=sys.stderr)

    def test_a_stop_loses_nothing(self):
        with HubAt({"all": ALL}, KEYS) as hub, Events(hub, "all") as events:
            told, stop = [], threading.Event()
            events.next("hello")

            def kill():
                began = time.monotonic()
                self.assertEqual(hub.stop(), 0)
                self.assertLess(time.monotonic() - began, 10)
                hub.start()

            self.until(stop, self.edits(hub, told, stop), told, 1, kill)
            _, unknown = self.check(hub, told)
            self.assertEqual(unknown, 0)

    def test_undo_goes_on_after_a_restart(self):
        with HubAt({"all": ALL}, KEYS) as hub:
            hub.ask("all", "POST", "/views/pairs/edit", {"add": [{"k": 5000, "v": 1, "w": ""}]})
            hub.kill()
            with open(f"{hub.store}.journal", "ab") as file:
                file.write(b'{"at":"x","id":"cut')
            hub.start()
            status, _, told = hub.ask("all", "POST", "/undo", {})
            self.assertEqual((status, told["changed"][0]["remove"]), (200, [{"k": 5000, "v": 1, "w": ""}]))
            self.assertEqual(hub.ask("all", "POST", "/undo", {})[2]["error"], 44)
            told = subprocess.run([*HUB, hub.store, "--journal"], capture_output=True, text=True, env=hub.environment).stdout
            self.assertIn("undo of", told)

    def test_the_journal_cannot_be_written(self):
        with HubAt({"all": ALL}, KEYS, ) as hub:
            subprocess.run(["prlimit", f"--pid={hub.process.pid}", f"--fsize={os.path.getsize(hub.store + '.journal') + 10}:"], check=True)
            status, _, told = hub.ask("all", "POST", "/views/pairs/edit", {"add": [{"k": 6000, "v": 1, "w": ""}]})
            self.assertEqual((status, told["name"]), (507, "NoJournal"))
            self.assertEqual(hub.ask("all", "GET", "/views/pairs?k=6000")[2], [])


@wants("python3-aiohttp")
class Load(unittest.TestCase):
    def test_one_who_floods_delays_others_little(self):
        with HubAt({"all": ALL, "flood": ALL}, KEYS) as hub:
            hub.lines("root", [{"do": "edit", "view": "pairs", "remove": [], "add": [{"k": k, "v": 1, "w": "y" * 100} for k in range(2000, 22000)]}])
            latencies = lambda count: sorted(self.timed(hub, k) for k in range(count))
            alone = latencies(100)
            lines = '{"do":"find","view":"low","column":"v","value":3}\n' * 3000
            head = f"POST /lines HTTP/1.1\r\nHost: 127.0.0.1:{hub.port}\r\nAuthorization: Bearer {hub.tokens['flood']}\r\nContent-Type: application/x-ndjson\r\nContent-Length: {len(lines)}\r\n\r\n"
            floods = [socket.create_connection(("127.0.0.1", hub.port)) for _ in range(20)]
            [it.sendall((head + lines).encode()) for it in floods]
            time.sleep(0.5)
            beside = latencies(100)
            [it.close() for it in floods]
            print(f"a find by key, median and worst: alone {alone[50]*1e3:.1f} and {alone[-1]*1e3:.1f} ms, beside a flood of reads {beside[50]*1e3:.1f} and {beside[-1]*1e3:.1f} ms", file=sys.stderr)
            self.assertLess(beside[50], 0.5)

    def timed(self, hub, key):
        began = time.monotonic()
        self.assertEqual(hub.ask("all", "GET", f"/views/pairs?k={key}")[0], 200)
        return time.monotonic() - began

    def test_who_does_not_read_costs_little(self):
        with HubAt({"all": ALL, "slow": ALL}, KEYS) as hub:
            hub.lines("root", [{"do": "edit", "view": "pairs", "remove": [], "add": [{"k": k, "v": 1, "w": "y" * 200} for k in range(2000, 22000)]}])
            hub.ask("slow", "GET", "/views/pairs")
            before, sockets = hub.memory(), []
            for number in range(150):
                it = socket.socket()
                it.setsockopt(socket.SOL_SOCKET, socket.SO_RCVBUF, 4096)
                it.connect(("127.0.0.1", hub.port))
                lines = '{"do":"read","view":"pairs"}\n' * 50
                start = f"Host: 127.0.0.1:{hub.port}\r\nAuthorization: Bearer {hub.tokens['slow']}\r\n"
                it.sendall((f"GET /views/pairs HTTP/1.1\r\n{start}\r\n" if number % 2 else f"POST /lines HTTP/1.1\r\n{start}Content-Type: application/x-ndjson\r\nContent-Length: {len(lines)}\r\n\r\n{lines}").encode())
                sockets.append(it)
            time.sleep(4)
            beside, after = self.timed(hub, 7), hub.memory()
            print(f"150 clients that never read replies of {len(hub.ask('all', 'GET', '/views/pairs')[2])} rows: {before} -> {after} MiB, another's find took {beside*1e3:.1f} ms", file=sys.stderr)
            self.assertLess(after - before, 400)
            [it.close() for it in sockets]

    def test_a_thousand_connections(self):
        with HubAt({"all": ALL}, KEYS) as hub:
            sockets = [socket.create_connection(("127.0.0.1", hub.port)) for _ in range(1000)]
            ask = f"GET /views/pairs?k=%d HTTP/1.1\r\nHost: 127.0.0.1:{hub.port}\r\nAuthorization: Bearer {hub.tokens['all']}\r\n\r\n"
            [it.sendall((ask % number).encode()) for number, it in enumerate(sockets)]
            for number, it in enumerate(sockets):
                it.settimeout(20)
                self.assertIn(b'"k":%d,' % number, it.recv(65536))
            more = [socket.create_connection(("127.0.0.1", hub.port)) for _ in range(300)]
            time.sleep(0.5)
            self.assertEqual(sum(self.is_closed(it) for it in more), 100)
            [it.close() for it in sockets + more]
            time.sleep(0.3)
            self.assertEqual(hub.ask("all", "GET", "/health")[0], 200)

    def is_closed(self, it):
        it.settimeout(0.01)
        try:
            return it.recv(1) == b""
        except TimeoutError:
            return False
        except ConnectionError:
            return True


if __name__ == "__main__":
    unittest.main()
