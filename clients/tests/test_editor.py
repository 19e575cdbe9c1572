"""The editor: what its server answers and what it refuses, and what its page does in a Chromium without a window."""
import base64
import contextlib
import functools
import hashlib
import http.client
import io
import json
import os
import re
import signal
import socket
import sqlite3
import subprocess
import sys
import tempfile
import unittest
import unittest.mock
from urllib.parse import urlsplit

HERE = os.path.dirname(os.path.abspath(__file__))
CLIENTS = os.path.dirname(HERE)
sys.path[:0] = [CLIENTS, HERE]
import browser
import shops
from browser import ALT, CONTROL
from cigrelk import TOP, Server
from cigrelk.command import main
from packages import wants

DEFINITIONS = [
    "table tracks (track text, date int, rating int, album text) with track -> date rating",
    "table albums (album text, quantity int) with album -> quantity",
    "view stock = select from (drop date determined by (track, 2018) from (join_dl tracks with albums)) where quantity > 2",
]
ROWS = {
    "tracks": [["Lullaby", "1989", "3", "Galore"], ["Lullaby", "1989", "3", "Show"], ["Lovesong", "1989", "5", "Galore"],
               ["Lovesong", "1989", "5", "Paris"], ["Trust", "1992", "4", "Wish"]],
    "albums": [["Disintegration", "6"], ["Show", "3"], ["Galore", "1"], ["Paris", "4"], ["Wish", "5"]],
}
ODD_TEXTS = ["\x1b[31mred", "abc\u202edef", "one\ntwo\r\nthree", "\U0010ffff", "  two  ", "<b>bold</b>", "", "x" * 4096, "\u2028"]


def cells(row):
    """A row as the page has it, with numbers as texts."""
    return [str(value) if isinstance(value, int) else value for value in row]


class Editor:
    """An editor over a store, or in memory."""

    def __init__(self, *words):
        self.process = subprocess.Popen([f"{TOP}/cigrelk", "edit", "--quiet", *words], stdout=subprocess.PIPE, text=True)
        self.address = self.process.stdout.readline().strip()
        self.host, self.path = urlsplit(self.address).netloc, urlsplit(self.address).path

    def close(self):
        self.process.send_signal(signal.SIGINT)
        self.process.stdout.close()
        return self.process.wait()

    def answer(self, path, body=b"{}", **headers):
        link = http.client.HTTPConnection(self.host)
        try:
            link.request("POST", path, body, headers)
            reply = link.getresponse()
            return reply.status, reply.read()
        finally:
            link.close()

    def kill_program(self):
        with open(f"/proc/{self.process.pid}/task/{self.process.pid}/children") as children:
            os.kill(int(children.read().split()[0]), signal.SIGKILL)

    def ask(self, what, window="one", **asked):
        status, body = self.answer(f"{self.path}{what}", json.dumps({"window": window, **asked}).encode())
        if status != 200:
            raise AssertionError(f"HTTP {status}")
        return json.loads(body)

    def edit(self, rows, remove, add, do="edit", window="one", **more):
        """An edit that rests on the rows of a reply to `read`."""
        return self.ask(do, window, view=rows["view"], version=rows["version"], session=rows["session"], remove=remove, add=add, **more)

    def read(self, view):
        return {"view": view, **self.ask("read", view=view)}


class OverStore(unittest.TestCase):
    """Tests over some tables, which have the same rows before each. One editor serves them all."""

    definitions, rows = DEFINITIONS, ROWS

    @classmethod
    def setUpClass(cls):
        room = tempfile.TemporaryDirectory()
        cls.addClassCleanup(room.cleanup)
        cls.editor = Editor(f"{room.name}/shop.db")
        cls.addClassCleanup(cls.editor.close)
        for text in cls.definitions:
            cls.editor.ask("define", text=text)

    def setUp(self):
        for table, rows in self.rows.items():
            found = self.editor.read(table)
            self.editor.edit(found, [it for it in found["rows"] if it not in rows], rows, window="before")


class Protection(unittest.TestCase):
    """Who is answered. One editor, in memory, serves all of these."""

    @classmethod
    def setUpClass(cls):
        cls.editor = Editor()
        cls.addClassCleanup(cls.editor.close)

    def statuses(self, text):
        """The statuses of all replies to some bytes."""
        with socket.create_connection(("127.0.0.1", urlsplit(self.editor.address).port)) as link:
            link.settimeout(5)
            link.sendall(text.encode())
            replies = b""
            while more := link.recv(1 << 16):
                replies += more
        return re.findall(r"HTTP/1.1 ([0-9]+)", replies.decode())

    def post(self, headers, host=True):
        hosts = f"Host: {self.editor.host}\r\n" if host else ""
        return f"POST {self.editor.path}list HTTP/1.1\r\n{hosts}{headers}\r\n{{}}"

    def status(self, path, **headers):
        return self.editor.answer(path, **headers)[0]

    def test_it_listens_on_the_loopback_address_alone(self):
        port = urlsplit(self.editor.address).port
        with open("/proc/net/tcp") as file:
            local = [line.split()[1] for line in file if line.split()[3] == "0A"]
        self.assertEqual([it for it in local if it.endswith(f":{port:04X}")], [f"0100007F:{port:04X}"])

    def test_the_path_has_a_secret(self):
        path = self.editor.path
        self.assertGreaterEqual(len(path), 24)
        self.assertEqual([self.status(it) for it in (f"{path}list", "/list", f"{path[:-2]}x/list", f"{path}close")], [200, 404, 404, 404])

    def test_other_sites_are_not_answered(self):
        path, port = f"{self.editor.path}list", urlsplit(self.editor.address).port
        for headers in ({"Origin": "http://evil.example"}, {"Origin": "null"}, {"Origin": "http://127.0.0.1:1"}, {"Host": "evil.example"},
                        {"Host": f"evil.example:{port}"}, {"Sec-Fetch-Site": "cross-site"}, {"Sec-Fetch-Site": "same-site"}):
            self.assertEqual(self.status(path, **headers), 404, headers)
        self.assertEqual(self.status(path, Origin=f"http://localhost:{port}"), 200)

    def test_one_host_has_to_be_named(self):
        self.assertEqual(self.statuses(self.post("Content-Length: 2\r\n", host=False)), ["404"])
        self.assertEqual(self.statuses(self.post("Content-Length: 2\r\nHost: evil.example\r\n")), ["404"])

    def test_a_request_with_two_readings_is_none(self):
        hidden = self.post("Content-Length: 2\r\n")
        for lengths in ("Content-Length: 2\r\nTransfer-Encoding: chunked\r\n", "Content-Length: 2\r\nContent-Length: 40\r\n", "Transfer-Encoding: chunked\r\n",
                        "Content-Length: -1\r\n", "Content-Length: +2\r\n", "Content-Length: 2, 2\r\n", "Content-Length: x\r\n"):
            self.assertEqual(self.statuses(self.post(lengths) + hidden), ["400"], lengths)

    def test_a_get_has_no_body(self):
        self.assertEqual(self.statuses(f"GET {self.editor.path} HTTP/1.1\r\nHost: {self.editor.host}\r\nContent-Length: 2\r\n\r\n{{}}"), ["400"])

    def test_a_body_that_is_no_request(self):
        for body in (b"{", b"[]", b"5", b"{}", b'{"view":"goods"}', b'{"view":"\\ud800"}', b"[" * 100_000):
            self.assertEqual(self.editor.answer(f"{self.editor.path}edit", body)[0], 400, body[:40])

    def test_all_content_is_of_the_page_itself(self):
        link = http.client.HTTPConnection(self.editor.host)
        self.addCleanup(link.close)
        link.request("GET", self.editor.path)
        reply = link.getresponse()
        page, policy = reply.read(), reply.getheader("Content-Security-Policy")
        self.assertTrue(policy.startswith("default-src 'none'"))
        self.assertNotIn("unsafe", policy)
        for text in re.findall(rb"<script>(.*?)</script>", page, re.S):
            self.assertIn(base64.b64encode(hashlib.sha256(text).digest()).decode(), policy)
        self.assertEqual(re.findall(rb"https?://|<link(?! rel=\"icon\" href=\"data:,\")|src=", page), [])
        self.assertEqual((reply.getheader("Server").split()[0], reply.getheader("Referrer-Policy")), ("cigrelk", "no-referrer"))

    @unittest.skipUnless(os.geteuid() == 0, "another user is wanted")
    def test_other_users_are_not_answered(self):
        script = f"import urllib.request as it; it.build_opener(it.ProxyHandler({{}})).open({self.editor.address!r})"
        as_other = ["setpriv", "--reuid=65534", "--regid=65534", "--clear-groups"]
        run = lambda *words: subprocess.run([*words, sys.executable, "-c", script], stderr=subprocess.DEVNULL).returncode
        self.assertEqual(run(), 0)
        self.assertNotEqual(run(*as_other), 0)


class Starting(unittest.TestCase):
    """What stops the editor at its start is told in a sentence."""

    def setUp(self):
        room = tempfile.TemporaryDirectory()
        self.addCleanup(room.cleanup)
        self.room = room.name
        before = signal.getsignal(signal.SIGTERM)
        self.addCleanup(signal.signal, signal.SIGTERM, before)

    def told(self, *words):
        """The status and the message of an editor that ends at once."""
        with contextlib.redirect_stderr(io.StringIO()) as message, contextlib.redirect_stdout(io.StringIO()):
            return main(["edit", "--quiet", *words]), message.getvalue()

    def assert_told(self, words, status, text):
        found, message = self.told(*words)
        self.assertEqual(found, status, message)
        self.assertIn(text, message)

    def test_words_that_are_refused(self):
        for words in (["--port"], ["--port", "x"], ["--port", "99999"], ["--unknown"], ["a.db", "b.db"]):
            self.assertEqual(self.told(*words)[0], 2)

    def test_a_program_that_is_missing(self):
        with unittest.mock.patch.dict(os.environ, CIGRELK=f"{self.room}/nothing"):
            self.assert_told([], 1, "cannot be started")

    def test_a_port_that_is_taken(self):
        with socket.create_server(("127.0.0.1", 0)) as other:
            port = str(other.getsockname()[1])
            self.assert_told([f"{self.room}/a.db", "--port", port], 1, f"the port {port} cannot be served")
        self.assertFalse(os.path.exists(f"{self.room}/a.db"))

    def test_a_store_in_use(self):
        with Server(f"{self.room}/a.db"):
            self.assert_told([f"{self.room}/a.db"], 1, "another program has it open")

    def test_a_folder_that_is_missing(self):
        self.assert_told([f"{self.room}/b/a.db"], 1, "its folder is not there")

    def test_a_file_that_is_no_store(self):
        with open(f"{self.room}/a.db", "w") as file:
            file.write("this is no store at all\n" * 50)
        self.assert_told([f"{self.room}/a.db"], 1, "no store")

    def test_a_store_that_is_damaged(self):
        with Server(f"{self.room}/a.db") as server:
            server.define(DEFINITIONS[1])
        with contextlib.closing(sqlite3.connect(f"{self.room}/a.db")) as store, store:
            store.execute("DROP TABLE t_albums")
        self.assert_told([f"{self.room}/a.db"], 1, "albums")

    def test_a_new_store_is_readable_by_its_owner_alone(self):
        editor = Editor(f"{self.room}/new.db")
        self.assertEqual(os.stat(f"{self.room}/new.db").st_mode & 0o777, 0o600)
        self.assertEqual(editor.close(), 0)


class Answers(OverStore):
    """What the page asks for."""

    def test_numbers_of_64_bits_stay_whole(self):
        rows = self.editor.read("albums")
        self.editor.edit(rows, [], [["big", str(2**63 - 1)], ["small", str(-(2**63))]])
        self.assertIn(["big", "9223372036854775807"], self.editor.read("albums")["rows"])
        self.assertIn(["small", "-9223372036854775808"], self.editor.read("albums")["rows"])

    def test_a_number_of_more_bits_is_refused(self):
        reply = self.editor.edit(self.editor.read("albums"), [], [["big", str(2**63)]])
        self.assertEqual((reply["ok"], reply["error"]), (False, 40))

    def test_odd_texts_stay_as_they_are(self):
        self.editor.ask("define", text="table odd (name text)")
        self.assertTrue(self.editor.edit(self.editor.read("odd"), [], [[it] for it in ODD_TEXTS])["ok"])
        self.assertEqual(sorted(it for it, in self.editor.read("odd")["rows"]), sorted(ODD_TEXTS))

    def test_nulls_stay_apart_from_texts(self):
        self.editor.ask("define", text="table nulls (name text, boss text null, age int null, paid bool null) with name -> age boss paid")
        rows = [["ann", None, None, None], ["bob", "", "0", False], ["cy", "null", "7", True]]
        self.assertTrue(self.editor.edit(self.editor.read("nulls"), [], rows)["ok"])
        found = self.editor.read("nulls")
        self.assertEqual(sorted(found["rows"]), rows)
        self.assertEqual([it["kind"] for it in found["columns"]], ["text", "text null", "int null", "bool null"])
        reply = self.editor.edit(found, rows[:1], [["ann", "bob", None, None]], do="preview")["changed"][0]
        self.assertEqual((reply["columns"][1], reply["lines"][0]["rows"]), ({"name": "boss", "kind": "text null"}, [rows[0], ["ann", "bob", None, None]]))
        self.assertEqual(self.editor.edit(found, rows[:1], [[None, "bob", None, None]])["error"], 40)

    def test_a_preview_tells_why(self):
        reply = self.editor.edit(self.editor.read("stock"), [["Lullaby", "3", "Show", "3"], ["Lovesong", "5", "Paris", "4"]],
                                 [["Lullaby", "4", "Show", "3"], ["Disco", "2", "Wish", "5"]], do="preview")
        (tracks,) = reply["changed"]
        why = {(it["rows"][1] or it["rows"][0])[0] + " " + (it["rows"][1] or it["rows"][0])[3]: "; ".join(it["why"]) for it in tracks["lines"]}
        self.assertIn("track determines", why["Lullaby Galore"])
        self.assertIn("hidden", why["Lullaby Galore"])
        self.assertIn("the join deletes", why["Lovesong Paris"])
        self.assertIn("default of the drop", why["Disco Wish"])

    def test_a_preview_pairs_a_row_with_the_one_that_replaces_it(self):
        reply = self.editor.edit(self.editor.read("stock"), [["Trust", "4", "Wish", "5"]], [["Truth", "4", "Wish", "5"]], do="preview")
        self.assertEqual([it["rows"] for it in reply["changed"][0]["lines"]], [[["Trust", "1992", "4", "Wish"], ["Truth", "2018", "4", "Wish"]]])

    def test_a_preview_shows_a_part_of_many_rows(self):
        reply = self.editor.edit(self.editor.read("albums"), [], [[f"album {it}", "1"] for it in range(1000)], do="preview")
        (albums,) = reply["changed"]
        self.assertEqual((albums["rows"], len(albums["lines"]), albums["more"]), (1000, 200, 800))

    def test_all_faults_of_an_edit_are_told(self):
        add = [["Low", "1", "Nowhere", "1"], ["New", "5", "Wish", "9"], ["Lullaby", "9", "Show", "3"]]
        found = self.editor.ask("faults", view="stock", remove=[], add=add)["faults"]
        self.assertEqual([(it["places"], it["short"]) for it in found],
                         [([0], "not quantity > 2"), ([1], "album determines quantity"), ([2], "track determines rating")])
        self.assertEqual(found[1]["others"], [["Trust", "4", "Wish", "5"]])

    def test_the_views_that_show_a_row_of_a_table(self):
        ask = lambda album: self.editor.ask("shown_by", table="tracks", row=["Lullaby", "1989", "3", album])
        self.assertEqual(ask("Show"), {"ok": True, "shows": ["stock"], "hides": []})
        self.assertEqual(ask("Galore"), {"ok": True, "shows": [], "hides": ["stock"]})

    def test_two_windows_do_not_overwrite_each_other(self):
        one, two = self.editor.read("stock"), self.editor.read("stock")
        self.assertTrue(self.editor.edit(one, [["Trust", "4", "Wish", "5"]], [["Trust", "5", "Wish", "5"]])["ok"])
        reply = self.editor.edit(two, [["Trust", "4", "Wish", "5"]], [["Trust", "1", "Wish", "5"]], window="two")
        self.assertEqual((reply["ok"], reply["error"]), (False, 41))

    def test_a_window_undoes_its_own_changes(self):
        self.editor.edit(self.editor.read("albums"), [["Galore", "1"]], [["Galore", "2"]], window="undoing")
        self.editor.edit(self.editor.read("albums"), [["Paris", "4"]], [["Paris", "9"]], window="two")
        self.assertTrue(self.editor.ask("undo", window="undoing")["ok"])
        rows = self.editor.read("albums")["rows"]
        self.assertTrue(["Galore", "1"] in rows and ["Paris", "9"] in rows)
        self.assertEqual(self.editor.ask("undo", window="undoing")["error"], 44)

    def test_what_others_changed_since_is_not_undone(self):
        self.editor.edit(self.editor.read("albums"), [["Galore", "1"]], [["Galore", "2"]])
        self.editor.edit(self.editor.read("albums"), [["Galore", "2"]], [["Galore", "3"]], window="two")
        self.assertIn("were changed since", self.editor.ask("undo")["text"])
        self.assertIn(["Galore", "3"], self.editor.read("albums")["rows"])

    def test_a_proposal_is_reviewed_over_the_rows_of_today(self):
        text = self.editor.edit(self.editor.read("stock"), [["Lullaby", "3", "Show", "3"]], [["Lullaby", "4", "Show", "3"]], do="propose")["text"]
        self.editor.edit(self.editor.read("tracks"), [["Lullaby", "1989", "3", "Galore"]], [], window="two")
        (proposal,) = self.editor.ask("review", text=text)["proposals"]
        reply = self.editor.edit(self.editor.read("stock"), proposal["remove"], proposal["add"], do="preview", proposal=0)
        (tracks,) = reply["changed"]
        absent = [it["rows"] for it in tracks["lines"] if it.get("absent")]
        self.assertEqual(absent, [[["Lullaby", "1989", "3", "Galore"], ["Lullaby", "1989", "4", "Galore"]]])
        self.assertEqual((tracks["rows"], tracks["differs"]), (1, 1))

    def test_a_file_that_is_no_proposal(self):
        for text in ("", "not JSON", '{"do":"list"}\n{}\n', '{"do":"edit","view":"stock","remove":[],"add":[{"x":1}]}\n{"changed":[]}\n',
                     '{"do":"edit","view":"nothing","remove":[],"add":[]}\n{"changed":[]}\n'):
            self.assertFalse(self.editor.ask("review", text=text)["ok"], text)

    def test_a_program_that_is_killed_is_started_again(self):
        rows = self.editor.read("albums")
        self.editor.kill_program()
        reply = self.editor.edit(rows, [], [["New", "1"]])
        self.assertEqual((reply["ok"], reply["error"]), (False, 41))
        self.assertIn("started again", reply["text"])
        self.assertEqual(self.editor.edit(rows, [], [["New", "1"]])["error"], 41)
        self.assertTrue(self.editor.edit(self.editor.read("albums"), [], [["New", "1"]])["ok"])


class ReadOnly(unittest.TestCase):
    def test_nothing_is_changed(self):
        editor = Editor("--read-only")
        self.addCleanup(editor.close)
        reply = editor.ask("define", text=DEFINITIONS[1])
        self.assertEqual((reply["ok"], "--read-only" in reply["text"]), (False, True))
        self.assertEqual(editor.ask("list")["definitions"], [])


@functools.lru_cache(maxsize=None)
def one_browser():
    """The browser that serves all tests of the page: a start of it takes longer than a test."""
    page = browser.Browser()
    unittest.addModuleCleanup(page.close)
    return page


class OnPage(OverStore):
    """Tests of the page, as a person uses it."""

    @classmethod
    def setUpClass(cls):
        super().setUpClass()
        cls.page = one_browser()

    def setUp(self):
        super().setUp()
        self.page.size(1200, 720)
        self.page.faults.clear()
        self.addCleanup(lambda: self.assertEqual(self.page.faults, []))

    def open(self, view):
        self.page.open(f"{self.editor.address}#{view}")
        self.page.wait(f"state.view === '{view}' && $('sheet').querySelector('tbody')")

    def cell(self, row, column):
        return f"#sheet tr[data-number='{row}'] td[data-at='{column}']"

    def put(self, row, column, text):
        # (a page that is drawn anew between the clicks takes them for two of two cells)
        self.page.until("editing", lambda: self.page.click(self.cell(row, column), 2))
        self.page.type(text)
        self.page.key("Enter")

    def settled(self):
        self.page.wait("state.preview || state.refusal")

    def save(self):
        self.page.key("s", CONTROL)
        self.page.wait("!editedRows().length && state.said")

    def below(self):
        return self.page.run("$('below').innerText")

    def paste(self, text):
        script = "(() => { const data = new DataTransfer(); data.setData('text/plain', %s); sheet.dispatchEvent(new ClipboardEvent('paste', { clipboardData: data })); })()"
        self.page.run(script % json.dumps(text))

    def edited(self):
        return self.page.run("editedRows().map((row) => row.now)")


@wants("chromium")
class Page(OnPage):
    def test_a_preview_shows_hidden_rows_that_follow(self):
        self.open("stock")
        self.put(1, 1, "4")
        self.settled()
        for text in ("Saving changes this table", "tracks 2 rows", "Galore", "track determines"):
            self.assertIn(text, self.below())

    def test_save_and_undo(self):
        self.open("stock")
        self.put(1, 1, "4")
        self.settled()
        self.save()
        self.assertIn("Saved: 2 rows of tracks", self.below())
        self.assertIn(["Lullaby", "1989", "4", "Galore"], self.editor.read("tracks")["rows"])
        self.page.click("#undo")
        self.page.wait("state.said.startsWith('Undone')")
        self.assertEqual(self.page.run("state.rows[1].old"), ["Lullaby", "3", "Show", "3"])
        self.assertIn(["Lullaby", "1989", "3", "Galore"], self.editor.read("tracks")["rows"])

    def test_a_refusal_stands_at_its_row(self):
        self.open("stock")
        self.put(2, 3, "2")
        self.page.wait("document.querySelector('tr.bad td.why')")
        self.assertEqual(self.page.run("document.querySelector('tr.bad td.why').innerText"), "not quantity > 2")
        self.assertTrue(self.page.run("$('save').disabled"))
        self.put(2, 3, "6")
        self.page.wait("state.preview && !$('save').disabled")

    def test_all_faults_of_a_paste_are_told(self):
        self.open("stock")
        self.paste("Low\t1\tNowhere\t1\nNew\t5\tWish\t9\nLullaby\t9\tShow\t3\nbad\tx\tWish\t5\ngood\t1\tShow\t3\n")
        self.page.wait("state.faults.length === 4")
        for text in ("Refused: 4 faults", "stock shows only rows where quantity > 2, and this one has quantity 1", "album determines quantity", "track determines rating", "rating wants a whole number"):
            self.assertIn(text, self.below())
        reasons = self.page.run("[...document.querySelectorAll('tr.bad')].map((row) => [row.cells[1].innerText, row.querySelector('.why').innerText])")
        self.assertIn(["bad", "rating wants a whole number of 64 bits"], reasons)
        self.assertNotIn("good", [name for name, _ in reasons])

    def test_a_cell_that_is_no_value_of_its_column(self):
        self.editor.ask("define", text="table flags (name text, number int, sold bool)")
        self.open("flags")
        self.paste("a\t007\tTRUE\nb\t9223372036854775808\tmaybe\nc\t\tfalse\n")
        self.page.wait("state.faults.length === 2")
        self.assertEqual(self.edited()[0], ["a", "7", True])
        reasons = self.page.run("[...document.querySelectorAll('tr.bad .why')].map((it) => it.innerText)")
        self.assertEqual(reasons, ["number wants a whole number of 64 bits, sold wants true or false", "number is empty"])

    def test_columns_that_may_be_null(self):
        self.editor.ask("define", text="table staff (name text, boss text null, age int null, paid bool null) with name -> age boss paid")
        found = self.editor.read("staff")
        self.editor.edit(found, found["rows"], [["ann", None, None, None], ["bob", "", "0", False], ["cy", "null", "7", True]])
        self.open("staff")
        self.page.click("#sheet th:nth-child(2) button")
        self.assertEqual(self.page.run("[...document.querySelectorAll('td.none')].map((it) => it.innerText)"), ["null"] * 3)
        self.assertEqual(self.page.run("[...document.querySelectorAll('tr[data-number=\"2\"] td[data-at]')].map((it) => it.innerText)"), ["cy", '"null"', "7", "✓ true"])
        # null is typed, and a field that is opened has what would be typed
        self.put(1, 1, "null")
        self.put(2, 2, "null")
        self.put(0, 2, "5")
        self.put(0, 1, '"null"')
        self.page.run("state.here = [2, 1], openCell()")
        self.assertEqual(self.page.run("field.value"), '"null"')
        self.page.key("Enter")
        # a truth value turns from true to null, to false, and to true
        for value in (None, False, True, None):
            self.page.run("state.here = [2, 3], openCell()")
            self.assertEqual(self.page.run("shown[2].now[3]"), value)
        self.settled()
        self.assertEqual(self.edited(), [["ann", "null", "5", None], ["bob", None, "0", False], ["cy", "null", None, None]])
        self.assertIn('null → "null"', self.below())
        self.page.run("state.here = [1, 1], reveal()")
        self.assertEqual(self.page.run("$('here').getAttribute('aria-label')"), "boss: null, was ")
        self.save()
        self.assertEqual(sorted(self.editor.read("staff")["rows"], key=lambda row: row[0]), [["ann", "null", "5", None], ["bob", None, "0", False], ["cy", "null", None, None]])
        # nulls in filters, in sorting, and in what is pasted; the empty cell is null where no other value is empty
        self.assertEqual([self.page.run(f"state.rows.filter((row) => testOf('{text}', state.columns[{at}])(row.now[{at}])).length") for at, text in ((1, "null"), (1, "= null"), (1, "!= null"), (1, '!= x'), (2, "null"), (2, "< 9"))],
                         [1, 1, 2, 2, 1, 2])
        self.page.click("#sheet th:nth-child(4) button")
        self.assertEqual(self.page.run("shown.map((row) => row.now[2])"), [None, "0", "5"])
        self.page.run("state.here = [0, 0]")
        self.paste("di\tnull\t\t\ned\t\t1\tNULL\nfay\tNull\t2\tmaybe\n")
        self.page.wait("state.faults.length === 1")
        self.assertEqual(self.edited(), [["di", None, None, None], ["ed", "", "1", None], ["fay", "Null", "2", "maybe"]])
        self.assertIn("paid wants true or false or null", self.below())
        self.page.click("#discard")
        self.page.wait("!editedRows().length")
        self.page.click("#add")
        self.page.wait("editing")
        self.page.type("gil")
        self.page.key("Tab")
        self.settled()
        self.assertEqual(self.edited(), [["gil", None, None, None]])

    def test_a_save_and_a_read_at_once(self):
        self.open("albums")
        for script in ("save(), open(state.view, { stays: true })", "open(state.view, { stays: true }), save()"):
            self.put(0, 1, "8" if script.startswith("save") else "9")
            self.settled()
            self.page.run(f"{script}, null")
            self.page.wait("!busy && !editedRows().length")
            self.assertEqual(self.page.run("state.rows.map((row) => row.old)"), self.editor.read("albums")["rows"])

    def test_what_a_key_determines_is_filled_in(self):
        self.open("tracks")
        self.page.click("#add")
        self.page.wait("editing")
        self.page.type("Trust")
        self.page.key("Enter")
        self.page.wait("document.querySelector('tr.asks')")
        self.assertEqual(self.edited(), [["Trust", "1992", "4", None]])
        self.assertIn("type album", self.below())
        self.page.click("#discard")
        self.page.wait("!editedRows().length")
        self.put(0, 2, "1")
        self.assertEqual(len(self.edited()), 2)

    def test_edits_are_kept_over_rows_that_others_changed(self):
        self.open("stock")
        self.put(1, 1, "4")
        self.settled()
        self.editor.edit(self.editor.read("stock"), [["Lullaby", "3", "Show", "3"]], [["Lullaby", "3", "Show", "8"]], window="other")
        self.page.click("#save")
        self.page.wait("state.stale")
        self.page.click("#again")
        self.page.wait("!state.stale && state.preview")
        self.assertEqual(self.edited(), [["Lullaby", "4", "Show", "8"]])
        self.assertIn("changed or deleted by someone else: Lullaby", self.below())

    def test_a_change_of_others_is_shown(self):
        self.open("albums")
        self.editor.edit(self.editor.read("albums"), [["Galore", "1"]], [["Galore", "2"]], window="other")
        self.page.run("look()")
        self.page.wait("shown.some((row) => row.now.join() === 'Galore,2')")

    def test_what_is_typed_stays_while_others_change_rows(self):
        self.open("albums")
        self.page.click(self.cell(0, 1), 2)
        self.page.wait("editing")
        self.page.type("77")
        self.editor.edit(self.editor.read("albums"), [], [["New", "1"]], window="other")
        self.page.run("look()")
        self.assertEqual(self.page.run("editing && field.value"), "77")
        self.page.key("Enter")
        self.page.wait("state.stale")

    def test_by_the_keyboard_alone(self):
        self.open("albums")
        self.page.run("sheet.focus()")
        self.page.key("ArrowDown")
        self.page.key("ArrowRight")
        self.page.key("F2")
        self.page.wait("editing")
        self.page.type("8")
        self.page.key("Tab")
        self.settled()
        self.assertEqual(self.page.run("[document.activeElement.id, $('here').getAttribute('aria-label')]"), ["sheet", "quantity: 8, was 1"])
        self.page.key("F6")
        self.assertEqual(self.page.run("document.activeElement.id"), "below")
        self.page.key("F6")
        self.page.key("z", CONTROL)
        self.page.wait("!editedRows().length")
        self.page.key("Delete")
        self.settled()
        self.page.key("Delete")
        self.page.wait("!editedRows().length")
        self.page.key("Insert")
        self.page.wait("editing")
        self.page.type("New")
        self.page.key("Tab")
        self.page.type("3")
        self.page.wait("editing || state.here[1] === 1")
        self.page.key("ArrowUp", ALT)
        self.assertEqual(self.page.run("document.activeElement.getAttribute('aria-label')"), "filter quantity")
        self.page.key("Escape")
        self.assertEqual(self.page.run("document.activeElement.id"), "sheet")

    def test_each_control_has_a_name_for_a_screen_reader(self):
        self.open("stock")
        self.put(1, 1, "4")
        self.settled()
        nodes = self.page.focusable()
        self.assertEqual([role for role, name in nodes if not name and role not in ("RootWebArea",)], [])
        self.assertIn(("grid", "stock"), nodes)
        counts = "[sheet.getAttribute('aria-rowcount'), sheet.getAttribute('aria-activedescendant'), sheet.querySelectorAll('[role=gridcell]').length > 0]"
        self.assertEqual(self.page.run(counts), ["4", "here", True])
        self.assertIn("Saving changes 2 rows of tracks", self.page.run("$('told').textContent"))

    def test_a_narrow_page_does_not_scroll_sideways(self):
        self.page.size(320, 640)
        self.open("stock")
        self.put(1, 1, "4")
        self.settled()
        outside = "[...document.querySelectorAll('#bar button')].filter((it) => it.getBoundingClientRect().right > innerWidth).length"
        self.assertEqual(self.page.run(f"[document.documentElement.scrollWidth, {outside}]"), [320, 0])
        self.page.click("#menu")
        self.assertTrue(self.page.run("$('names').offsetHeight > 0"))

    def test_only_rows_and_columns_in_sight_are_drawn(self):
        names = [f"c{it:02}" for it in range(39)]
        self.editor.ask("define", text=f"table wide (id int, {', '.join(f'{it} text' for it in names)}) with id -> {' '.join(names)}")
        self.editor.edit(self.editor.read("wide"), [], [[str(row), *(f"{it} {row}" for it in names)] for row in range(3000)])
        self.open("wide")
        self.page.wait("shown.length === 3000")
        self.assertLess(self.page.run("sheet.querySelectorAll('td').length"), 700)
        self.page.run("sheet.focus()")
        self.page.key("End", CONTROL)
        self.page.wait("$('here')?.textContent === 'c38 2999' || $('here')?.textContent.startsWith('c38')")
        box = self.page.run("(() => { const [cell, box] = [$('here').getBoundingClientRect(), sheet.getBoundingClientRect()]; return cell.right <= box.right + 1 && cell.bottom <= box.bottom + 1; })()")
        self.assertTrue(box)
        self.assertLess(self.page.run("sheet.querySelectorAll('td').length"), 700)

    def test_filters_and_sorting(self):
        self.open("albums")
        self.page.run("document.querySelector('input[aria-label=\"filter quantity\"]').focus()")
        self.page.type(">= 4")
        self.page.wait("shown.length === 3")
        self.page.click("#sheet th:nth-child(3) button")
        self.assertEqual(self.page.run("shown.map((row) => row.now[1])"), ["4", "5", "6"])
        self.page.click("#sheet th:nth-child(3) button")
        self.assertEqual(self.page.run("shown.map((row) => row.now[1])"), ["6", "5", "4"])

    def test_a_paste_of_a_thousand_rows_is_one_step(self):
        self.open("albums")
        self.paste("quantity\talbum\n" + "".join(f'{it}\t"a ""{it}""\nb"\n' for it in range(1000)))
        self.settled()
        self.assertIn("albums 1,000 rows", self.below())
        self.assertEqual(self.edited()[0], ['a "0"\nb', "0"])
        self.page.run("sheet.focus()")
        self.page.key("z", CONTROL)
        self.page.wait("!editedRows().length")

    def test_numbers_of_64_bits_stay_whole(self):
        self.open("albums")
        self.put(0, 1, str(2**62 + 1))
        self.settled()
        self.save()
        self.assertIn(str(2**62 + 1), [quantity for _, quantity in self.editor.read("albums")["rows"]])

    def test_odd_texts_are_written_out_and_stay_as_they_are(self):
        self.editor.ask("define", text="table odd (name text)")
        self.editor.edit(self.editor.read("odd"), [], [[it] for it in ODD_TEXTS])
        self.open("odd")
        cells = self.page.run("[...sheet.querySelectorAll('td[data-at]')].map((cell) => cell.textContent)")
        for text in ("⟨001B⟩[31mred", "abc⟨202E⟩def", "one↵two↵three", "⟨10FFFF⟩", "␣␣two␣␣", "<b>bold</b>", "⟨2028⟩"):
            self.assertIn(text, cells)
        # A text that is opened and closed is no edit, whatever a field of the browser makes of its ends of lines.
        for row in range(len(ODD_TEXTS)):
            self.page.run(f"state.here = [{row}, 0], openCell()")
            self.page.key("Enter")
        self.assertEqual(self.edited(), [])

    def test_a_program_that_is_killed_loses_no_edit(self):
        self.open("albums")
        self.put(0, 1, "9")
        self.settled()
        self.editor.kill_program()
        self.page.key("s", CONTROL)
        self.page.wait("state.stale")
        self.page.click("#again")
        self.page.wait("!state.stale && state.preview")
        self.save()

    def test_a_definition_that_goes_wrong_is_marked(self):
        self.open("stock")
        self.page.run("$('defining').open = true, $('text').value = 'view few = select from stock wher quantity < 5'")
        self.page.click("#define")
        self.page.wait("$('fault').textContent")
        self.assertEqual(self.page.run("$('text').value.slice($('text').selectionStart)"), "wher quantity < 5")
        self.page.run("$('text').value = 'view dear = select from albums where quantity > 4'")
        self.page.click("#define")
        self.page.wait("state.view === 'dear'")

    def test_a_proposal_is_reviewed(self):
        self.open("stock")
        self.put(1, 1, "4")
        self.settled()
        self.page.click("#propose")
        self.page.wait("state.file")
        proposal = self.page.run("state.file")
        self.page.click("#discard")
        self.page.wait("!editedRows().length")
        self.editor.edit(self.editor.read("tracks"), [], [["Lullaby", "1989", "3", "Wish"]], window="other")
        drop = "(() => { const data = new DataTransfer(); data.items.add(new File([%s], 'a.proposal')); document.dispatchEvent(new DragEvent('drop', { dataTransfer: data, cancelable: true })); })()"
        self.page.run(drop % json.dumps(proposal * 2))
        self.page.wait("review && state.preview")
        for text in ("Proposal 1 of 2: an edit of stock", "1 row below is marked", "not in the proposal"):
            self.assertIn(text, self.below())
        self.page.run("sheet.focus()")
        self.page.key("s", CONTROL)
        self.page.wait("review && review.at === 1 && $('below').innerText.includes('Nothing is left to do')")
        self.page.click("#discard")
        self.page.wait("!review && state.said.startsWith('The review')")
        self.assertIn("1 of 2 changes accepted", self.below())
        self.assertIn(["Lullaby", "1989", "4", "Wish"], self.editor.read("tracks")["rows"])


@wants("chromium")
class Shop(OnPage):
    """A shop of four tables, edited through a selection of a chain of joins."""

    definitions, rows = shops.DEFINITIONS, {table: [cells(row) for row in rows] for table, rows in shops.ROWS.items()}

    def setUp(self):
        super().setUp()
        self.page.size(1700, 900)
        self.open("open_sales")
        self.addCleanup(self.page.run, "sessionStorage.clear()")

    def type_here(self, text):
        """Types in the cell at hand, and goes to the next one."""
        self.page.until("editing", lambda: self.page.key("F2"))
        self.page.type(text)
        self.page.key("Tab")

    def changed(self):
        """The tables that the preview changes, each with its number of rows."""
        self.settled()
        return self.page.run("state.preview?.map(({ table, rows }) => [table, rows])")

    def marks(self):
        return self.page.run("state.marks.map(({ text }) => text)")

    def table(self, name):
        return self.editor.read(name)["rows"]

    def test_rows_and_columns_stand_in_the_order_of_key_and_definition(self):
        self.assertEqual(self.page.run("shown.map((row) => row.now)"), [cells(row) for row in shops.OPEN])
        self.assertEqual(self.page.run("state.columns.map(({ name }) => name)"), shops.OPEN_COLUMNS)
        about = self.page.run("$('about').innerText")
        self.assertIn("customer_id determines name and zip.", about)
        self.assertIn("Joins lines with orders by order_id, orders with customers by customer_id, lines with products by product_id.", about)

    def test_a_line_is_added_by_three_typed_cells(self):
        self.page.click("#add")
        self.page.wait("editing")
        self.type_here("7")
        self.page.wait("document.querySelector('tr.asks')")
        self.assertIn("type order_id and product_id", self.below())
        self.type_here("101")
        self.type_here("3")
        self.assertEqual(self.changed(), [["lines", 1]])
        self.assertEqual(self.edited(), [["7", "101", "3", None, "3", "2026-11-05", "open", "Cem Aydin", "20095", "Hamburg", "oak tray", "4200"]])
        self.save()
        self.assertEqual(self.table("lines")[-1], ["7", "101", "3", None])
        self.assertEqual(self.table("products"), self.rows["products"])

    def test_a_line_moves_to_another_order(self):
        self.put(2, 1, "100")
        self.assertEqual((self.changed(), self.marks()), ([["lines", 1]], []))
        self.assertEqual(self.edited(), [["3", "100", "2", None, "1", "2026-11-02", "open", "Ada Vogel", "10115", "Berlin", "teapot", "2750"]])
        self.save()
        self.assertEqual(self.table("lines")[2], ["3", "100", "2", None])
        self.assertEqual(self.table("customers"), self.rows["customers"])

    def test_a_product_is_pointed_to_anew_and_its_name_follows(self):
        self.put(3, 2, "3")
        self.assertEqual((self.changed(), self.marks()), ([["lines", 1]], []))
        self.assertEqual(self.edited()[0][10:], ["oak tray", "4200"])
        # One step back takes the key and what it brought.
        self.page.key("z", CONTROL)
        self.page.wait("!editedRows().length")
        # A key that no row has asks for what the old one brought.
        self.put(3, 2, "9")
        self.page.wait("document.querySelector('tr.asks')")
        self.assertEqual(self.edited()[0][10:], [None, None])
        self.assertIn("type product and price", self.below())

    def test_an_overwrite_of_a_hidden_product_is_marked_and_stopped(self):
        self.put(3, 2, "3")
        self.settled()
        self.put(3, 10, "ash tray")
        mark = "changes id 3 of products, which open_sales hides, for everyone: 1 row of lines shows it"
        self.assertEqual((self.changed(), self.marks()), ([["lines", 1], ["products", 1]], [mark]))
        self.assertIn(f"row 4: {mark}", self.below())
        self.assertEqual(self.page.run("[...document.querySelectorAll('tr.reaches td.marked')].map((it) => it.innerText)"), ["ash tray"])
        switch = "#tables label:nth-child(4) input"
        self.page.click(switch)
        self.page.wait("state.refusal")
        self.assertEqual(self.below().split("\n"), ["Stopped: the edit would change products, which is switched off above", f"row 4: {mark}"])
        self.page.key("s", CONTROL)
        self.assertEqual(self.table("products"), self.rows["products"])
        # The server stops it too, and this window remembers the switch.
        old, new = cells(shops.OPEN[3]), [*cells(shops.OPEN[3])[:10], "ash tray", "650"]
        reply = self.editor.edit(self.editor.read("open_sales"), [old], [new], only=["lines"])
        self.assertEqual((reply["ok"], reply["error"]), (False, 110))
        self.assertIn("this changes id 4 of products for everyone", reply["text"])
        self.open("open_sales")
        self.assertFalse(self.page.run(f"document.querySelector('{switch}').checked"))
        self.put(3, 10, "ash tray")
        self.page.wait("state.refusal")
        self.page.click(switch)
        self.page.wait("state.preview")
        self.save()
        self.assertIn(["4", "ash tray", "650", "90"], self.table("products"))

    def test_a_save_waits_until_its_marks_were_seen(self):
        self.page.run("setCell(shown[1], 11, '2800'), save(), null")
        self.page.wait("state.preview && !busy")
        self.assertEqual(self.page.run("editedRows().length"), 2)
        self.assertEqual(self.marks(), ["changes id 2 of products for everyone: 2 rows of lines show it"])
        self.save()
        self.assertIn(["2", "teapot", "2800", "7"], self.table("products"))

    def test_refusals_show_the_cells_that_differ(self):
        self.paste("\t".join(["8", "100", "2", "null", "1", "2026-11-02", "open", "Ada Vogel", "10115", "Berlin", "coffee pot", "2750"]))
        self.page.wait("document.querySelector('.fault')")
        self.assertIn("Refused: product_id determines product, and these rows differ in it", self.below())
        lines = "[...document.querySelectorAll('.fault tr')].map((row) => [...row.cells].map((it) => it.innerText))"
        self.assertEqual(self.page.run(lines), [["", "product_id", "product"], ["row 2", "2", "teapot"], ["row 3", "2", "teapot"], ["row 5, edited", "2", "coffee pot"]])
        self.assertEqual(self.page.run("[...document.querySelectorAll('tr.bad td.marked')].map((it) => it.innerText)"), ["teapot", "teapot", "coffee pot"])
        self.page.run("sheet.focus()")
        self.page.key("z", CONTROL)
        self.page.wait("!editedRows().length")
        self.put(0, 1, "102")
        self.page.wait("document.querySelector('.fault')")
        self.assertIn("Refused: open_sales shows only rows where status = 'open', and this one has status \"shipped\"", self.below())
        self.assertEqual(self.page.run("[...document.querySelectorAll('tr.bad td.marked')].map((it) => it.innerText)"), ["shipped"])

    def test_edits_are_completed_anew_over_rows_that_others_changed(self):
        self.put(3, 2, "3")
        self.settled()
        self.editor.edit(self.editor.read("products"), [["3", "oak tray", "4200", "2"]], [["3", "oak tray", "4400", "2"]], window="other")
        self.page.run("look()")
        self.page.wait("state.stale")
        self.page.click("#again")
        self.page.wait("!state.stale && state.preview")
        self.assertEqual((self.edited()[0][10:], self.marks()), (["oak tray", "4400"], []))

    def test_a_join_by_a_column_that_both_sides_have_by_chance(self):
        self.editor.ask("define", text="table people (id int, age int) with id -> age")
        self.page.run("$('defining').open = true, $('text').value = 'view odd = join_dl products with people'")
        self.page.click("#define")
        self.page.wait("state.view === 'odd' && state.said")
        self.assertIn("products and people are joined by id, which both have", self.below())
        self.assertIn("(rename id to people_id from people)", self.below())

    def drop(self, name, data):
        """Drops a file on the page."""
        script = """(() => {
            const data = new DataTransfer();
            data.items.add(new File([new Uint8Array(%s)], %s));
            document.dispatchEvent(new DragEvent('drop', { dataTransfer: data, cancelable: true }));
        })()"""
        self.page.run(script % (json.dumps(list(data)), json.dumps(name)))

    def test_a_file_is_imported_and_exported(self):
        self.open("lines")
        text = self.editor.ask("export_csv", view="lines")["csv"]
        self.assertEqual(text.splitlines()[:3], ["line_id,order_id,product_id,note", "1,100,1,null", "2,100,2,as a gift"])
        # A file of a German Excel, with another name, empty fields that may be null, a changed row, a new one, and one that is missing.
        sheet = "Line ID;order_id;product_id;note\r\n1;100;1;\r\n2;100;2;für Ada\r\n3;101;2;\r\n4;101;4;\r\n5;102;1;\r\n7;101;1;red\r\n"
        self.drop("lines.csv", sheet.encode("latin-1"))
        self.page.wait("state.refusal?.choices")
        self.page.run("look()")
        self.assertIn("lines.csv is not imported yet: note is empty in 4 rows, and may be null", self.below())
        self.page.click("#below button")
        self.page.wait("state.said && state.preview")
        self.assertEqual(self.edited(), [["2", "100", "2", "für Ada"], None, ["7", "101", "1", "red"]])
        for told in ("lines.csv deletes 1 row, changes 1 row and adds 1 row.", "most likely in Latin-1", "Its columns stand between semicolons.", "'Line ID' is taken as line_id.", "Keep the 1 row that the file lacks"):
            self.assertIn(told, self.below())
        self.page.click("#below .notice button")
        self.page.wait("state.preview")
        self.save()
        self.assertEqual(self.table("lines"), [["1", "100", "1", None], ["2", "100", "2", "für Ada"], *self.rows["lines"][2:], ["7", "101", "1", "red"]])

    def test_a_file_that_cannot_be_imported(self):
        for text, told in (("line_id,order_id\n1,2\n", "it lacks product_id and note"), ("line_id,order_id,product_id,note\n1,x,1,null\n", "line 2: order_id wants a whole number"),
                           ("", "it is empty")):
            reply = self.editor.ask("import_csv", view="lines", data=base64.b64encode(text.encode()).decode(), null=None)
            self.assertFalse(reply["ok"])
            self.assertIn(told, reply["text"])
            self.assertNotIn("--", reply["text"])

    def test_what_a_person_may_not_do_is_not_shown(self):
        hidden = "['add', 'save', 'undo', 'discard', 'propose', 'defining', 'tables'].filter((id) => $(id).hidden)"
        given = "rights = %s, definitions.forEach((it) => { it.rights = %s; }), drawNames(), drawHead(), draw()"
        for rights, of_view, found in (([], ["read"], ["add", "save", "undo", "discard", "propose", "defining", "tables"]), ([], ["read", "preview"], ["save", "undo", "defining"]),
                                       (["undo", "define"], ["read", "preview", "edit"], [])):
            self.page.run(given % (json.dumps(rights), json.dumps(of_view)))
            self.assertEqual(self.page.run(hidden), found)

    def test_a_page_over_another_transport(self):
        replies = {
            "list": {"ok": True, "definitions": [{"name": "far", "kind": "table", "text": "", "rights": ["read", "edit", "preview"]}], "rights": []},
            "read": {"ok": True, "columns": [{"name": "id", "kind": "int"}], "key": ["id"], "rows": [["5"]], "version": 1, "session": "s", "dependencies": [],
                     "predicate": [], "tables": ["far"], "joins": [], "undo": ""},
        }
        script = """
            window.asked = [];
            const answers = %s;
            window.transport = {
              ask: async (what) => { window.asked.push(what); return answers[what] || { ok: false, error: 0, text: "gone", rows: [] }; },
              listen(heard) { window.hear = heard; },
            };"""
        made = self.page.call("Page.addScriptToEvaluateOnNewDocument", source=script % json.dumps(replies))
        self.addCleanup(lambda: self.page.call("Page.removeScriptToEvaluateOnNewDocument", identifier=made["identifier"]))
        self.page.open(f"{self.editor.address}#far")
        self.page.wait("state.view === 'far' && shown.length === 1")
        self.page.run("hear()")
        self.page.wait("state.refusal?.text === 'gone'")
        self.assertEqual(self.page.run("[window.asked.filter((it) => it !== 'shown_by'), $('save').hidden, $('undo').hidden, $('defining').hidden]"), [["list", "read", "preview"], False, True, True])
        self.assertEqual(self.page.run("performance.getEntriesByType('resource').filter((it) => it.initiatorType === 'fetch').length"), 0)


if __name__ == "__main__":
    unittest.main()
