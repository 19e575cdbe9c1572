"""The mirror in PostgreSQL, over servers that are started for it: after each step both sides hold the same rows."""
import json
import os
import random
import subprocess
import sys
import threading
import unittest

HERE = os.path.dirname(os.path.abspath(__file__))
CLIENTS = os.path.dirname(HERE)
sys.path[:0] = [CLIENTS, HERE]
from cigrelk import TOP
from databases import SERVERS, OverServers, wait_for_store
from packages import wants


@wants("postgresql")
class Mirror(OverServers):
    def runs_the_guide(self):
        with open(f"{TOP}/examples/lessons.requests") as requests, open(f"{TOP}/examples/lessons.replies") as replies:
            self.assertEqual(self.bridge(requests.read().splitlines()), replies.read())
        self.are_same()

    def test_guide_over_one_server(self):
        self.runs_the_guide()

    def test_guide_over_three_servers(self):
        self.servers.link(self.address, SERVERS[1:])
        self.servers.spread(self.address, SERVERS[1:], "tracks", 'track text COLLATE "C" NOT NULL, date bigint NOT NULL, rating bigint NOT NULL, album text COLLATE "C" NOT NULL', "track")
        self.servers.spread(self.address, SERVERS[1:], "albums", 'album text COLLATE "C" NOT NULL, quantity bigint NOT NULL', "album", ", PRIMARY KEY (album)")
        self.runs_the_guide()
        chance = random.Random(1)
        self.bridge({"do": chance.choice(["edit", "edit", "preview"]), "view": "stock", "remove": [], "add": [
            {"album": f"a{one % 20}", "quantity": 3 + one % 20, "rating": one % 5, "track": f"t{one}"}]} for one in range(60))
        self.are_same()
        # rows lie on each server, and what changes there behind the bridge is undone
        for number, name in enumerate(SERVERS[1:]):
            self.assertNotEqual(self.sql("SELECT count(*) FROM albums", self.servers.address(name)), ["0"])
        self.sql("DELETE FROM albums", self.servers.address("s1"))
        self.bridge([])
        self.are_same()
        # a server restarts under an edit
        with Running(self.store, self.address) as bridge:
            bridge.ask({"do": "list"})
            for name in ("s1", "base"):
                added = [{"album": f"{name} {one}", "quantity": 1} for one in range(30)]
                self.restarts_under(name, bridge, {"do": "edit", "view": "albums", "remove": [], "add": added})
        self.are_same()

    def restarts_under(self, name, bridge, request):
        """A server of the database is away while the bridge is asked for a change, and the reply waits for it."""
        self.servers.stop(name, "immediate")
        timer = threading.Timer(0.5, self.servers.start, [name])
        timer.start()
        self.assertTrue(bridge.ask(request)["ok"])
        timer.join()

    def test_odd_texts_and_names(self):
        # words of SQL, odd texts, the ends of the numbers, and a predicate with all its parts
        odd = [{"user": "it's \\ :x \"q\"\n\t ü", "order": -(2**63), "flag": True}, {"user": "b", "order": 2**63 - 1, "flag": False}]
        self.bridge([
            {"do": "define", "text": "table group (user text, order int, flag bool) with user -> order flag"},
            {"do": "define", "text": "view where_ = select from group where (order > -9223372036854775808 or flag = true) and not user in ('it''s', 'c')"},
            {"do": "edit", "view": "group", "remove": [], "add": odd},
            {"do": "edit", "view": "group", "remove": [odd[1]], "add": [{**odd[1], "order": 5}]},
        ])
        self.are_same()
        # names that the bridge or the catalogue uses, and characters that psql does not print
        texts = ["\U0010ffff", "\U000f0000", "\u2028", "\r\n", "\\", "\\'; --", "\ufeff"]
        self.bridge([
            {"do": "define", "text": "table it1 (it text, number int) with it -> number"},
            {"do": "define", "text": "table pg_class (it text)"},
            {"do": "define", "text": "view it2 = join_dl it1 with (select from pg_class where it != '')"},
            {"do": "edit", "view": "it1", "remove": [], "add": [{"it": text, "number": 1} for text in texts]},
            {"do": "edit", "view": "pg_class", "remove": [], "add": [{"it": text} for text in texts]},
        ])
        self.are_same()
        # where nothing differs no row is read
        self.sql("SELECT 'from here'")
        self.bridge([])
        with open(f"{self.servers.room}/base/log", encoding="utf-8", errors="replace") as log:
            said = log.read().rpartition("from here")[2]
        self.assertEqual((said.count("sha256"), said.count('FROM (SELECT "')), (3, 0))
        self.are_same()
        # what else changed the database is undone: rows that went, came, changed, or stand twice
        self.sql("DELETE FROM it1; INSERT INTO public.pg_class SELECT * FROM public.pg_class; INSERT INTO public.pg_class VALUES ('zz'), ('\\'); UPDATE \"group\" SET \"order\" = 1")
        self.bridge([])
        self.are_same()

    def test_columns_that_may_be_null(self):
        with open(f"{TOP}/examples/nulls.requests") as requests, open(f"{TOP}/examples/nulls.replies") as replies:
            self.assertEqual(self.bridge(requests.read().splitlines()), replies.read())
        self.are_same()
        # each comparison over each pair of values, plain and under not; joins by columns that are null; a key that is null
        parts = [f"a {sign} {right}" for sign in ("=", "!=", "<", ">=") for right in ("b", "c", "0")] + ["a in (0, 5)", "a is null", "f = true", "a != b or b is null and not c = 1"]
        views = [f"select from t where {part}" for part in parts] + [f"select from t where not ({part})" for part in parts]
        views += ["join_dl t with u", "drop f determined by (k, null) from (join_dl t with (select from u where not w = 'x'))", "join_dl u with c"]
        definitions = ["table t (k int, a int null, b int null, c int, f bool null) with k -> a b c f", "table u (a int null, b int null, w text null) with a b -> w", "table c (w text null, m int) with w -> m"]
        definitions += [f"view n{number} = {text}" for number, text in enumerate(views)]
        values = [None, 0, 1]
        rows = [{"k": 9 * one + 3 * two + three, "a": values[one], "b": values[two], "c": three, "f": [None, False, True][(one + three) % 3]} for one in range(3) for two in range(3) for three in range(3)]
        others = [{"a": one, "b": two, "w": text} for (one, two), text in zip([(one, two) for one in values for two in values], [None, "", "x", "null", "y", None, "it's", "0", "z"])]
        names = [{"w": text, "m": number} for number, text in enumerate([None, "", "x", "null"])]
        puts = [{"do": "put", "view": view, "rows": found} for view, found in (("t", rows), ("u", others), ("c", names))]
        told = self.bridge([{"do": "define", "text": text} for text in definitions] + puts)
        self.assertNotIn('"ok":false', told)
        self.are_same()
        # rows with nulls that go, come and change, also behind the bridge
        self.bridge([{"do": "edit", "view": "t", "remove": [rows[0], rows[1], rows[20]], "add": [{**rows[1], "a": 1}, {**rows[20], "a": None, "f": None}]},
                     {"do": "edit", "view": "c", "remove": [names[0], names[2]], "add": [{"w": "x", "m": 7}]}, {"do": "edit", "view": "c", "remove": [], "add": [{"w": None, "m": 8}]}])
        self.are_same()
        self.sql("UPDATE t SET a = NULL; UPDATE u SET w = '' WHERE w IS NULL; INSERT INTO c VALUES (NULL, 9)")
        self.bridge([])
        self.are_same()

    def run_examples(self, *names):
        for name in names:
            with open(f"{TOP}/examples/{name}.requests") as requests, open(f"{TOP}/examples/{name}.replies") as replies:
                self.assertEqual(self.bridge(requests.read().splitlines()), replies.read())
            self.are_same()
            os.remove(self.store)
            self.sql("SET client_min_messages = warning; DROP SCHEMA public CASCADE; CREATE SCHEMA public")

    def test_renames_and_joins_by_the_side_from_which_they_delete(self):
        self.run_examples("renames", "join_kinds")

    def test_batches_undo_and_imports(self):
        self.run_examples("batches", "undos", "sheets")

    def test_how_it_ends(self):
        self.bridge([{"do": "define", "text": "table k (a text, b int) with a -> b"}])

        def run(address, lines="", store=self.store):
            return subprocess.run([f"{TOP}/cigrelk", "mirror", store, address, "--wait", "0"], input=lines, capture_output=True, text=True)

        self.assertEqual(run("postgresql://shop:secret@/postgres").returncode, 2)
        for done, status in ((run("postgresql:///nothing?host=/nowhere"), 1), (run(self.address, store="/nowhere/shop.db"), 1)):
            self.assertEqual((done.returncode, done.stdout, "Traceback" in done.stderr), (status, "", False), done.stderr)
        # a key that is too long for the database's index: the store has it, and a table without that index takes it
        chance = random.Random(2)
        row = {"a": "".join(chr(chance.randrange(33, 127)) for _ in range(4096)), "b": 1}
        done = run(self.address, json.dumps({"do": "edit", "view": "k", "remove": [], "add": [row]}))
        self.assertEqual((done.returncode, done.stdout), (1, ""))
        self.sql("ALTER TABLE k DROP CONSTRAINT k_pkey; CREATE INDEX ON k USING hash (a)")
        self.bridge([])
        self.are_same()
        # the database restarts under it: the reply waits
        with Running(self.store, self.address) as bridge:
            bridge.ask({"do": "list"})
            self.restarts_under("base", bridge, {"do": "edit", "view": "k", "remove": [row], "add": []})
            self.assertTrue(bridge.ask({"do": "edit", "view": "k", "remove": [], "add": [{"a": "", "b": 2}]})["ok"])
            bridge.process.kill()
        wait_for_store(self.store)
        self.bridge([])
        self.are_same()


class Running:
    """A bridge that is asked line by line."""

    def __init__(self, store, address):
        words = [f"{TOP}/cigrelk", "mirror", store, address]
        self.process = subprocess.Popen(words, stdin=subprocess.PIPE, stdout=subprocess.PIPE, stderr=subprocess.DEVNULL, text=True)

    def ask(self, request):
        self.process.stdin.write(json.dumps(request) + "\n")
        self.process.stdin.flush()
        return json.loads(self.process.stdout.readline())

    def __enter__(self):
        return self

    def __exit__(self, *_):
        self.process.communicate()


if __name__ == "__main__":
    unittest.main()
