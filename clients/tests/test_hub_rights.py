"""Every request against every right, and what replies tell of what is hidden."""
import itertools
import json
import os
import random
import subprocess
import unittest

from hubs import EXAMPLES, PROGRAM, SHOP, HubAt, some_request
from packages import wants

ROW = {"track": "Trust", "rating": 4, "album": "Wish", "quantity": 5}
OTHER = {**ROW, "rating": 3}
# Each request, what takes it, by the right on `stock` or the power.
REQUESTS = {
    "read": ({"do": "read", "view": "stock"}, {"read"}),
    "find": ({"do": "find", "view": "stock", "column": "track", "value": "Trust"}, {"read"}),
    "export": ({"do": "export", "view": "stock"}, {"read"}),
    "type": ({"do": "type", "view": "stock"}, set()),
    "list": ({"do": "list"}, set()),
    "preview": ({"do": "preview", "view": "stock", "remove": [ROW], "add": [OTHER]}, {"preview"}),
    "edit": ({"do": "edit", "view": "stock", "remove": [], "add": [ROW]}, {"edit"}),
    "put": ({"do": "put", "view": "stock", "rows": []}, {"read", "edit"}),
    "import": ({"do": "import", "view": "stock", "csv": "album,quantity,rating,track\n"}, {"read", "edit"}),
    "batch": ({"do": "batch", "edits": [{"view": "stock", "remove": [], "add": [ROW]}]}, {"edit"}),
    "define": ({"do": "define", "text": "view again = stock"}, {"read", "define"}),
    "undo": ({"do": "undo"}, {"undo"}),
}
HTTP = {
    "read": ("GET", "/views/stock", None, {}), "find": ("GET", "/views/stock?track=Trust", None, {}), "export": ("GET", "/views/stock", None, {"Accept": "text/csv"}),
    "preview": ("POST", "/views/stock/preview", {"remove": [ROW], "add": [OTHER]}, {}), "edit": ("POST", "/views/stock/edit", {"add": [ROW]}, {}),
    "put": ("PUT", "/views/stock", [], {"If_Match": "*"}), "batch": ("POST", "/batch", {"edits": [{"view": "stock", "remove": [], "add": [ROW]}]}, {}),
    "undo": ("POST", "/undo", {}, {}),
}
SETS = [set(it) for count in range(4) for it in itertools.combinations(("read", "preview", "edit"), count)]
POWERS = [set(it) for count in range(3) for it in itertools.combinations(("define", "undo"), count)]
SECRETS = ("tracks", "albums", "Galore", "Disintegration", "date", "1989", "1992", "2018", "join")


def name_of(rights, powers):
    return "u_" + "_".join(sorted(rights | powers))


@wants("python3-aiohttp")
class Rights(unittest.TestCase):
    def test_every_request_against_every_right(self):
        users = {name_of(rights, powers): [f"stock={','.join(rights)}", *powers] for rights in SETS for powers in POWERS}
        with HubAt(users) as hub:
            for rights, powers in itertools.product(SETS, POWERS):
                for do, (request, takes) in REQUESTS.items():
                    reply, = hub.lines(name_of(rights, powers), [request])
                    with self.subTest(do=do, rights=rights, powers=powers):
                        missing = takes - rights - powers
                        if not rights and do not in ("list", "define", "undo"):
                            self.assertEqual(reply.get("error"), 22)
                        elif missing and do == "define" and "define" in powers:
                            self.assertEqual(reply.get("error"), 100 if rights else 22)
                        elif missing:
                            self.assertEqual((reply.get("error"), reply.get("right") in missing), (100, True), reply)
                        elif do == "undo":
                            # (there is something only where this user has changed something)
                            self.assertIn(reply.get("error"), (None, 44, 100, 105))
                        elif do == "define":
                            self.assertIn(reply.get("error"), (None, 21))
                        else:
                            self.assertTrue(reply["ok"], reply)
                    if do in ("put", "import") and reply["ok"]:
                        hub.lines("root", SHOP[3:])
                    if do in HTTP:
                        method, path, body, headers = HTTP[do]
                        status, _, told = hub.ask(name_of(rights, powers), method, path, body, **headers)
                        with self.subTest(http=do, rights=rights, powers=powers):
                            if not rights and do != "undo":
                                self.assertEqual(status, 404, told)
                            elif missing:
                                self.assertEqual(status, 403, told)
                            else:
                                self.assertIn(status, (200, 403, 409) if do == "undo" else (200,), told)
                        if do == "put" and status == 200:
                            hub.lines("root", SHOP[3:])

    def test_nobody(self):
        with HubAt() as hub:
            for method, path in (("GET", "/views"), ("GET", "/views/stock"), ("POST", "/batch"), ("POST", "/lines"), ("GET", "/events"), ("GET", "/journal"), ("POST", "/undo"), ("GET", "/openapi.json"), ("POST", "/page/list")):
                for token in (None, "x", "root"):
                    status, headers, told = hub.ask(token and f"{token}!", method, path, "" if method == "POST" else None)
                    self.assertEqual((status, told["error"], headers["WWW-Authenticate"]), (401, 101, "Bearer"))

    def test_an_admin_is_told_what_the_program_tells(self):
        for name in sorted(os.listdir(EXAMPLES)):
            if not name.endswith(".requests") or name in ("undos.requests",):
                continue
            with open(f"{EXAMPLES}/{name}", "rb") as file:
                lines = file.read().split(b"\n")[:-1]
            lines = [line for line in lines if b'"undo"' not in line]
            told = subprocess.run([PROGRAM], input=b"".join(line + b"\n" for line in lines), capture_output=True).stdout.split(b"\n")[:-1]
            with HubAt(requests=None) as hub:
                found = hub.raw_lines("root", lines)
            session = {json.loads(line)["session"] for line in found if b'"session"' in line}.pop()
            found = [line.replace(b'"session":"%b",' % session.encode(), b"") for line in found]
            for line, one, other in zip(lines, told, found, strict=True):
                with self.subTest(name=name, line=line[:300]):
                    self.assertEqual(one, other)


@wants("python3-aiohttp")
class Windows(unittest.TestCase):
    ASKED = [
        {"do": "list"}, {"do": "type", "view": "stock"}, {"do": "type", "view": "tracks"}, {"do": "read", "view": "stock"},
        {"do": "read", "view": "tracks"}, {"do": "find", "view": "stock", "column": "date", "value": 1}, {"do": "export", "view": "stock"},
        {"do": "preview", "view": "stock", "remove": [ROW], "add": [OTHER]},
        {"do": "edit", "view": "stock", "remove": [ROW], "add": [OTHER]},
        {"do": "edit", "view": "stock", "remove": [], "add": [{**ROW, "quantity": 9, "album": "Wish"}]},
        {"do": "edit", "view": "stock", "remove": [], "add": [{**ROW, "quantity": 1}]},
        {"do": "edit", "view": "stock", "remove": [], "add": [{"album": "Show", "track": "Lullaby", "rating": 5, "quantity": 3}, {"album": "Show", "track": "Trust", "rating": 3, "quantity": 3}]},
        {"do": "put", "view": "stock", "rows": [OTHER], "on": 0}, {"do": "put", "view": "stock", "rows": [OTHER]},
        {"do": "import", "view": "stock", "csv": "album,quantity,rating,track\nWish,5,3,Trust\nPush,7,1,Trust\n"},
        {"do": "batch", "edits": [{"view": "stock", "remove": [], "add": [OTHER]}, {"view": "tracks", "remove": [], "add": []}]},
        {"do": "batch", "edits": [{"view": "stock", "remove": [OTHER], "add": []}, {"view": "stock", "remove": [], "add": [ROW, {**ROW, "album": "Push", "quantity": 8}]}]},
        {"do": "undo"}, {"do": "undo"}, {"do": "define", "text": "view v = tracks"}, {"do": "define", "text": "view w = stock"}, {"do": "define", "text": "view v = select frm stock"},
        {"do": "read", "view": "w"}, {"do": "edit", "view": "w", "remove": [ROW], "add": []}, {"do": "list"},
    ]
    def test_no_reply_tells_of_what_is_hidden(self):
        with HubAt({"ann": ["stock=read,preview,edit", "define", "undo"]}) as hub:
            for request in self.ASKED:
                line, = hub.raw_lines("ann", [json.dumps(request).encode()])
                asked = json.dumps(request)
                for secret in SECRETS:
                    with self.subTest(request=request, secret=secret):
                        self.assertTrue(secret.encode() not in line or secret in asked, line)
            for path in ("/views", "/definitions", "/openapi.json", "/views/stock"):
                _, _, told = hub.ask("ann", "GET", path)
                for secret in SECRETS:
                    self.assertNotIn(f'"{secret}"', json.dumps(told))

    def test_a_window_tells_its_changes_rightly(self):
        """What replies tell of a window is how its rows differ before and after."""
        chance = random.Random(3)
        with HubAt({"ann": ["stock=read,preview,edit", "undo"]}) as hub:
            read = lambda: {json.dumps(row, sort_keys=True) for row in hub.lines("root", [{"do": "read", "view": "stock"}])[0]["rows"]}
            for number in range(150):
                request, before = some_request(chance), read()
                reply, = hub.lines("ann", [request])
                after = read()
                if not reply["ok"] or request["do"] in ("read", "find", "preview"):
                    self.assertEqual(before, after)
                    continue
                told = {side: {json.dumps(row, sort_keys=True) for entry in reply["changed"] for row in entry[side]} for side in ("remove", "add")}
                self.assertEqual((before - after, after - before), (told["remove"], told["add"]), request)
                if number % 30 == 0:
                    hub.lines("root", SHOP[3:])

    def test_a_box_for_putting_in_shows_no_row(self):
        with HubAt({"box": ["stock=edit,preview"]}) as hub:
            clash = {**ROW, "quantity": 8, "track": "New"}
            reply, = hub.lines("box", [{"do": "edit", "view": "stock", "remove": [], "add": [clash]}])
            self.assertEqual((reply["error"], reply["rows"]), (43, [clash]))
            status, _, told = hub.ask("box", "POST", "/views/stock/edit", {"add": [clash]})
            self.assertEqual((status, told["rows"]), (409, [clash]))

    def test_definitions_give_no_right_that_was_not_there(self):
        users = {"ann": ["stock=read", "albums=read,edit", "define"], "all": ["*=read", "define"]}
        with HubAt(users) as hub:
            for text, error in (("view a = tracks", 22), ("view a = join_dl stock with tracks", 22), ("view a = select from (drop date determined by (track, 1) from tracks) where true", 22),
                                ("view b = stock", None), ("view c = albums", None), ("table t (a int) with a -> a", None), ("view d = \u00e4", 20), ("table x (a int", 20), ("view stock = albums", 21)):
                reply, = hub.lines("ann", [{"do": "define", "text": text}])
                self.assertEqual(reply.get("error"), error, (text, reply))
            rights = {it["name"]: it["rights"] for it in hub.ask("ann", "GET", "/views")[2]["views"]}
            self.assertEqual(rights, {"albums": ["edit", "read"], "stock": ["read"], "b": ["read"], "c": ["edit", "read"], "t": ["edit", "preview", "read"]})
            kinds = {it["name"]: it["kind"] for it in hub.ask("all", "GET", "/views")[2]["views"]}
            self.assertEqual(kinds["stock"], "view")
            for name in "abcdefgh":
                self.assertEqual(hub.lines("ann", [{"do": "define", "text": f"table x_{name} (a int"}])[0], {"at": 16, "error": 20, "ok": False})

    def test_rights_are_taken_away(self):
        with HubAt({"ann": ["stock=read,edit"]}) as hub:
            self.assertEqual(hub.ask("ann", "GET", "/views/stock")[0], 200)
            hub.grant("ann", "stock=")
            hub.reload()
            self.assertEqual(hub.ask("ann", "GET", "/views/stock")[0], 404)


if __name__ == "__main__":
    unittest.main()
