"""What web clients ask of the hub beside edits: heads, pages, filters, lists of ETags, and what is told of a wrong request."""
import http.client
import json
import re
import unittest

from hubs import HubAt
from packages import wants

ALL = ["*=read,preview,edit", "undo"]
PAIRS = [{"do": "define", "text": "table pairs (b int, a text, v int null) with b a -> v"},
         {"do": "put", "view": "pairs", "rows": [{"a": f"x{it % 7}", "b": it // 7, "v": it % 3 or None} for it in range(70)]},
         {"do": "define", "text": "table odd (limit int, after text) with limit -> after"},
         {"do": "put", "view": "odd", "rows": [{"limit": 1, "after": "noon"}, {"limit": 2, "after": "tea"}]}]


@wants("python3-aiohttp")
class Web(unittest.TestCase):
    @classmethod
    def setUpClass(cls):
        cls.hub = HubAt({"all": ALL}, PAIRS)

    @classmethod
    def tearDownClass(cls):
        cls.hub.__exit__()

    def get(self, path, **headers):
        return self.hub.ask("all", "GET", path, **headers)

    def test_heads(self):
        for path in ("/views/pairs", "/views/pairs?v=1", "/views", "/health", "/", "/openapi.json", "/definitions"):
            found = [self.hub.ask("all", method, path) for method in ("GET", "HEAD")]
            for status, headers, _ in found:
                headers.pop("Date")
            (status, headers, _), (other, heads, body) = found
            self.assertEqual((status, headers, body), (other, heads, ""), path)
        status, headers, _ = self.hub.ask("all", "HEAD", "/events")
        self.assertEqual((status, headers["Allow"]), (405, "GET"))
        self.assertEqual(self.hub.ask(None, "HEAD", "/views")[0], 401)

    def test_pages(self):
        whole, found, path, pages = self.get("/views/pairs")[2], [], "/views/pairs?limit=9", 0
        while path:
            status, headers, rows = self.get(path)
            self.assertEqual(status, 200, rows)
            found, pages = found + rows, pages + 1
            path = re.fullmatch('<(.*)>; rel="next"', headers.get("Link", "<>; rel=\"next\""))[1]
        # The key is b and a, in the order of the definition.
        self.assertEqual((found, pages), (sorted(whole, key=lambda row: (row["b"], row["a"])), 8))
        self.assertEqual(next(it for it in self.get("/views")[2]["views"] if it["name"] == "pairs")["key"], ["b", "a"])
        # A row that comes between two pages stands in its place.
        _, headers, _ = self.get("/views/pairs?limit=9")
        after = re.search("<(.*)>", headers["Link"])[1]
        self.hub.lines("root", [{"do": "edit", "view": "pairs", "remove": found[:9], "add": [{"b": 1, "a": "x2a", "v": 9}]}])
        self.assertEqual(self.get(after)[2][:2], [found[9], {"b": 1, "a": "x2a", "v": 9}])
        self.hub.lines("root", PAIRS[1:2])
        # Pages of filtered rows.
        _, headers, rows = self.get("/views/pairs?a=x1&limit=4")
        self.assertEqual([row["b"] for row in rows], [0, 1, 2, 3])
        self.assertEqual([row["b"] for row in self.get(re.search("<(.*)>", headers["Link"])[1])[2]], [4, 5, 6, 7])
        for query, words in (("limit=0", "a number from 1"), ("limit=x", "a number from 1"), ("after=x", "'after' goes with 'limit'"), ("limit=2&after=zz", "'after' is none"),
                             ("limit=2&after=WzEsMl0", "'after' is none"), ("limit=1&limit=2", "twice"), ("%ff=1", "the query")):
            status, _, told = self.get(f"/views/pairs?{query}")
            self.assertEqual((status, words in told["detail"]), (400, True), told)

    def test_filters(self):
        rows = self.get("/views/pairs")[2]
        for query, wanted in (("a=x3&b=4", {"a": "x3", "b": 4}), ("v=null&a=x3", {"a": "x3", "v": None}), ("b=4&column.a=x3&v=1", {"b": 4, "a": "x3", "v": 1}), ("a=%22x3%22", {"a": '"x3"'})):
            self.assertEqual(self.get(f"/views/pairs?{query}")[2], [row for row in rows if row.items() >= wanted.items()], query)
        # Columns with the names of the other parameters.
        self.assertEqual(self.get("/views/odd?column.limit=2")[2], [{"limit": 2, "after": "tea"}])
        self.assertEqual(self.get("/views/odd?column.after=noon&limit=5")[2], [{"limit": 1, "after": "noon"}])
        for query, status, name, words in (("c=1", 422, "UnknownColumn", "'c'"), ("b=1&c=1", 422, "UnknownColumn", "'c'"), ("b=x&a=x3", 422, "KindClash", "'b'"), ("a=x3&b=x", 422, "KindClash", "'b'"), ("b=null&v=1", 422, "KindClash", "'b'")):
            found, _, told = self.get(f"/views/pairs?{query}")
            self.assertEqual((found, told["name"], words in told["detail"]), (status, name, True), told)
        self.assertEqual(self.get("/views/pairs?a=x3", Accept="text/csv")[0], 400)

    def test_lists_of_etags(self):
        old = self.get("/views/pairs")[1]["ETag"]
        row = {"a": "y", "b": 99, "v": 1}
        edit = lambda tag, **body: self.hub.ask("all", "POST", "/views/pairs/edit", body, If_Match=tag)
        status, headers, _ = edit(old, add=[row])
        new = headers["ETag"]
        self.assertEqual((status, self.get("/views/pairs")[1]["ETag"]), (200, new))
        for tag, status in ((old, 412), (f'"x", {old}', 412), (f'{old}, "0123456789ab.999999"', 412), (f"{old},{new}", 200), (f'W/{new}', 412), ("x", 412), (f"{new} {old}", 200), ("*", 200)):
            self.assertEqual(edit(tag)[0], status, tag)
        for tag, status in ((new, 304), (f"{old}, {new}", 304), (f"W/{new}", 304), (old, 200), ("*", 200)):
            self.assertEqual(self.get("/views/pairs", If_None_Match=tag)[0], status, tag)
        edit("*", remove=[row])

    def test_what_is_wrong_is_named(self):
        for method, path, body, headers, status, words in (
            ("GET", "/nowhere", None, {}, 404, "/nowhere"), ("DELETE", "/views", None, {}, 405, "GET, HEAD, and not DELETE"), ("GET", "/views/none", None, {}, 404, "'none'"),
            ("POST", "/views/pairs/edit", {"rows": []}, {}, 400, "'rows'"), ("POST", "/views/pairs/edit", '{"add":[1}', {}, 400, "line 1 column"), ("POST", "/views/pairs/edit", "{}", {"Content_Type": "text/plain"}, 415, "text/plain"),
            ("POST", "/batch", {}, {}, 400, "'edits'"), ("GET", "/views", None, {"Host": "other.example"}, 421, "other.example"), ("GET", "/views/pairs", None, {"Accept": "image/png"}, 406, "image/png"),
            ("POST", "/views/pairs/edit", {"add": [{"a": "x", "b": "y", "v": 1}]}, {}, 422, "y"), ("PUT", "/views/pairs", b"a,b,v\n\xff", {"Content_Type": "text/csv", "If_Match": "*"}, 400, "byte 6"),
            ("POST", "/definitions", "table t (a float)", {"Content_Type": "text/plain"}, 403, "'define'"), ("GET", "/journal", None, {}, 403, "'admin'"), ("POST", "/undo", {"id": 1}, {}, 400, "'id'"),
        ):
            if isinstance(body, (str, bytes)):
                headers.setdefault("Content_Type", "application/json")
            found, told_headers, told = self.hub.ask("all", method, path, body, **headers)
            self.assertEqual((found, words in told["detail"], told_headers["Content-Type"]), (status, True, "application/problem+json"), (path, told))
        status, _, told = self.hub.ask("root", "GET", "/journal?who=ann")
        self.assertEqual((status, "person" in told["detail"]), (400, True))

    def test_connections(self):
        """A connection stays for the next request, and is closed if that is asked for."""
        connection = http.client.HTTPConnection("127.0.0.1", self.hub.port)
        for _ in range(3):
            self.assertEqual(self.hub.ask("all", "GET", "/views/pairs?limit=1", connection=connection)[0], 200)
        connection.request("GET", "/health", headers={"Connection": "close"})
        answer = connection.getresponse()
        self.assertEqual((answer.headers["Connection"], json.loads(answer.read())), ("close", {"ok": True}))
        found, closed = self.hub.raw(f"GET /health HTTP/1.0\r\nHost: 127.0.0.1:{self.hub.port}\r\n\r\n".encode())
        self.assertTrue(closed and found.startswith(b"HTTP/1.1 200"), found)


if __name__ == "__main__":
    unittest.main()
