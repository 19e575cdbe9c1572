"""Edits that share a call of the disk are answered as single lines: what the hub made of many at once is made again, line by line, by
a program of its own, and the replies are compared."""
import asyncio
import json
import os
import random
import subprocess
import tempfile
import unittest

from hubs import MEMORY, PROGRAM, SHOP
from cigrelk.hub import sharing
from cigrelk.hub.desk import Desk
from cigrelk.hub.journal import Journal
from cigrelk.hub.rights import Users

TEXTS = ("a", "b", "c")
# Definitions, and for each name the columns with the values that they take. Few values, so that edits meet.
SCHEMAS = {
    "a join under a drop and a selection": (
        [it["text"] for it in SHOP[:3]],
        {"tracks": {"track": TEXTS, "date": range(2), "rating": range(3), "album": TEXTS}, "albums": {"album": TEXTS, "quantity": range(1, 6)},
         "stock": {"track": TEXTS, "rating": range(3), "album": TEXTS, "quantity": range(3, 6)}}),
    "dependencies in a chain": (
        ["table t (k int, a int, b int, c int) with k -> a b c, a -> b, b -> c", "view low = select from t where c < 2",
         "view short = drop c determined by (b, 1) from low", "view other = rename a to x from (select from t where k > 2)"],
        {name: {"k": range(9), "a": range(4), "b": range(4), "c": range(3)} for name in ("t", "low")}
        | {"short": {"k": range(9), "a": range(4), "b": range(4)}, "other": {"k": range(9), "x": range(4), "b": range(4), "c": range(3)}}),
    "no dependency": (
        ["table pairs (a int, b int)", "view even = select from pairs where a != 1", "view same = even"],
        {name: {"a": range(6), "b": range(6)} for name in ("pairs", "even", "same")}),
    "three tables in a chain": (
        ["table lines (line int, product text, count int) with line -> product count", "table products (product text, kind text, price int) with product -> kind price",
         "table kinds (kind text, tax int) with kind -> tax", "view priced = join_dl lines with products", "view taxed = join_dl priced with kinds",
         "view high = select from taxed where tax > 0 and count > 0", "view brief = drop price determined by (product, 1) from high",
         "view plain = drop count determined by (line, 1) from (select from lines where product != 'c')"],
        {"lines": {"line": range(8), "product": TEXTS, "count": range(3)}, "products": {"product": TEXTS, "kind": TEXTS[:2], "price": range(2)},
         "kinds": {"kind": TEXTS[:2], "tax": range(2)}, "priced": {"line": range(8), "product": TEXTS, "count": range(3), "kind": TEXTS[:2], "price": range(2)},
         **{name: {"line": range(8), "product": TEXTS, "count": range(1, 3), "kind": TEXTS[:2], "price": range(2), "tax": range(1, 3)} for name in ("taxed", "high")},
         "brief": {"line": range(8), "product": TEXTS, "count": range(1, 3), "kind": TEXTS[:2], "tax": range(1, 3)}, "plain": {"line": range(8), "product": TEXTS}}),
    "joins that delete from the right": (
        ["table s (a int, b int) with a -> b", "table t (b int, c int) with b -> c", "view dr = join_dr s with t", "view both = join_both s with t",
         "view dl = join_dl s with t", "view some = select from dl where c < 2"],
        {"s": {"a": range(9), "b": range(4)}, "t": {"b": range(4), "c": range(3)}, **{name: {"a": range(9), "b": range(4), "c": range(3)} for name in ("dr", "both", "dl", "some")}}),
}


class Requests:
    """Random requests over a schema."""

    def __init__(self, chance, columns):
        self.chance, self.columns, self.rows, self.versions = chance, columns, {name: [] for name in columns}, [0]

    def row(self, name):
        """A row, now and then one that was seen in the view."""
        if self.rows[name] and self.chance.random() < 0.5:
            return self.chance.choice(self.rows[name])
        return {column: self.chance.choice(values) for column, values in self.columns[name].items()}

    def like(self, row, name):
        """A row with another value in one column."""
        column = self.chance.choice(list(row))
        return {**row, column: self.chance.choice(self.columns[name][column])}

    def edit(self, name):
        if self.chance.random() < 0.5:
            row = self.row(name)
            return {"view": name, "remove": [row], "add": [self.like(row, name)]}
        return {"view": name, "remove": [self.row(name) for _ in range(self.chance.choice((0, 0, 1)))],
                "add": [self.row(name) for _ in range(self.chance.choice((0, 1, 1, 2)))]}

    def some(self):
        """Most are edits."""
        name, kind = self.chance.choice(list(self.columns)), self.chance.random()
        on = {"on": max(0, self.chance.choice(self.versions) + self.chance.choice((0, 0, 0, 1)))} if self.chance.random() < 0.15 else {}
        if kind < 0.9:
            return {"do": "edit", **self.edit(name), **on}
        if kind < 0.92:
            return {"do": "batch", "edits": [self.edit(self.chance.choice(list(self.columns))) for _ in range(2)], **on}
        if kind < 0.94:
            return {"do": "put", "view": name, "rows": [self.row(name) for _ in range(3)], **on}
        return {"do": self.chance.choice(("preview", "preview", "edit")), **self.edit(name), **on}


class Sharing(unittest.TestCase):
    def test_replies_are_those_of_single_lines(self):
        for number, (name, (texts, columns)) in enumerate(SCHEMAS.items()):
            for seed in range(2):
                with self.subTest(schema=name, seed=seed):
                    count = asyncio.run(self.compare(texts, columns, 100 * number + seed, 60))
                    self.assertGreater(count, 20, "edits did not share turns")

    async def compare(self, texts, columns, seed, bursts):
        """Has a desk answer bursts of requests, and gives how many edits shared a batch."""
        with tempfile.TemporaryDirectory(dir=MEMORY) as folder:
            users = Users(f"{folder}/users")
            for name in ("root", "one", "two", "three"):
                users.grant(name, ["admin"])
            views = [name for name in columns if f"view {name} " in "".join(texts)]
            users.grant("window", [f"{views[-1]}=read,preview,edit"])
            desk = Desk(users, Journal(f"{folder}/journal"))
            await desk.start([PROGRAM])
            try:
                for text in texts:
                    self.assertTrue(json.loads(await desk.answer(users.users["root"], {"do": "define", "text": text}))["ok"], text)
                replies, shared = await self.bursts(desk, Requests(random.Random(seed), columns), bursts, views[-1])
            finally:
                await desk.engine.close()
                await desk.journal.settled()
            with open(f"{folder}/journal", encoding="utf-8") as file:
                self.replay(list(map(json.loads, file)), replies)
            return shared

    async def bursts(self, desk, requests, bursts, window):
        """The replies by user, in order, and how many edits shared a batch."""
        users, shared, replies = desk.users.users, 0, {name: [] for name in desk.users.users}
        is_batch_made = sharing.is_batch_made

        async def counted(desk, told, edits):
            nonlocal shared
            shared += len(edits)
            return await is_batch_made(desk, told, edits)

        sharing.is_batch_made = counted
        try:
            for _ in range(bursts):
                asked = []
                for _ in range(requests.chance.choice((1, 5, 20))):
                    request, who = requests.some(), requests.chance.choice(("one", "two", "three", "window"))
                    if who == "window":
                        request = {"do": "edit", **requests.edit(window)}
                    asked.append((who, request))
                for (who, request), line in zip(asked, await asyncio.gather(*(desk.answer(users[who], request) for who, request in asked))):
                    if request["do"] != "preview":
                        replies[who].append(json.loads(line))
                requests.versions.append(desk.catalog.version)
                for name in requests.rows:
                    requests.rows[name] = json.loads(await desk.answer(users["root"], {"do": "read", "view": name}))["rows"]
        finally:
            sharing.is_batch_made = is_batch_made
        return replies, shared

    def replay(self, entries, replies):
        """Makes what the journal has once more, line by line, and compares."""
        lines = [json.dumps(entry["request"]) + "\n" for entry in entries if "request" in entry]
        told = subprocess.run([PROGRAM], input="".join(lines).encode(), capture_output=True, check=True).stdout.split(b"\n")[:-1]
        outcomes = {entry["id"]: entry for entry in entries if "id" in entry and "request" not in entry}
        of_users = {name: iter(of_user) for name, of_user in replies.items()}
        for entry, line in zip((entry for entry in entries if "request" in entry), told, strict=True):
            reply, outcome = json.loads(line), outcomes[entry["id"]]
            for member in ("changed", "version", "error") if reply["ok"] else ("error",):
                self.assertEqual(reply.get(member), outcome.get(member), (entry, reply, outcome))
            if "text" in entry["request"]:
                continue
            mine = next(of_users[entry["user"]])
            if entry["user"] == "window":
                self.assertEqual(reply["ok"], mine["ok"], (entry, reply, mine))
            else:
                mine.pop("session", None)
                self.assertEqual(reply, mine, entry)


if __name__ == "__main__":
    unittest.main()
