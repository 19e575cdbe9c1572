"""What a window tells of rows that it hides: two stores that differ in hidden rows alone get the same random requests through the
window, and the replies are compared.

Of the replies only versions may differ: they tell that a table under the window was changed, in hidden rows too. An undo is not among
the requests: it is refused if a row that the user's own change touched was changed since, a hidden one too. CIGRELK_LONG has the
number of requests with each kind of join; without it they are few.
"""
import asyncio
import collections
import json
import os
import random
import tempfile
import unittest

from hubs import KINDS, MEMORY, PROGRAM, SHOP, some_request
from cigrelk.hub.desk import Desk
from cigrelk.hub.journal import Journal
from cigrelk.hub.rights import Users

COUNT = int(os.environ.get("CIGRELK_LONG", 400))
# After so many requests both stores begin again.
ROUND = 40
HIDDEN = [{"do": "edit", "view": "albums", "remove": [], "add": [{"album": "Push", "quantity": 2}]},
          {"do": "edit", "view": "tracks", "remove": [], "add": [{"track": "Cold", "date": 1, "rating": 2, "album": "Push"}, {"track": "Lullaby", "date": 1989, "rating": 3, "album": "Push"}]}]
OTHER = [{"do": "edit", "view": "albums", "remove": [], "add": [{"album": "Zero", "quantity": 0}]},
         {"do": "edit", "view": "tracks", "remove": [], "add": [{"track": "Zero", "date": 1, "rating": 2, "album": "Zero"}]}]
ASKED = tuple(kind for kind in KINDS if kind != "undo")


class Shop:
    """A store in memory, behind a desk."""

    def __init__(self, folder, hidden):
        users = Users(f"{folder}/users")
        for name, *words in (("root", "admin"), ("ann", "stock=read,preview,edit"), ("box", "stock=edit,preview")):
            users.grant(name, words)
        self.desk, self.hidden = Desk(users, Journal(f"{folder}/journal")), hidden

    async def ask(self, who, request):
        return json.loads(await self.desk.answer(self.desk.users.users[who], request))

    async def begin(self, definitions=()):
        for request in (*definitions, *SHOP[3:], *self.hidden):
            reply = await self.ask("root", request)
            assert reply["ok"], reply


class Leaks(unittest.TestCase):
    def test_two_shops_that_differ_in_hidden_rows_are_one_to_a_window(self):
        for seed, join in enumerate(("join_dl", "join_dr", "join_both")):
            with self.subTest(join=join), tempfile.TemporaryDirectory(dir=MEMORY) as one, tempfile.TemporaryDirectory(dir=MEMORY) as other:
                told = asyncio.run(self.compare(join, random.Random(seed), Shop(one, HIDDEN), Shop(other, OTHER)))
                if COUNT > 400:
                    print(f"{join}: {COUNT:,} requests, of which {told['accepted']:,} were accepted; {told['version']:,} replies with another version")

    async def compare(self, join, chance, one, other):
        definitions = [{**it, "text": it["text"].replace("join_dl", join)} for it in SHOP[:3]]
        told = collections.Counter()
        for shop in (one, other):
            await shop.desk.start([PROGRAM])
            await shop.begin(definitions)
        try:
            for number in range(COUNT):
                request, who = some_request(chance, ASKED), chance.choice(("ann", "ann", "box"))
                pair = [await shop.ask(who, request) for shop in (one, other)]
                told["accepted"] += pair[0]["ok"]
                told["version"] += pair[0].get("version") != pair[1].get("version")
                for reply in pair:
                    [reply.pop(member, None) for member in ("session", "version")]
                self.assertEqual(*pair, (number, who, request))
                if number % ROUND == ROUND - 1:
                    for shop in (one, other):
                        await shop.begin()
        finally:
            for shop in (one, other):
                await shop.desk.engine.close()
                await shop.desk.journal.settled()
        return told


if __name__ == "__main__":
    unittest.main()
