"""The journal: what it has, its parts, what a start reads of them, and what kills leave."""
import asyncio
import json
import os
import subprocess
import tempfile
import unittest
from unittest import mock

from hubs import HUB, MEMORY, SHOP, HubAt
from cigrelk.hub import journal
from packages import wants

ROW = {"album": "Best", "quantity": 4}


class Asked:
    """A change that is noted, as the engine has it."""

    def __init__(self, user, number):
        self.record = journal.Record(user, json.dumps({"do": "edit", "view": "t", "remove": [], "add": [{"k": number}]}).encode(), ["t"])
        self.reply = b'{"changed":[{"add":[{"k":%d}],"remove":[],"table":"t"}],"ok":true,"version":%d}' % (number, number)
        self.is_settled = False

    def settle(self):
        self.is_settled = True


class Parts(unittest.TestCase):
    def write(self, path, numbers, user="ann"):
        """Notes changes that are done, each by itself."""
        async def run():
            written = journal.Journal(path)
            for number in numbers:
                change = Asked(user, number)
                written.intend([change.record], "0123456789ab")
                written.outcome(change, change.reply)
                await written.settled()
                self.assertTrue(change.is_settled)
            return written

        return asyncio.run(run())

    def test_a_start_reads_the_last_part_alone(self):
        with tempfile.TemporaryDirectory(dir=MEMORY) as folder, mock.patch.object(journal, "MOST_PART", 4000):
            path = f"{folder}/j"
            self.write(path, range(100))
            parts = journal.older_parts(path)
            self.assertGreater(len(parts), 5)
            read = []
            with mock.patch.object(journal, "lines_of", lambda path, lines_of=journal.lines_of: read.append(path) or lines_of(path)):
                again = journal.Journal(path)
            self.assertEqual(read, [path])
            # What can be taken back lies in older parts too.
            mine = again.undoable["ann"]
            self.assertEqual([again.changes_of(it)["t"][1][0]["k"] for it in mine], list(range(100)))
            os.remove(f"{path}.{parts[0]:06d}")
            self.assertEqual(again.changes_of(mine[0]), None)
            found = [second["version"] for _, second in journal.changes(path)]
            self.assertEqual(found, list(range(100 - len(found), 100)))

    def test_a_kill_at_any_place(self):
        """A line that was cut off, what was under way, and a rotation that was broken off."""
        with tempfile.TemporaryDirectory(dir=MEMORY) as folder:
            path = f"{folder}/j"
            written = self.write(path, range(3))
            written.intend([Asked("bob", 7).record], "0123456789ab")
            with open(path, "ab") as file:
                file.write(b'{"at":"x","id":"cut')
            self.write(path, [4])
            told = [(first.get("user"), "unknown" in second, second.get("version")) for first, second in journal.changes(path)]
            self.assertEqual(told, [("ann", False, 0), ("ann", False, 1), ("ann", False, 2), ("bob", True, None), ("ann", False, 4)])
            os.rename(path, f"{path}.000001")
            again = self.write(path, [5])
            self.assertEqual((again.part, len(again.undoable["ann"])), (2, 5))
            self.assertEqual([second.get("version") for _, second in journal.changes(path)][-1], 5)

    def test_who_changed_the_same_rows_and_when(self):
        with tempfile.TemporaryDirectory(dir=MEMORY) as folder:
            path = f"{folder}/j"
            with mock.patch.object(journal, "now", lambda: "2026-12-01T09:00:00.000Z"):
                self.write(path, [1])
            with mock.patch.object(journal, "now", lambda: "2026-12-02T09:00:00.000Z"):
                self.write(path, [2], "bob")
            versions = lambda **wanted: [second["version"] for _, second in journal.changes(path, journal.Wanted(**wanted))]
            for wanted, found in (({}, [1, 2]), ({"person": "bob"}, [2]), ({"view": "t"}, [1, 2]), ({"view": "u"}, []), ({"since": "2026-12-02"}, [2]), ({"until": "2026-12-01"}, [1]), ({"until": "2026-12-02T08"}, [1]), ({"person": "ann", "since": "2026-12-02"}, [])):
                self.assertEqual(versions(**wanted), found, wanted)


@wants("python3-aiohttp")
class Read(unittest.TestCase):
    def test_by_whom_of_what(self):
        with HubAt({"ann": ["stock=read,preview,edit"], "bob": ["*=read,edit"]}) as hub:
            hub.ask("ann", "POST", "/views/stock/edit", {"add": [{"track": "New", "rating": 1, "album": "Wish", "quantity": 5}]})
            hub.ask("ann", "POST", "/views/stock/edit", {"add": [{"track": "New", "rating": 1, "album": "Wish", "quantity": 1}]})
            hub.ask("bob", "POST", "/views/albums/edit", {"add": [ROW]})
            users = lambda query: [json.loads(line).get("user") for line in hub.ask("root", "GET", f"/journal{query}")[2].splitlines()]
            self.assertEqual(users("?person=ann"), ["ann", None] * 2)
            self.assertEqual(users("?view=tracks&person=ann"), ["ann", None])
            self.assertEqual(users("?view=albums&since=2000")[-2:], ["bob", None])
            self.assertEqual(users("?until=2000"), [])
            self.assertEqual(hub.ask("ann", "GET", "/journal")[0], 403)
            told = subprocess.run([*HUB, hub.store, "--journal", "--person", "ann"], capture_output=True, text=True, env=hub.environment).stdout.splitlines()
            self.assertEqual([line.partition(" ann: ")[2] for line in told], [f"edit stock -> version {len(SHOP) + 1}: tracks -0 +1", "edit stock -> refused, 42"])


if __name__ == "__main__":
    unittest.main()
