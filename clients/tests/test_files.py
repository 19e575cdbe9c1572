"""Files of SQLite that are no store, and stores that are only read: not a byte of them changes."""
import contextlib
import os
import sqlite3
import stat
import subprocess
import sys
import tempfile
import unittest

HERE = os.path.dirname(os.path.abspath(__file__))
CLIENTS = os.path.dirname(HERE)
sys.path[:0] = [CLIENTS, HERE]
from cigrelk import TOP, CommandError, Ended, InUse, NotStore, Server, private_copy
from test_editor import Editor

GOODS = "table goods (name text, quantity int) with name -> quantity"
AXE = {"name": "axe", "quantity": 7}


def contents(folder):
    """The bytes of each file of a folder, and when and how it was changed last."""
    found = {}
    for name in sorted(os.listdir(folder)):
        path = f"{folder}/{name}"
        with open(path, "rb") as file:
            told = os.stat(path)
            found[name] = file.read(), told.st_mtime_ns, told.st_ino, stat.S_IMODE(told.st_mode)
    return found, os.stat(folder).st_mtime_ns


class Room(unittest.TestCase):
    def setUp(self):
        room = tempfile.TemporaryDirectory()
        self.addCleanup(room.cleanup)
        self.room, self.store = room.name, f"{room.name}/shop.db"

    def unchanged(self):
        """A test that what it surrounds changes nothing in the folder."""
        @contextlib.contextmanager
        def compared():
            before = contents(self.room)
            yield
            self.assertEqual(contents(self.room), before)

        return compared()

    def database(self, *statements):
        """A connection to a database of SQLite at the place of the store, once statements were done."""
        database = sqlite3.connect(self.store, isolation_level=None)
        self.addCleanup(database.close)
        for statement in statements:
            database.execute(statement)
        return database


class Others(Room):
    """Databases that others made."""

    TAGS = ("CREATE TABLE tags (name TEXT PRIMARY KEY, n INTEGER)", "INSERT INTO tags VALUES ('red', 1)", "CREATE TABLE t_goods (name TEXT)")

    def each_client(self):
        """What each client tells, with its status."""
        beside = tempfile.TemporaryDirectory()
        self.addCleanup(beside.cleanup)
        new = f"{beside.name}/new.db"
        with open(f"{beside.name}/definitions", "w") as file:
            file.write(f"{GOODS}\n")
        for words in (("edit", "--quiet", self.store), ("edit", "--quiet", "--read-only", self.store), ("shell", self.store), ("mirror", self.store, "--schema"),
                      ("mirror", self.store, "postgresql:///nothing?host=/nowhere"), ("rebuild", self.store, new, file.name)):
            done = subprocess.run([f"{TOP}/cigrelk", *words], input="", capture_output=True, text=True, timeout=60)
            self.assertFalse(os.path.exists(new))
            yield words[0], done.returncode, done.stdout, done.stderr

    def test_are_refused_by_every_client(self):
        self.database(*self.TAGS).close()
        with self.unchanged():
            for name, status, printed, told in self.each_client():
                self.assertEqual((status, printed), (1, ""), told)
                self.assertTrue(told.startswith(f"cigrelk {name}: {self.store} is no store: "), told)
                self.assertIn("the tables t_goods, tags.", told)
                self.assertIn("`cigrelk take`", told)
            with self.assertRaises(NotStore) as caught:
                Server(self.store)
            self.assertEqual((caught.exception.status, caught.exception.tables), (6, ["t_goods", "tags"]))

    def test_whose_tables_are_not_in_the_file_yet(self):
        # The program that made it is still there, and its tables stand in the log.
        self.database("PRAGMA journal_mode = wal", *self.TAGS)
        with self.unchanged(), self.assertRaises(NotStore):
            Server(self.store)

    def test_with_many_and_odd_tables(self):
        self.database(*(f'CREATE TABLE "t {number:03}\x1b[1m" (a)' for number in range(300))).close()
        with self.unchanged(), self.assertRaises(NotStore) as caught:
            Server(self.store)
        self.assertIn("t 004\\x1b[1m and 295 more", str(caught.exception))

    def test_that_are_no_database(self):
        for text in (b"this is no store at all\n" * 50, b"SQLite format 3\0" + b"\xff" * 5000, b"x"):
            with open(self.store, "wb") as file:
                file.write(text)
            with self.unchanged():
                for name, status, printed, told in self.each_client():
                    self.assertEqual((status, printed, "is no store: it is no database of SQLite" in told), (1, "", True), told)

    def test_that_are_empty_are_taken(self):
        for make in (lambda: None, lambda: open(self.store, "w").close(), lambda: self.database("VACUUM").close()):
            make()
            with Server(self.store) as server:
                server.define(GOODS).put([AXE])
            with Server(self.store) as server:
                self.assertEqual(list(server["goods"].read()), [AXE])
            os.remove(self.store)

    def test_stores_that_were_killed_are_taken(self):
        with Server(self.store) as server:
            server.define(GOODS).put([AXE])
            server.process.kill()
            server.process.wait()
            with self.assertRaises(Ended):
                server.list()
        self.assertTrue(os.path.getsize(f"{self.store}-wal"))
        with private_copy(self.store) as copy, Server(copy) as server:
            self.assertEqual(list(server["goods"].read()), [AXE])
        with Server(self.store) as server:
            self.assertEqual(list(server["goods"].read()), [AXE])

    def test_stores_in_use_are_told(self):
        with Server(self.store) as server:
            server.define(GOODS)
            with self.assertRaises(Ended) as caught:
                Server(self.store)
            self.assertIn("another program has it open", str(caught.exception))
            with self.assertRaises(InUse), private_copy(self.store):
                pass
            self.assertTrue(server["goods"].put([AXE]))


class ReadOnly(Room):
    def test_not_a_byte_changes(self):
        with Server(self.store) as server:
            server.define(GOODS).put([AXE])
        for make in (lambda: None, lambda: os.chmod(self.store, 0o400)):
            make()
            with self.unchanged():
                editor = Editor(self.store, "--read-only")
                try:
                    self.assertEqual(editor.read("goods")["rows"], [["axe", "7"]])
                    self.assertIn("--read-only", editor.ask("define", text=GOODS)["text"])
                finally:
                    self.assertEqual(editor.close(), 0)

    def test_the_copy_goes_and_is_private(self):
        with Server(self.store) as server:
            server.define(GOODS)
        with private_copy(self.store) as copy:
            self.assertEqual(stat.S_IMODE(os.stat(os.path.dirname(copy)).st_mode), 0o700)
        self.assertFalse(os.path.exists(os.path.dirname(copy)))

    def test_a_store_that_is_not_there_is_not_made(self):
        done = subprocess.run([f"{TOP}/cigrelk", "edit", "--quiet", "--read-only", self.store], capture_output=True, text=True)
        self.assertEqual((done.returncode, done.stderr), (1, f"cigrelk edit: there is no store {self.store}\n"))
        self.assertEqual(os.listdir(self.room), [])
        with self.assertRaises(CommandError), private_copy(self.store):
            pass


if __name__ == "__main__":
    unittest.main()
