"""Files of CSV as people have them: what they are is told with its cure, and nothing is lost or guessed."""
import io
import os
import stat
import sys
import tempfile
import unittest
import unittest.mock

HERE = os.path.dirname(os.path.abspath(__file__))
CLIENTS = os.path.dirname(HERE)
sys.path[:0] = [CLIENTS, HERE]
from cigrelk import Clash, Server, Stale, bulk, progress
from cigrelk.bulk import edit_all
from cigrelk.shell import Shell

PEOPLE = "table people (name text, town text null, born int null, paid bool null) with name -> town born paid"
GOODS = "table goods (name text, price int, sold bool) with name -> price sold"


class Files(unittest.TestCase):
    """A shell over tables in memory, which is given lines."""

    def setUp(self):
        room = tempfile.TemporaryDirectory()
        self.addCleanup(room.cleanup)
        self.room, self.server = room.name, Server()
        self.addCleanup(self.server.close)
        self.shell = Shell(self.server, False)
        self.people, self.goods = self.server.define(PEOPLE), self.server.define(GOODS)

    def file(self, text, encoding="utf-8"):
        path = f"{self.room}/file.csv"
        with open(path, "wb") as file:
            file.write(text if isinstance(text, bytes) else text.encode(encoding))
        return path

    def told(self, line):
        """What the shell prints for a line."""
        with unittest.mock.patch("sys.stdout", io.StringIO()) as printed:
            self.shell.onecmd(line)
        return printed.getvalue()

    def is_told(self, line, *texts):
        """Tests what is told of a line that changes nothing."""
        version = self.server.version()
        found = self.told(line)
        for text in texts:
            self.assertIn(text, found)
        self.assertEqual(self.server.version(), version)

    def test_an_empty_field_that_may_be_null(self):
        path = self.file("name,town,born,paid\nann,,1990,true\nbob,,,\ncy,Rome,null,null\n")
        for do in ("load", "import", "check"):
            self.is_told(f"{do} people {path}", "born is empty in 1 row and paid is empty in 1 row and town is empty in 2 rows, and may be null", "--null ''", "--null null")
        self.is_told(f"load people {path} --null null", "line 3: born wants a whole number of 64 bits or null, and not ''")
        self.is_told(f"load people {path} --null ''", "line 4: born wants a whole number of 64 bits or null, and not 'null'")
        path = self.file("name,town,born,paid\nann,,1990,true\nbob,null,,\n")
        self.assertEqual(self.told(f"load people {path} --null ''"), "people: 2 rows added\n")
        self.assertEqual([tuple(row.values()) for row in self.people.read()], [("ann", None, 1990, True), ("bob", "null", None, None)])
        # and back
        self.assertEqual(self.told(f"export people {path} --null ''"), "")
        with open(path) as file:
            self.assertEqual(file.read(), "name,town,born,paid\nann,,1990,true\nbob,null,,\n")
        self.assertEqual(self.told(f"import people {path} --null ''"), "no change\n")
        self.people.edit(add=[{"name": "di", "town": "", "born": 1, "paid": False}])
        self.is_told(f"export people {path} --null ''", "town has the text '' in 1 row, which --null would make null")
        path = self.file("name,town,born,paid\neve,,1,true\n")
        self.assertEqual(self.told(f"load people {path} --null null"), "people: 1 row added\n")
        self.assertEqual(self.people.find("name", "eve")[0]["town"], "")

    def test_separators(self):
        for text, name, word in (("name;price;sold\naxe;7;true\n", "semicolons", ";"), ("name\tprice\tsold\naxe\t7\ttrue\n", "tabs", "tab"), ("name|price|sold\naxe|7|true\n", "bars", "|")):
            path = self.file(text)
            self.is_told(f"load goods {path}", f"its columns stand between {name}: add --separator '{word}'")
            self.assertEqual(self.told(f"import goods {path} --yes --separator '{word}'").splitlines()[-1], "goods: 1 row added")
            self.goods.put([])

    def test_encodings(self):
        for encoding, cure, name in (("latin-1", "latin-1", "Bj\u00f6rk"), ("windows-1252", "windows-1252", "\u20ac\u00fc"), ("utf-16", "utf-16", "Bj\u00f6rk"), ("utf-8-sig", None, "Bj\u00f6rk")):
            path = self.file(f"name,price,sold\nplain,1,true\n{name},7,true\n", encoding)
            if cure:
                self.is_told(f"load goods {path}", f"add --encoding {cure}, or save it as UTF-8", "" if encoding == "utf-16" else "line 3 is not in UTF-8")
            self.assertEqual(self.told(f"load goods {path}{f' --encoding {cure}' if cure else ''}"), "goods: 2 rows added\n")
            self.assertEqual(sorted(row["name"] for row in self.goods.read()), sorted(["plain", name]))
            self.goods.put([])
        self.is_told(f"load goods {path} --encoding latin1x", "there is no encoding latin1x")
        self.goods.put([{"name": "\u20ac", "price": 1, "sold": True}])
        with open(path, "rb") as file:
            before = file.read()
        self.is_told(f"export goods {path} --encoding latin-1", "is not in latin-1")
        with open(path, "rb") as file:
            self.assertEqual(file.read(), before)
        self.assertEqual(os.listdir(self.room), ["file.csv"])

    def test_other_names(self):
        path = self.file("Name,Price,Sold\naxe,7,true\n")
        self.is_told(f"load goods {path}", "its first line has 'Name' and 'Price' and 'Sold', which goods has not; it lacks name and price and sold, which goods has; goods has name, price, sold. "
                     "Add --columns 'Name=name' 'Price=price' 'Sold=sold'")
        self.assertEqual(self.told(f"load goods {path} --columns 'Name=name' 'Price=price' Sold=sold"), "goods: 1 row added\n")
        path = self.file("Full Name,price,sold,Note\nsaw,7,true,x\n")
        self.is_told(f"load goods {path}", "'Full Name=COLUMN'")
        self.is_told(f"load goods {path} --columns 'Full Name=name'", "its first line has 'Note', which goods has not; goods has name, price, sold. Add --columns 'Note=' to leave them out")
        self.is_told(f"load goods {path} --columns 'Full Name=nome'", "--columns names nome, and goods has name, price, sold")
        self.assertEqual(self.told(f"load goods {path} --columns 'Full Name=name' 'Note='"), "goods: 1 row added\n")
        self.is_told(f"load goods {self.file('name,name,sold')}", "names the column name twice")

    def test_values_of_no_kind(self):
        for price, told in (("309.27", "this has a fraction"), ("1,5", "this has a fraction"), ("2024-03-01", "this is a date"), ("2024-03-01 12:30:00", "this is a date"), ("1.3.2024", "this is a date"),
                            ("many", "price wants a whole number of 64 bits, and not 'many'"), ("", "and not ''")):
            self.is_told(f"load goods {self.file(f'name,sold,price{chr(10)}axe,true,{chr(34)}{price}{chr(34)}{chr(10)}')}", told)
        self.is_told(f"load goods {self.file('name,price,sold' + chr(10) + 'axe,7,t')}", "sold wants true or false, and not 't': write true or false")
        self.is_told(f"load goods {self.file('name,price,sold' + chr(10) + 'a' * 4097 + ',7,true')}", "name wants a text of at most 4,096 bytes")

    def test_what_is_written_has_its_name_once_it_is_whole(self):
        path = self.file("old")
        os.chmod(path, 0o640)
        self.goods.put([{"name": "axe", "price": 7, "sold": True}])
        self.assertEqual(self.told(f"export goods {path}"), "")
        self.assertEqual(stat.S_IMODE(os.stat(path).st_mode), 0o640)
        self.assertEqual(self.told(f"export goods {path}2"), "")
        self.assertEqual(stat.S_IMODE(os.stat(f"{path}2").st_mode), 0o600)
        os.remove(f"{path}2")
        self.is_told(f"export nothing {path}", "UnknownName")
        self.assertEqual(os.listdir(self.room), ["file.csv"])


class Bulk(unittest.TestCase):
    """Edits that do not fit one request."""

    def setUp(self):
        self.server = Server()
        self.addCleanup(self.server.close)
        self.goods = self.server.define("table goods (name text, price int) with name -> price")
        patch = unittest.mock.patch.object(bulk, "MOST_BYTES", 1000)
        patch.start()
        self.addCleanup(patch.stop)

    def pairs(self, count):
        return [(None, {"name": f"g{n:04}", "price": n}) for n in range(count)]

    def test_all_come(self):
        done = []
        changes = edit_all(self.server, [("goods", self.pairs(300))], told=done.append)
        self.assertGreater(len(changes), 5)
        self.assertEqual((len(self.goods.read()), done[-1], done), (300, 300, sorted(done)))

    def test_all_go_where_one_is_refused(self):
        self.goods.put([{"name": "g0299", "price": 0}])
        before = self.goods.read()
        with self.assertRaises(Clash):
            edit_all(self.server, [("goods", self.pairs(300))])
        self.assertEqual(list(self.goods.read()), list(before))
        with self.assertRaises(Stale):
            edit_all(self.server, [("goods", self.pairs(10))], on=before)
        with self.assertRaisesRegex(Exception, "too much for one change"):
            edit_all(self.server, [("goods", self.pairs(3000))])
        self.assertEqual(list(self.goods.read()), list(before))


class Bar(unittest.TestCase):
    def test_it_is_shown_after_a_second_to_a_person(self):
        for is_seen, later, told in ((True, 2.0, True), (True, 0.5, False), (False, 2.0, False)):
            errors = io.StringIO()
            errors.isatty = lambda: is_seen
            with unittest.mock.patch("sys.stderr", errors), unittest.mock.patch.object(progress.time, "monotonic", iter([10.0, 10.0 + later]).__next__):
                with progress.Progress("adding") as bar:
                    bar.to(5, 10)
            self.assertEqual("adding [###############               ]  50%" in errors.getvalue(), told)
            self.assertEqual(bool(errors.getvalue()), told)


if __name__ == "__main__":
    unittest.main()
