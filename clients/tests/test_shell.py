"""The shell, and the program that makes a store with other definitions."""
import os
import shlex
import stat
import subprocess
import sys
import tempfile
import unittest

HERE = os.path.dirname(os.path.abspath(__file__))
CLIENTS = os.path.dirname(HERE)
sys.path[:0] = [CLIENTS, HERE]
import shops
from cigrelk import TOP, Server
from run import said

FAULTS = """track,rating,album,quantity
New,5,Paris,9
New,4,Show,1
Old,3,Show,2
Old,many,Show,3
Old,3,Show
,-9223372036854775809,Show,3
Lullaby,1,Galore,"9"
"""


def run(program, *words, text=""):
    """The finished run of a client, with what it printed."""
    return subprocess.run([f"{TOP}/cigrelk", program, *words], input=text, capture_output=True, text=True)


def at_terminal(lines, *words):
    """What a shell at a terminal prints, which is given a line at each prompt and each question."""
    import pty

    terminal, other = pty.openpty()
    process = subprocess.Popen([f"{TOP}/cigrelk", "shell", *words], stdin=other, stdout=other, stderr=other, env={**os.environ, "TERM": "dumb", "HOME": "/nowhere"})
    os.close(other)
    printed = b""
    for line in lines:
        while not printed.endswith((b"> ", b"(yes or no) ")):
            printed += os.read(terminal, 1 << 16)
        os.write(terminal, line.encode() + b"\n")
        printed += b"\n"
    process.wait(60)
    try:
        while True:
            more = os.read(terminal, 1 << 16)
            if not more:
                break
            printed += more
    except OSError:
        # This is how the end of a terminal is told.
        pass
    os.close(terminal)
    return printed.decode()


class Room(unittest.TestCase):
    """A test with a folder of its own."""

    def setUp(self):
        room = tempfile.TemporaryDirectory()
        self.addCleanup(room.cleanup)
        self.room = room.name

    def file(self, name, text):
        path = f"{self.room}/{name}"
        with open(path, "wb") as file:
            file.write(text if isinstance(text, bytes) else text.encode())
        return path


class Shell(Room):
    def test_a_session(self):
        faults = self.file("faults.csv", FAULTS)
        with open(f"{HERE}/shell.commands") as commands, open(f"{HERE}/shell.printed") as printed:
            text = commands.read().replace("PROPOSAL", f"{self.room}/proposal").replace("FAULTS", faults)
            done = run("shell", text=text)
            self.assertEqual((done.stdout, done.returncode), (printed.read().replace("FAULTS", faults), 1), done.stderr)

    def test_lines_that_are_wrong_change_nothing(self):
        files = {
            "other.csv": "name,number\na,1\n", "short.csv": "name,quantity\na,1\nb\n", "long.csv": "name,quantity\na,1,2\n", "word.csv": "name,quantity\na,one\n",
            "empty.csv": "", "open.csv": 'name,quantity\n"a,1\n', "bytes.csv": b"name,quantity\n\xff,1\n", "zero.csv": b"name,quantity\n\0,1\n", "twice": '{"do":"edit"}\n',
        }
        paths = {name: self.file(name, text) for name, text in files.items()}
        loads = [(f"load goods {path}", told) for path, told in (
            (paths["other.csv"], "Add --columns 'number=quantity'"), (paths["short.csv"], "line 3: it has 1 cell,"), (paths["long.csv"], "line 2: it has 3 cells,"), (paths["word.csv"], "line 2: quantity wants"),
            (paths["empty.csv"], "it is empty"), (paths["open.csv"], "line 2 is no CSV"), (paths["bytes.csv"], "--encoding latin-1"), (paths["zero.csv"], "NUL" if sys.version_info < (3, 11) else "without U+0000"), ("/nowhere.csv", "/nowhere.csv: No such file"))]
        lines = loads + [
            ('{"do":', "this is no JSON"), ('add goods name="open', "No closing quotation"), ("load goods", "the following arguments are required: file"), ("read goods where", "the word where and a condition"),
            ("read goods were name=a", "the word where and a condition"), ("delete goods", "so that a slip"), ("change goods name=a", "the word set is missing"), ("preview list", "add, change or delete"),
            ("add goods name=a quantity=x", "a whole number"), ("add goods name=a quantity=1.5", "a whole number"), ("add goods name=a quantity=99999999999999999999", "a whole number"),
            ("add goods name=a quantity=9999999999999999999", "a whole number of 64 bits"), ("add goods name=a number=1", "which has name, quantity"), ("shows goods2", "is no table"),
            (f"review {paths['twice']}", "line 1 is no edit"), ("propose", "the name of a file"), ("undo", "no change is left to undo"), ("export goods /nowhere/goods.csv", "No such file"),
        ]
        done = run("shell", text="table goods (name text, quantity int)\n" + "".join(f"{line}\n" for line, _ in lines) + "read goods\n")
        self.assertEqual((done.returncode, said(done.stderr)), (1, ""))
        *printed, head, bar, end = done.stdout.splitlines()
        self.assertEqual(end, "(0 rows, version 1)")
        self.assertEqual(len(printed), len(lines), done.stdout)
        for text, (line, told) in zip(printed, lines):
            self.assertIn(told, text, line)

    def test_a_file_of_rows(self):
        store, path = f"{self.room}/shop.db", self.file("goods.csv", 'quantity,name\r\n7,"an ""axe"",\nsharp"\n1,nail\n')
        done = run("shell", store, text=f"table goods (name text, quantity int)\ncheck goods {path}\nload goods {path}\nexport goods {path}\n")
        self.assertEqual(done.returncode, 0, done.stdout)
        with open(path, newline="") as file:
            self.assertEqual(file.read(), 'name,quantity\r\n"an ""axe"",\nsharp",7\r\nnail,1\r\n')
        self.assertEqual(stat.S_IMODE(os.stat(store).st_mode), 0o600)

    def in_turn(self, lines):
        """Has the shell do lines, and looks in what it prints for what each is told, in order. Gives the status."""
        done, at = run("shell", text="".join(f"{line}\n" for line, _ in lines)), 0
        for line, told in lines:
            at = done.stdout.find(told, at)
            self.assertGreaterEqual(at, 0, f"{line}\n{done.stdout}")
            at += len(told)
        return done.returncode

    def test_batches_and_undo(self):
        table = ("table goods (name text, quantity int) with name -> quantity\nview big = select from goods where quantity > 2", "")
        add = ("add goods name=axe quantity=7", "kept as edit 1\n")
        self.assertEqual(self.in_turn([
            table, ("batch", ""), add, ("change goods name=nothing set quantity=1", "kept as edit 2\n"), ("add big name=saw quantity=4", "kept as edit 3\n"), ("preview add big name=nail quantity=9", '+ goods: name "nail"'),
            ("done", '+ goods: name "axe", quantity 7\n+ goods: name "saw", quantity 4\n'), ("goods", "(2 rows, version 3)\n"), ("batch", ""), add, ("drop", ""),
            ("undo", '- goods: name "axe", quantity 7\n- goods: name "saw", quantity 4\n'), ("goods", "(0 rows, version 4)\n")]), 0)
        for lines, told in (
            ([("batch", ""), add, ("add big name=nail quantity=1", "kept as edit 2\n"), ("done", 'OffPredicate: edit 2, of big: the view does not show such a row: name "nail", quantity 1\n')], "(0 rows, version 2)"),
            ([("batch", ""), add, ("add goods prize=9", "'prize=9' is no COLUMN=VALUE"), ("done", "a line of this batch was refused, so nothing of it is done\n")], "(0 rows, version 2)"),
            ([("done", "there is no batch"), ("batch", ""), ("batch", "a batch is under way"), ("drop", ""), ("drop", "there is no batch"), ("undo", "NothingToUndo")], "(0 rows, version 2)"),
            ([("batch", ""), add], "(0 rows, version 2)\nthe batch was not done\n"),
        ):
            self.assertEqual(self.in_turn([table, *lines, ("goods", told)]), 1)

    def test_what_keys_determine_need_not_be_given(self):
        definitions = "".join(f"{text}\n" for text in shops.DEFINITIONS)
        rows = [(f"add {table} " + " ".join(f"{name}={shlex.quote('null' if it is None else str(it))}" for name, it in zip(shops.COLUMNS[table], row)), f"+ {table}: ")
                for table, rows in shops.ROWS.items() for row in rows]
        self.assertEqual(self.in_turn([
            (definitions.strip(), ""), *rows, ("add open_sales line_id=7 order_id=100 product_id=3", "+ lines: line_id 7, order_id 100, product_id 3, note null\n"),
            ("preview change open_sales line_id=4 set product_id=3", "- lines: line_id 4, order_id 101, product_id 4, note null\n    changed in open_sales\n+ lines: line_id 4, order_id 101, product_id 3, note null\n"),
            ("add open_sales line_id=8 product_id=3", "give order_id too: nothing determines it\n"), ("change open_sales line_id=4 set order_id=9", "give customer_id, placed and status too: nothing determines them\n"),
            ("type open_sales", "joins:        lines with orders by order_id, orders with customers by customer_id, lines with products by product_id\n"),
            ("table people (id int, age int) with id -> age", ""), ("view odd = join_dl products with people", "warning: products and people are joined by id, which both have."),
            ("open_sales", "(5 rows, ")]), 1)

    def test_a_file_that_is_exported_and_imported(self):
        path, other = f"{self.room}/goods.csv", self.file("other.csv", "\ufeffquantity,name\r\n9,axe\r\n")
        self.assertEqual(self.in_turn([
            ("table goods (name text, quantity int) with name -> quantity", ""), ('add goods name="an axe" quantity=7', ""), (f"export goods {path}", ""), (f"import goods {path}", "no change\n"),
            (f"import goods {other} --yes", 'goods: this would delete 1 row, add 1 row\n- name "an axe", quantity 7\n+ name "axe", quantity 9\ngoods: 1 row added, 1 row deleted\n'),
            ("undo", '+ goods: name "an axe", quantity 7'), (f"import goods {path} --yes", "Stale"),
            (f"export goods {path}", ""), (f"import goods {path}", "no change"), ("import goods /nowhere.csv", "No such file")]), 1)
        with open(path, newline="") as file:
            self.assertEqual(file.read(), "name,quantity\r\nan axe,7\r\n")

    def test_an_import_asks_first(self):
        rows = "".join(f"g{n},{n}\n" for n in range(20))
        path, short = self.file("all.csv", f"name,quantity\n{rows}"), self.file("short.csv", "name,quantity\ng1,11\ng2,2\nnew,1\n")
        told = "goods: this would delete 18 rows, change 1 row, add 1 row\n- name \"g0\", quantity 0\n"
        self.assertEqual(self.in_turn([
            ("table goods (name text, quantity int) with name -> quantity", ""), (f"load goods {path}", "goods: 20 rows added\n"),
            (f"import goods {short}", told), ("goods", "- .. and 13 more\n~ name \"g1\", quantity 1 -> quantity 11\n+ name \"new\", quantity 1\nnothing was done: add --yes"), ("goods", "(20 rows, version 2)"),
            (f"import goods {short} --yes", "goods: 1 row added, 1 row changed, 18 rows deleted\n"), ("goods", "(3 rows, version 3)")]), 1)
        # at a terminal it asks
        store = f"{self.room}/shop.db"
        run("shell", store, text=f"table goods (name text, quantity int) with name -> quantity\nload goods {path}\n")
        for answer, rows in (("no", 20), ("yes", 3)):
            self.assertIn("do it? (yes or no)", at_terminal([f"import goods {short}", answer, "quit"], store))
            with Server(store) as server:
                self.assertEqual(len(server["goods"].read()), rows)

    def test_nulls(self):
        path = self.file("people.csv", 'name,boss,age\r\nann,null,null\r\nbob,"""null""",7\r\ncy,"""""null""""",0\r\n')
        lines = [
            ("table people (name text, boss text null, age int null) with name -> boss age", ""), (f"load people {path}", "people: 3 rows added\n"), ("read people where name=cy", 'cy    ""null""    0'),
            ("read people where boss=null", "ann   null  null"), ("read people where boss='\"null\"'", 'bob   "null"    7'), ("add people name=di boss=null age=x", "age wants a whole number of 64 bits or null"),
            ("add people name=null boss=ann age=null", '+ people: name "null", boss "ann", age null'), ("add people name=ed boss=ann", '+ people: name "ed", boss "ann", age null'), ("delete people name=ed", "- people"),
            ("change people boss=null set boss=ann age=1", '+ people: name "ann", boss "ann", age 1'), ("undo", '+ people: name "ann", boss null, age null'), ("type people", "name text, boss text null, age int null"),
            ("delete people name=null", '- people: name "null", boss "ann", age null'), (f"export people {path}2", ""), (f"check people {path}2", "(0 faults)"),
        ]
        self.in_turn(lines)
        with open(path, newline="") as one, open(f"{path}2", newline="") as other:
            self.assertEqual(one.read(), other.read())

    def test_how_it_ends(self):
        for store, told in (("/nowhere/shop.db", "its folder is not there"), (self.room, "it is a folder"), (self.file("text.db", "a text and no store"), "is no store: it is no database of SQLite")):
            done = run("shell", store)
            self.assertEqual((done.returncode, told in done.stderr, "Traceback" in done.stderr), (1, True, False), done.stderr)


class Rebuild(Room):
    def test_other_definitions(self):
        old, new = f"{self.room}/old.db", f"{self.room}/new.db"
        with Server(old) as server:
            server.define("table albums (album text, quantity int)").put([{"album": "Show", "quantity": 3}, {"album": "Paris", "quantity": 4}])
            server.define("view few = select from albums where quantity < 4")
            # (the log of a store that is open is beside it)
            self.assertIn("is open in another program", run("rebuild", old, new, os.devnull).stderr)
        with open(old, "rb") as file:
            before = file.read()
        file = self.file("definitions", "# with a price\ntable stock (title text, quantity int, price int) with title -> quantity price\n\nview few = select from stock where quantity < 4\n")
        self.assertEqual(run("rebuild", f"{self.room}/olt.db", new, file).returncode, 1)
        printed = run("rebuild", old)
        self.assertEqual((printed.returncode, printed.stdout), (0, "table albums (album text, quantity int)\nview few = select from albums where quantity < 4\n"))
        self.assertEqual(run("rebuild", old, new).returncode, 2)
        self.assertFalse(os.path.exists(f"{self.room}/olt.db"))
        words = (old, new, file, "stock=albums", "stock.title=.album")
        for more, told in (((), "new column price"), (("stock.price=x",), "stock.price=x"), (("stock.price=1", "stock.prize=1"), "stock.prize=1"),
                           (("stock.price=1", "stok=albums"), "stok=albums"), (("stock.price=100", "stock.quantity=5x"), "stock.quantity=5x")):
            done = run("rebuild", *words, *more)
            self.assertEqual((done.returncode, told in done.stderr, "Traceback" in done.stderr), (1, True, False), done.stderr)
            self.assertEqual(sorted(os.listdir(self.room)), ["definitions", "old.db"])
        done = run("rebuild", *words, "stock.price=100")
        self.assertEqual((done.returncode, done.stdout), (0, "stock: 2 rows of 2\n"), done.stderr)
        with Server(new) as server:
            self.assertEqual(list(server["few"].read()), [{"title": "Show", "quantity": 3, "price": 100}])
        with open(old, "rb") as file:
            self.assertEqual(file.read(), before)
        self.assertEqual(stat.S_IMODE(os.stat(new).st_mode), 0o600)
        self.assertEqual(run("rebuild", old, new, f"{self.room}/definitions").returncode, 1)

    def test_columns_that_may_be_null(self):
        old, new, newer = (f"{self.room}/{name}.db" for name in ("old", "new", "newer"))
        with Server(old) as server:
            server.define("table people (name text, boss text)").put([{"name": "ann", "boss": "null"}, {"name": "bob", "boss": "ann"}])
        nullable = self.file("nullable", "table people (name text, boss text null, age int null, flag bool null, town text null)\n")
        done = run("rebuild", old, new, nullable, 'people.flag=null', 'people.town="null"')
        self.assertEqual((done.returncode, done.stdout), (0, "people: 2 rows of 2\n"), done.stderr)
        with Server(new) as server:
            rest = {"age": None, "flag": None, "town": "null"}
            self.assertEqual(list(server["people"].read()), [{"name": "ann", "boss": "null", **rest}, {"name": "bob", "boss": "ann", **rest}])
        plain = self.file("plain", "table people (name text, age int, town text)\n")
        for more, told in (((), "row 1 of those to add: 'age' is no column, or null is not of its kind"), (("people.age=null",), "people.age=null"), (("people.age=3", "people.town=null"), "")):
            done = run("rebuild", new, newer, plain, *more)
            self.assertEqual((done.returncode, told in done.stderr), (int(bool(told)), True), done.stderr)
        with Server(newer) as server:
            self.assertEqual(list(server["people"].read()), [{"name": name, "age": 3, "town": "null"} for name in ("ann", "bob")])


if __name__ == "__main__":
    unittest.main()
