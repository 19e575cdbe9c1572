"""What is told of what people who know SQL, or who have dates and prices, write first."""
import datetime
import decimal
import os
import sys
import unittest

HERE = os.path.dirname(os.path.abspath(__file__))
CLIENTS = os.path.dirname(HERE)
sys.path[:0] = [CLIENTS, HERE]
from cigrelk import Clash, NotDetermined, NotTree, Server, Syntax
from cigrelk.shell import told

COMPARED = "a column is compared with a value or another column"


class Messages(unittest.TestCase):
    @classmethod
    def setUpClass(cls):
        cls.server = Server()
        cls.addClassCleanup(cls.server.close)
        cls.goods = cls.server.define("table goods (name text, qty int, price int) with name -> qty price")
        cls.server.define("table others (product text, stock int) with product -> stock")

    def test_definitions(self):
        for text, kind, words in (
            ("view a = select from goods where qty*price > 100", Syntax, f"nothing is computed in a condition; {COMPARED}"), ("view a = select from goods where qty - 1 > 100", Syntax, "nothing is computed"),
            ("view a = select from goods where lower(name) = 'b'", Syntax, "no functions stand in a condition"), ("view a = select from goods where name like 'B%'", Syntax, COMPARED),
            ("view a = select * from goods", Syntax, "a selection shows all columns: 'select from NAME where ..'"), ("view a = select name, qty from goods", Syntax, "drop COLUMN determined by (KEY, DEFAULT) from NAME"),
            ("view a = join goods with others", Syntax, "join_dl from the left one, join_dr from the right one, join_both from both"), ("drop view a", Syntax, "definitions are never dropped or altered"),
            ("table t (a int, b int) a -> b", Syntax, "dependencies stand behind the word with"), ('table t (id int, "Full Name" text)', Syntax, "a name has small letters, digits and _"),
            ("view a = select from goods where name = \"axe\"", Syntax, "a text stands in single quotes"), ("table t (id int, since date)", Syntax, "a text keeps a date"), ("table t (id int, price decimal(10,2))", Syntax, "an int keeps a price, in cents"),
            ("table t (a int, b int, c int) with a -> b, b -> a c", NotTree, "their sides 'a' and 'a and c' have columns in common: a table has one key"),
            ("view a = join_dl goods with others", NotDetermined, "a join goes by columns of the same name, so rename"),
        ):
            with self.assertRaises(kind) as caught:
                self.server.define(text)
            self.assertIn(words, str(caught.exception), text)

    def test_values(self):
        for price, words in ((datetime.date(2024, 3, 1), r"'price' is datetime.date\(2024, 3, 1\), of the type date, .*: this is a date"), (datetime.datetime(2024, 3, 1), "this is a date"),
                             (decimal.Decimal("3.50"), r"row 1: 'price' is Decimal\('3.50'\), of the type Decimal, and not an int, a str, a bool or None: this has a fraction"), (float("nan"), "'price' is nan"), (b"x", "'price' is b'x'")):
            for send in (self.goods.edit, self.goods.preview):
                with self.assertRaisesRegex((TypeError, ValueError), words):
                    send(add=[{"name": "axe", "qty": 1, "price": price}])
        with self.assertRaisesRegex(Exception, "this has a fraction"):
            self.goods.edit(add=[{"name": "axe", "qty": 1, "price": 3.5}])
        with self.assertRaisesRegex(TypeError, "row 2: 'price'"):
            self.server.batch([("goods", [], [{"name": "axe", "qty": 1, "price": 1}, {"name": "saw", "qty": 1, "price": decimal.Decimal(1)}])])
        self.assertIn("this is a date", self.goods.faults(add=[{"name": "axe", "qty": 1, "price": datetime.date(2024, 3, 1)}])[0].text)

    def test_two_rows_that_clash(self):
        with self.assertRaises(Clash) as caught:
            self.goods.edit(add=[{"name": "axe", "qty": 1, "price": 3}, {"name": "axe", "qty": 2, "price": 3}])
        self.assertEqual(told(caught.exception).splitlines(), ["Clash: name determines qty, and these two rows have the same name and differ in qty:", '    name   qty  price', '    "axe"  *1*  3', '    "axe"  *2*  3'])


if __name__ == "__main__":
    unittest.main()
