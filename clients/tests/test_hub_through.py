"""Edits that may change only some tables of a view: a shop whose order lines are joined with products and customers."""
import unittest

import shops
from hubs import HubAt
from packages import wants

DEFINE = [{"do": "define", "text": text} for text in shops.DEFINITIONS]
FILL = [{"do": "put", "view": table, "rows": [dict(zip(shops.COLUMNS[table], row)) for row in rows]} for table, rows in shops.ROWS.items()]
# The editor of order lines, who sees the view alone; and one who may change lines and orders, and sees the tables too.
USERS = {"liz": ["open_sales=read,preview,edit", "open_sales:through=lines", "undo"],
         "ora": ["*=read,preview,edit", "open_sales:through=lines,orders", "undo"], "all": ["*=read,preview,edit", "undo"]}


@wants("python3-aiohttp")
class Through(unittest.TestCase):
    @classmethod
    def setUpClass(cls):
        cls.hub = HubAt(USERS, DEFINE + FILL)

    @classmethod
    def tearDownClass(cls):
        cls.hub.__exit__()

    def setUp(self):
        self.hub.lines("root", FILL)

    def rows(self, view="open_sales", who="all"):
        return self.hub.ask(who, "GET", f"/views/{view}")[2]

    def edit(self, who, remove, add, do="edit"):
        return self.hub.ask(who, "POST", f"/views/open_sales/{do}", {"remove": remove, "add": add})

    def test_an_editor_of_lines_overwrites_no_product(self):
        line = self.rows()[0]
        products, lines = self.rows("products"), self.rows("lines")
        # Another name for the product of a line would rename it in the table, and on every order, hidden ones too.
        other = [row for row in self.rows() if row["product_id"] == line["product_id"]]
        renamed = [{**row, "product": "stolen"} for row in other]
        for do in ("preview", "edit"):
            status, _, told = self.edit("liz", other, renamed, do)
            self.assertEqual((status, told["name"], told["tables"]), (403, "NotThrough", []), told)
        self.assertEqual(self.edit("ora", other, renamed)[2]["tables"], ["products"])
        self.assertEqual((self.rows("products"), self.rows("lines")), (products, lines))
        # What changes the lines alone is done.
        row = {**line, "note": "a note"}
        status, _, told = self.edit("liz", [line], [row])
        self.assertEqual((status, told["changed"]), (200, [{"table": "open_sales", "remove": [line], "add": [row]}]))
        self.assertEqual(self.hub.ask("liz", "POST", "/undo", {})[0], 200)
        self.assertEqual(self.rows("lines"), lines)
        # For who may change all of them it is an edit as any other.
        self.assertEqual(self.edit("all", other, renamed)[0], 200)

    def test_puts_imports_and_batches(self):
        rows = self.rows()
        changed = [{**row, "note": "x"} if number == 0 else row for number, row in enumerate(rows)]
        put = lambda who, rows: self.hub.ask(who, "PUT", "/views/open_sales", rows, If_Match="*")
        self.assertEqual(put("liz", changed)[0], 200)
        stolen = [{**row, "price": 1} for row in changed]
        status, _, told = put("liz", stolen)
        self.assertEqual((status, told["name"]), (403, "NotThrough"))
        self.assertEqual(put("ora", stolen)[2]["tables"], ["products"])
        self.assertEqual(self.rows(), changed)
        batch = lambda who, *edits: self.hub.ask(who, "POST", "/batch", {"edits": [{"view": "open_sales", "remove": remove, "add": add} for remove, add in edits]})
        self.assertEqual(batch("liz", (changed[:1], rows[:1]))[0], 200)
        status, _, told = batch("liz", (rows[:1], changed[:1]), (changed[:1], rows[:1]))
        self.assertEqual((status, told["name"], told["edit"]), (403, "NotThrough", 0))
        self.assertIn("one at a time", told["detail"])
        self.assertEqual(self.rows(), rows)

    def test_edits_of_many_at_once(self):
        """Edits that share a turn are told apart: those that may be are made, and no other."""
        lines, products, rows = self.rows("lines"), self.rows("products"), self.rows()
        kettles, cup = [row for row in rows if row["product"] == "kettle"], next(row for row in rows if row["product"] == "cup")
        asked = []
        for number in range(40):
            more = {"remove": [], "add": [{**cup, "line_id": 1000 + number}]}
            stolen = {"remove": kettles, "add": [{**row, "price": 5000 + number} for row in kettles]}
            asked.append({"do": "edit", "view": "open_sales", **(more if number % 2 else stolen)})
        replies = self.hub.lines("liz", asked)
        self.assertEqual([reply.get("error") for reply in replies], [107, None] * 20)
        self.assertEqual(self.rows("products"), products)
        self.assertEqual(len(self.rows("lines")), len(lines) + 20)

    def test_csv(self):
        with HubAt({"ann": ["stock=read,preview,edit", "stock:through=tracks"]}) as hub:
            text = hub.ask("ann", "GET", "/views/stock", Accept="text/csv")[2]
            put = lambda text: hub.ask("ann", "PUT", "/views/stock", text, If_Match="*", Content_Type="text/csv")
            self.assertEqual(put(text.replace("Wish,5,4,Trust", "Wish,6,4,Trust"))[2]["name"], "NotThrough")
            self.assertEqual(put(text.replace("Wish,5,4,Trust", "Wish,5,four,Trust"))[2]["record"], 3)
            self.assertEqual(put(text.replace("album", "record"))[2]["record"], 0)
            self.assertEqual(hub.ask("ann", "GET", "/views/stock", Accept="text/csv")[2], text)
            self.assertEqual(put(text.replace("Wish,5,4,Trust", "Wish,5,1,Trust"))[0], 200)


if __name__ == "__main__":
    unittest.main()
