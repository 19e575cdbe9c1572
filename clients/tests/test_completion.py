"""What a typed key brings along, what an edit reaches beyond its own rows, and by which columns joins join."""
import os
import sys
import unittest

HERE = os.path.dirname(os.path.abspath(__file__))
sys.path[:0] = [os.path.dirname(HERE), HERE]
import shops
from cigrelk import OffPredicate, OtherTable, Server, Stale, UnknownColumn
from cigrelk.effects import Effects
from cigrelk.joins import joins_of


def line(number):
    """A row of open_sales."""
    return dict(zip(shops.OPEN_COLUMNS, next(row for row in shops.OPEN if row[0] == number)))


ADA = {"customer_id": 1, "placed": "2026-11-02", "status": "open", "name": "Ada Vogel", "zip": "10115", "city": "Berlin"}
TRAY = {"product_id": 3, "product": "oak tray", "price": 4200}


class InTheShop(unittest.TestCase):
    def setUp(self):
        self.server = Server()
        self.addCleanup(self.server.close)
        shops.fill(self.server)
        self.view = self.server["open_sales"]


class Completion(InTheShop):
    def test_the_views_rows_are_those_of_the_shop(self):
        self.assertEqual([list(row.values()) for row in self.view.read()], shops.OPEN)
        self.assertEqual(list(self.view.columns()), shops.OPEN_COLUMNS)

    def test_a_new_line_of_three_columns_is_a_whole_row(self):
        # The product stands in no open order, so only the table below the rename and the drop has it.
        found = self.view.complete({}, {"line_id": 7, "order_id": 100, "product_id": 3})
        self.assertEqual(found.row, {"line_id": 7, "order_id": 100, **ADA, **TRAY})
        self.assertEqual(list(found.row), [name for name in shops.OPEN_COLUMNS if name != "note"])
        self.assertEqual((found.missing, found.asked), (["note"], ["note"]))

    def test_a_line_moves_to_another_order(self):
        found = self.view.complete(line(3), {"order_id": 100})
        self.assertEqual(found.row, {**line(3), "order_id": 100, **ADA})

    def test_a_product_is_pointed_to_anew(self):
        found = self.view.complete(line(4), {"product_id": 3})
        self.assertEqual(found.row, {**line(4), **TRAY})
        change = self.view.edit([line(4)], [found.row], only={"lines"})
        self.assertEqual(list(change.tables), ["lines"])

    def test_what_is_typed_stays(self):
        found = self.view.complete(line(4), {"product_id": 3, "product": "ash tray"})
        self.assertEqual(found.row, {**line(4), **TRAY, "product": "ash tray"})

    def test_where_no_row_has_a_key_what_the_old_one_brought_is_asked_for(self):
        found = self.view.complete(line(3), {"order_id": 999})
        self.assertEqual(found.row, {name: value for name, value in {**line(3), "order_id": 999}.items() if name not in ADA})
        self.assertEqual(found.missing, list(ADA))
        self.assertEqual(found.asked, ["customer_id", "placed", "status"])

    def test_where_no_row_has_a_key_what_was_typed_stays(self):
        typed = self.view.complete({}, {"product": "spoon", "price": 5}).row
        self.assertEqual(self.view.complete(typed, {"product_id": 9}).row, {"product_id": 9, "product": "spoon", "price": 5})
        self.assertEqual(self.view.complete({**typed, "product_id": 9}, {"product_id": 8}).row, {"product_id": 8, "product": "spoon", "price": 5})

    def test_a_row_may_take_another_key_of_its_own(self):
        row = self.server["customers"].find("customer_id", 3)[0]
        self.assertEqual(self.server["customers"].complete(row, {"customer_id": 33}).row, {**row, "customer_id": 33})
        self.assertEqual(self.view.complete(line(3), {"line_id": 33}).row, {**line(3), "line_id": 33})

    def test_rows_that_are_not_sent_yet_come_first(self):
        edited = {**line(4), "product_id": 9, "product": "spoon"}
        self.assertEqual(self.view.complete(line(3), {"product_id": 9}, among=[edited]).row, {**line(3), "product_id": 9, "product": "spoon", "price": 650})

    def test_dependencies_within_a_table(self):
        self.server.define("table tracks (track text, date int, rating int, album text) with track -> date rating")
        self.server["tracks"].edit(add=[{"track": "Trust", "date": 1992, "rating": 4, "album": "Wish"}])
        found = self.server["tracks"].complete({}, {"track": "Trust"})
        self.assertEqual((found.row, found.asked), ({"track": "Trust", "date": 1992, "rating": 4}, ["album"]))
        self.server.define("table steps (a int, b int, c int) with a -> b, b -> c").put([{"a": 5, "b": 5, "c": 6}])
        self.assertEqual(self.server["steps"].complete({}, {"a": 5}).row, {"a": 5, "b": 5, "c": 6})

    def test_a_key_of_two_columns(self):
        self.server.define("table prices (sort text, size int, price int, note text) with sort size -> price note")
        self.server.define("table sold (id int, sort text, size int) with id -> sort size")
        self.server["prices"].edit(add=[{"sort": sort, "size": size, "price": size * 10, "note": sort} for sort in "ab" for size in (1, 2)])
        view = self.server.define("view sums = join_dl sold with prices")
        found = view.complete({}, {"id": 1, "size": 2})
        self.assertEqual(found.asked, ["sort"])
        self.assertEqual(view.complete(found.row, {"sort": "b"}).row, {"id": 1, "sort": "b", "size": 2, "price": 20, "note": "b"})

    def test_a_column_that_there_is_not(self):
        with self.assertRaises(UnknownColumn):
            self.view.complete({}, {"lin_id": 7})


class Reach(InTheShop):
    def told(self, remove, add, view=None):
        view = view or self.view
        effects = Effects(view, remove, view.preview(remove, add))
        return [effects.text(effect) for effect in effects.beyond()]

    def test_an_edit_of_a_row_alone_reaches_no_further(self):
        self.assertEqual(self.told([line(4)], [{**line(4), "note": "blue"}]), [])
        self.assertEqual(self.told([line(4)], []), [])

    def test_a_hidden_product_that_is_overwritten(self):
        self.assertEqual(self.told([line(4)], [{**line(4), "product_id": 3}]),
                         ["changes id 3 of products, which open_sales hides, for everyone: 1 row of lines shows it"])

    def test_a_shown_product_that_is_changed(self):
        remove = [line(2), line(3)]
        self.assertEqual(self.told(remove, [{**row, "price": 2800} for row in remove]), ["changes id 2 of products for everyone: 2 rows of lines show it"])

    def test_a_row_that_is_added_to_a_table_that_is_joined_in(self):
        self.assertEqual(self.told([line(4)], [{**line(4), "product_id": 9}]), ["adds id 9 to products"])

    def test_hidden_rows_that_follow(self):
        remove = [line(1), line(2)]
        self.assertEqual(self.told(remove, [{**row, "city": "Bonn"} for row in remove]),
                         ["changes customer_id 1 of customers for everyone: 1 row of orders shows it",
                          "changes customer_id 2 of customers, which open_sales hides, for everyone: 1 row of orders shows it"])

    def test_an_edit_that_is_limited_to_tables(self):
        overwriting = [{**line(4), "product_id": 3}]
        for call in (self.view.preview, self.view.edit):
            with self.assertRaises(OtherTable) as caught:
                call([line(4)], overwriting, only={"lines", "orders"})
            self.assertEqual(str(caught.exception), "this changes id 3 of products, which open_sales hides, for everyone: 1 row of lines shows it; "
                                                    "only lines and orders may change here")
            self.assertEqual(caught.exception.tables, ["products"])
        self.assertEqual(self.server["products"].find("id", 3)[0]["name"], "oak tray")
        moving = [line(1), line(2)]
        with self.assertRaisesRegex(OtherTable, "^this changes customer_id 1 of customers for everyone: 1 row of orders shows it, and 1 more row; only lines may change here$"):
            self.view.edit(moving, [{**row, "city": "Bonn"} for row in moving], only=(name for name in ["lines"]))
        self.assertEqual(list(self.view.edit([line(4)], overwriting, only={"lines", "products"}).tables), ["lines", "products"])

    def test_a_limited_edit_that_is_refused_anyway(self):
        with self.assertRaises(OffPredicate):
            self.view.edit([line(4)], [{**line(4), "status": "sent"}], only={"lines"})

    def test_a_change_of_others_between_preview_and_edit(self):
        rows, preview = self.view.read(), self.view.preview

        def preview_and_change(*arguments):
            found = preview(*arguments)
            if changes:
                self.server["lines"].edit(add=[{"line_id": changes.pop(), "order_id": 102, "product_id": 1, "note": None}])
            return found

        self.view.preview = preview_and_change
        changes = [70]
        with self.assertRaises(Stale):
            self.view.edit([line(4)], [], on=rows, only={"lines"})
        changes = [71, 72]
        self.assertEqual([row["line_id"] for row in self.view.edit([line(4)], [], only={"lines"}).tables["lines"][0]], [4])


class Joins(InTheShop):
    def test_the_columns_that_joins_join_by(self):
        self.assertEqual(list(map(str, joins_of(self.view))), ["lines with orders by order_id", "orders with customers by customer_id", "lines with products by product_id"])
        self.assertEqual([it.warning() for it in joins_of(self.view)], ["", "", ""])

    def test_columns_that_both_sides_have_by_chance(self):
        for text in ("table bills (id int, customer int, place text) with id -> customer place", "table people (id int, place text) with id -> place",
                     "table houses (customer int, place text, floors int) with customer -> place floors"):
            self.server.define(text)
        (join,) = joins_of(self.server.define("view by_id = join_dl bills with (rename place to home from people)"))
        self.assertIn("bills and people are joined by id, which both have", join.warning())
        self.assertIn("(rename id to people_id from people)", join.warning())
        (join,) = joins_of(self.server.define("view by_place = join_dl bills with houses"))
        self.assertEqual((join.columns, join.unlikely), (["customer", "place"], ["place"]))


if __name__ == "__main__":
    unittest.main()
