"""The way in and out: tables of PostgreSQL, SQLite and CSV as definitions and as a store, and back with their types."""
import json
import os
import sqlite3
import subprocess
import sys
import unittest

HERE = os.path.dirname(os.path.abspath(__file__))
sys.path[:0] = [os.path.dirname(HERE), HERE]
from cigrelk import TOP, Server
from packages import wants
from test_sql_views import WithPostgreSQL

# Twenty types, each with null if it may be, and values at its ends.
TYPES = {
    "a_smallint": ("smallint", "-32768"), "an_integer": ("integer", "2147483647"), "a_bigint": ("bigint", "-9223372036854775808"), "a_boolean": ("boolean", "true"),
    "a_text": ("text", "E'it''s \\\\ \"q\"\\n\\té'"), "a_varchar": ("character varying(20)", "'twenty'"), "a_char": ("character(5)", "'ab'"), "a_date": ("date", "'0001-01-01'"),
    "a_time": ("time", "'23:59:59.999999'"), "a_timestamp": ("timestamp", "'9999-12-31 23:59:59.999999'"), "a_timestamptz": ("timestamptz", "'2026-03-29 01:30:00.5+02'"),
    "a_uuid": ("uuid", "'6ba7b810-9dad-11d1-80b4-00c04fd430c8'"), "a_price": ("numeric(12,2)", "-1234567890.12"), "a_numeric": ("numeric", "1e30"), "a_real": ("real", "0.1"),
    "a_double": ("double precision", "'-0'"), "a_jsonb": ("jsonb", "'{\"a\": [1, \"é\"]}'"), "a_json": ("json", "'{\"b\" :  2}'"), "a_bytea": ("bytea", "'\\x00ff10'"),
    "an_enum": ("mood", "'it''s'"), "an_inet": ("inet", "'10.0.0.1/8'"), "an_interval": ("interval", "'1 month -2 days 03:00'"), "an_array": ("integer[]", "'{1,NULL,3}'"),
}


def run(*words, status=0, test=None):
    done = subprocess.run([f"{TOP}/cigrelk", *words], capture_output=True, text=True)
    test.assertEqual(done.returncode, status, done.stderr)
    return done


@wants("postgresql")
class TakeFromPostgreSQL(WithPostgreSQL):
    def cigrelk(self, *words, status=0):
        return run(*words, status=status, test=self)

    def make_types(self, schema):
        columns = ", ".join(f"{name} {kind}" for name, (kind, _) in TYPES.items())
        self.sql(f"CREATE TYPE mood AS ENUM ('sad', 'it''s'); CREATE SCHEMA {schema}; CREATE TABLE {schema}.types (id bigint PRIMARY KEY, {columns}); "
                 f"INSERT INTO {schema}.types VALUES (1, {', '.join(value for _, value in TYPES.values())}), (2{', NULL' * len(TYPES)})")

    def test_twenty_types_go_in_and_come_back(self):
        self.make_types("old")
        self.sql("CREATE SCHEMA new")
        store = f"{self.room}/shop.db"
        self.cigrelk("take", self.address, "--schema", "old", "--into", store)
        with Server(store) as server:
            row = server["types"].find("id", 1)[0]
        self.assertEqual((row["a_price"], row["a_date"], row["a_timestamptz"], row["a_boolean"]), (-123456789012, "0001-01-01", "2026-03-28 23:30:00.500000Z", True))
        self.cigrelk("give", store, self.address, "--schema", "new")
        rows = "SELECT t::text FROM {}.types t ORDER BY id"
        self.assertEqual(self.sql(rows.format("new")), self.sql(rows.format("old")))
        described = "SELECT attname, format_type(atttypid, atttypmod), attnotnull FROM pg_attribute WHERE attrelid = '{}.types'::regclass AND attnum > 0 ORDER BY attnum"
        self.assertEqual(self.sql(described.format("new")), self.sql(described.format("old")))

    def test_decimals_as_text(self):
        self.sql("CREATE TABLE goods (id int PRIMARY KEY, price numeric(8,2)); INSERT INTO goods VALUES (1, 2.50)")
        store = f"{self.room}/shop.db"
        self.cigrelk("take", self.address, "--into", store, "--decimal", "text")
        with Server(store) as server:
            self.assertEqual(list(server["goods"].read()), [{"id": 1, "price": "2.50"}])

    def test_values_that_do_not_fit_are_named(self):
        self.sql("CREATE TABLE days (id int PRIMARY KEY, day date); INSERT INTO days VALUES (1, 'infinity')")
        done = self.cigrelk("take", self.address, "--into", f"{self.room}/shop.db", status=1)
        self.assertIn("days.day: 1 value before the year 1, after 9999 or infinite", done.stderr)
        self.assertEqual(os.listdir(self.room), [])

    SHOP = """
        CREATE TABLE orders (id bigint PRIMARY KEY, note text); CREATE TABLE people (id int PRIMARY KEY, name text NOT NULL, email text UNIQUE);
        CREATE TABLE items (order_id bigint REFERENCES orders, line int, amount int CHECK (amount BETWEEN 1 AND 9), PRIMARY KEY (order_id, line));
        CREATE TABLE sales (id int PRIMARY KEY, buyer int NOT NULL REFERENCES people, seller int NOT NULL REFERENCES people, agent int REFERENCES people);
        CREATE TABLE log (said text, "When" date);
        INSERT INTO orders VALUES (1, 'a'), (2, NULL); INSERT INTO items VALUES (1, 1, 2), (1, 2, 3), (2, 1, 4); INSERT INTO log VALUES ('x', '2026-01-01'), ('x', '2026-01-01')"""

    def test_what_the_language_refuses_gets_a_recipe(self):
        self.sql(self.SHOP)
        lines = self.cigrelk("take", self.address).stdout.splitlines()
        said = "\n".join(lines)
        # each recipe is taken by the program, together with the definitions
        self.assertEqual(said.count("(the program takes it)"), 2, said)
        self.assertNotIn("refuses it too", said)
        for words in ("log: no definition", "ALTER TABLE log ADD COLUMN log_number", "UNIQUE (email)", "table people_by_email", "view sales_people_buyer", "view sales_people_seller", "(amount >= 1 or amount is null) and (amount <= 9 or amount is null)", "agent) may be null"):
            self.assertIn(words, said)
        definitions = [line.lstrip("# ") for line in lines if line.lstrip("# ").startswith(("table", "view"))]
        with Server() as server:
            for text in definitions:
                server.define(text)

    def test_surrogate_keys(self):
        self.sql(self.SHOP)
        store = f"{self.room}/shop.db"
        self.cigrelk("take", self.address, "--into", store, "--surrogate")
        with Server(store) as server:
            self.assertEqual(len(server["log"].read()), 2)
            server.define("view items_orders = join_dl items with (rename id to order_id from orders)")
            self.assertEqual(len(server["items_orders"].read()), 3)

    def test_surrogate_keys_in_the_database(self):
        """Tables get a column of numbers each, once, and are edited by a join that their own key does not give."""
        self.sql(self.SHOP)
        path, types = f"{self.room}/definitions.txt", f"{self.room}/types.json"
        done = self.cigrelk("take", self.address, "--types", types, "--surrogate")
        self.assertEqual(done.stderr.splitlines(), ['ALTER TABLE "public"."items" ADD COLUMN items_number bigint GENERATED ALWAYS AS IDENTITY UNIQUE;',
                                                    'ALTER TABLE "public"."log" ADD COLUMN log_number bigint GENERATED ALWAYS AS IDENTITY PRIMARY KEY;'])
        again = self.cigrelk("take", self.address, "--types", types, "--surrogate")
        self.assertEqual((again.stdout, again.stderr), (done.stdout, ""))
        self.assertIn("# view items_orders = join_dl items with (rename id to order_id from orders)", done.stdout)
        with open(path, "w", encoding="utf-8") as file:
            file.write(done.stdout.replace("# view items_orders", "view items_orders"))
        self.run_script(self.cigrelk("compile", path, "--existing", "--types", types).stdout)
        self.sql("UPDATE items_orders SET note = 'b' WHERE order_id = 1; INSERT INTO items_orders (order_id, line, amount, note) VALUES (1, 3, 4, 'b'); DELETE FROM log WHERE log_number = 1")
        self.assertEqual(self.sql("SELECT id, note FROM orders ORDER BY id; SELECT count(*), max(items_number) FROM items; SELECT count(*) FROM log"), ["1|b", "2|", "4|4", "1"])
        self.rejects("23505", "INSERT INTO items_orders (order_id, line, amount, note) VALUES (1, 3, 5, 'b')")

    def test_views_over_tables_as_they_are(self):
        self.sql("""CREATE TABLE "Rooms" ("Id" int PRIMARY KEY, "Opened" date NOT NULL, area float8); CREATE TABLE desks (id int GENERATED ALWAYS AS IDENTITY UNIQUE, code uuid PRIMARY KEY,
                    room int NOT NULL REFERENCES "Rooms", price numeric(8,2) CHECK (price > 0), tags jsonb, note json DEFAULT '{}'); INSERT INTO "Rooms" VALUES (1, '2026-01-01', 1.5);
                    INSERT INTO desks (code, room, price) VALUES ('6ba7b810-9dad-11d1-80b4-00c04fd430c8', 1, 9.50)""")
        path, types = f"{self.room}/definitions.txt", f"{self.room}/types.json"
        said = self.cigrelk("take", self.address, "--types", types).stdout
        with open(path, "w", encoding="utf-8") as file:
            file.write(said.replace("# view", "view"))
        before = self.dump()
        self.run_script(self.cigrelk("compile", path, "--existing", "--types", types).stdout)
        self.sql("UPDATE desks_rooms SET price = 10, area = 2 WHERE room = 1; UPDATE desks_rooms SET price = 9.5, area = 1.5 WHERE opened = '2026-01-01'")
        self.rejects("23514", "UPDATE desks_rooms SET price = -1")
        self.sql("INSERT INTO desks_rooms (code, room, price, opened, area) VALUES ('6ba7b810-9dad-11d1-80b4-00c04fd430c9', 2, 1, '2026-02-02', 3)")
        self.assertEqual(self.sql('SELECT id, note::text, "Opened" FROM desks JOIN "Rooms" ON room = "Id" ORDER BY id'), ["1|{}|2026-01-01", "2|{}|2026-02-02"])
        self.sql("DELETE FROM desks_rooms WHERE room = 2; DELETE FROM \"Rooms\" WHERE \"Id\" = 2")
        self.run_script(self.compile(options=["--remove"]))
        self.assertEqual([line for line in self.dump() if "setval" not in line], [line for line in before if "setval" not in line])


class TakeFromFiles(unittest.TestCase):
    def setUp(self):
        import tempfile

        room = tempfile.TemporaryDirectory()
        self.addCleanup(room.cleanup)
        self.room, self.store = room.name, f"{room.name}/shop.db"

    def test_sqlite(self):
        with sqlite3.connect(f"{self.room}/old.sqlite") as old:
            old.executescript("""CREATE TABLE artists (id INTEGER PRIMARY KEY, name TEXT NOT NULL UNIQUE, alive BOOLEAN, fee DECIMAL(8,2), face BLOB, CHECK (fee >= 0 OR alive IN (0)));
                CREATE TABLE "Albums" (id INTEGER PRIMARY KEY, artist_id INTEGER NOT NULL REFERENCES artists (id), title VARCHAR(40) NOT NULL, score REAL);
                INSERT INTO artists VALUES (1, 'it''s "é"', 1, 2.5, x'00ff'), (2, 'b', NULL, NULL, NULL); INSERT INTO "Albums" VALUES (7, 1, 'x' || char(10), 0.1)""")
        old.close()
        said = run("take", f"{self.room}/old.sqlite", "--into", self.store, test=self).stdout
        self.assertIn("# view albums_artists = join_dl albums with (rename id to artist_id from artists)", said)
        with Server(self.store) as server:
            self.assertEqual(list(server["artists"].read()), [{"id": 1, "name": 'it\'s "é"', "alive": True, "fee": 250, "face": "\\x00ff"}, {"id": 2, "name": "b", "alive": None, "fee": None, "face": None}])
            self.assertEqual(list(server["albums"].read()), [{"id": 7, "artist_id": 1, "title": "x\n", "score": "0.1"}])

    def test_sqlite_with_values_of_other_types(self):
        with sqlite3.connect(f"{self.room}/old.sqlite") as old:
            old.executescript("CREATE TABLE t (id INTEGER PRIMARY KEY, n INT); INSERT INTO t VALUES (1, 'seven'), (2, 7)")
        old.close()
        self.assertIn("t.n: 1 value not int", run("take", f"{self.room}/old.sqlite", "--into", self.store, status=1, test=self).stderr)
        self.assertFalse(os.path.exists(self.store))

    def test_csv(self):
        files = {"albums": "album,quantity\nShow,3\n\"Wish, \"\"live\"\"\",\n", "tracks": "track,album,loved\na,Show,true\nb,Show,false\n"}
        for name, text in files.items():
            with open(f"{self.room}/{name}.csv", "w", encoding="utf-8") as file:
                file.write(text)
        said = run("take", self.room, "--into", self.store, test=self).stdout
        self.assertIn("# view tracks_albums = join_dl tracks with albums", said)
        with Server(self.store) as server:
            self.assertEqual(list(server["albums"].read()), [{"album": "Show", "quantity": 3}, {"album": 'Wish, "live"', "quantity": None}])
            self.assertEqual(list(server["tracks"].read()), [{"track": "a", "album": "Show", "loved": True}, {"track": "b", "album": "Show", "loved": False}])
        with open(f"{self.store}.types.json", encoding="utf-8") as file:
            self.assertEqual(list(json.load(file)), ["albums", "tracks"])


if __name__ == "__main__":
    unittest.main()
