"""Views compiled to SQL, in a PostgreSQL that is started for it: they mean the same as in the program, for several writers too."""
import json
import os
import subprocess
import sys
import tempfile
import unittest

HERE = os.path.dirname(os.path.abspath(__file__))
sys.path[:0] = [os.path.dirname(HERE), HERE]
from cigrelk import TOP
from cigrelk.postgres import Failed
from compare_sql import Stream
from packages import wants
from postgres_servers import BIN, Servers
from sql_session import Session
from sql_writers import MUSIC, replay, write_at_once


class WithPostgreSQL(unittest.TestCase):
    """Tests that have a database each, in one PostgreSQL for all classes of a file."""

    servers = None

    @classmethod
    def setUpClass(cls):
        if WithPostgreSQL.servers is None:
            WithPostgreSQL.servers = Servers("base", settings="synchronous_commit = off")
            unittest.addModuleCleanup(WithPostgreSQL.servers.close)

    def setUp(self):
        database = self.id().rpartition(".")[2][:60]
        self.servers.sql(self.servers.address("base"), f"CREATE DATABASE {database}")
        self.address = self.servers.address("base", database)
        room = tempfile.TemporaryDirectory()
        self.addCleanup(room.cleanup)
        self.room = room.name

    def session(self):
        session = Session(self.address)
        self.addCleanup(session.close)
        return session

    def sql(self, text):
        return self.servers.sql(self.address, text)

    def compile(self, *texts, options=()):
        """The script that the command prints for definitions."""
        path = f"{self.room}/definitions.txt"
        with open(path, "w", encoding="utf-8") as file:
            file.write("".join(f"{text}\n" for text in texts))
        done = subprocess.run([f"{TOP}/cigrelk", "compile", *([path] if texts else []), *options], capture_output=True, text=True)
        self.assertEqual(done.returncode, 0, done.stderr)
        return done.stdout

    def run_script(self, text):
        """Runs a script as a person does, by psql."""
        done = subprocess.run(["psql", "-X", "-q", "-v", "ON_ERROR_STOP=1", "-d", self.address], input=text, capture_output=True, text=True)
        self.assertEqual((done.returncode, done.stdout, done.stderr), (0, "", ""))

    def install(self, *texts, options=()):
        self.run_script(self.compile(*texts, options=options))

    def dump(self):
        """The whole database as statements. (pg_dump puts a random word into two of its lines.)"""
        done = subprocess.run([f"{BIN}/pg_dump", "-d", self.address], capture_output=True, text=True, check=True)
        return [line for line in done.stdout.splitlines() if not line.startswith(("\\restrict", "\\unrestrict"))]

    def rejects(self, state, *statements):
        with self.assertRaises(Failed) as caught:
            self.session().ask(*statements)
        self.assertEqual(caught.exception.state, state)


@wants("postgresql")
class SameMeaning(WithPostgreSQL):
    def compare(self, seeds, edits, isolation="locks"):
        for seed in seeds:
            session = Session(self.address)
            with Stream(session, seed, isolation=isolation) as stream:
                stream.run(edits)
            session.close()

    def test_random_edits_of_random_views(self):
        self.compare(range(1, 7), 40)

    def test_random_edits_in_serializable_transactions(self):
        self.compare((9,), 40, "serializable")

    def test_the_program_as_the_judge(self):
        """It finds no difference over tables as they are, and changes nothing there."""
        self.sql('CREATE TABLE albums (album text PRIMARY KEY, "Quantity" bigint NOT NULL); CREATE TABLE tracks (track text, date date NOT NULL, rating int NOT NULL, album text, PRIMARY KEY (track, album)); '
                 "INSERT INTO albums SELECT 'a' || i, i % 5 FROM generate_series(1, 9) i; INSERT INTO tracks SELECT 't' || i, date '2026-01-01' + i, i, 'a' || j FROM generate_series(1, 9) i, generate_series(1, 5) j")
        types = {"albums": {"table": "albums", "columns": {"album": {"name": "album", "native": None, "default": None}, "quantity": {"name": "Quantity", "native": None, "default": None}}},
                 "tracks": {"table": "tracks", "columns": {"date": {"name": "date", "native": "date", "default": None}}}}
        with open(f"{self.room}/types.json", "w", encoding="utf-8") as file:
            json.dump(types, file)
        texts = [MUSIC[0], MUSIC[1].replace("date int", "date text"), MUSIC[2].replace("2018", "'2018-01-01'")]
        before = self.dump()
        said = self.compile(*texts, options=["--check", self.address, "--types", f"{self.room}/types.json", "--edits", "60"])
        self.assertRegex(said, "60 edits, [0-9]+ of them accepted: the same replies and the same rows")
        self.assertEqual(self.dump(), before)


@wants("postgresql")
class SeveralWriters(WithPostgreSQL):
    def test_writers_with_locks(self):
        lost, broken, counts = write_at_once(self.address, "locks", 4, 40)
        self.assertEqual((lost, broken), (0, 0), counts)

    def test_writers_in_serializable_transactions(self):
        lost, broken, counts = write_at_once(self.address, "serializable", 4, 40)
        self.assertEqual((lost, broken), (0, 0), counts)

    def test_without_locks_updates_are_lost(self):
        lost, broken, _ = write_at_once(self.address, "locks", 6, 80, without_locks=True)
        self.assertGreater(lost + broken, 0)

    def test_edits_at_once_have_an_order(self):
        wrong, accepted = replay(self.address, 4, 40)
        self.assertEqual(wrong, [])
        self.assertGreater(accepted, 20)

    def test_transactions_of_another_isolation_are_rejected(self):
        self.install(*MUSIC)
        self.rejects("25001", "BEGIN ISOLATION LEVEL REPEATABLE READ", "INSERT INTO stock (track, rating, album, quantity) VALUES ('Disco', 2, 'Wish', 6)")


@wants("postgresql")
class Scripts(WithPostgreSQL):
    ROWS = "INSERT INTO albums VALUES ('Show', 3), ('Wish', 1); INSERT INTO tracks VALUES ('Lullaby', 1989, 3, 'Show'), ('Lullaby', 1989, 3, 'Wish')"

    def test_a_script_that_is_run_again_changes_nothing(self):
        script = self.compile(*MUSIC)
        self.run_script(script)
        self.sql(self.ROWS)
        before = self.dump()
        self.run_script(script)
        self.assertEqual(self.dump(), before)

    def test_another_script_makes_what_is_new_and_drops_what_is_gone(self):
        self.install(*MUSIC, "view loved = select from tracks where rating > 4", options=["--editors", "public"])
        self.sql(self.ROWS + "; CREATE ROLE borrower; GRANT SELECT ON stock TO borrower")
        self.addCleanup(self.sql, "DROP OWNED BY borrower; DROP ROLE borrower")
        oids = "SELECT 'stock'::regclass::oid, to_regclass('loved') IS NULL, to_regclass('gold') IS NULL"
        (first,) = self.sql(oids)
        self.install(*MUSIC, "view gold = select from stock where rating > 3", options=["--editors", "public"])
        self.assertEqual(self.sql(oids), [first.replace("f|t", "t|f")])
        # a view that means something else is made anew, with the rights that were granted on it
        self.install(*MUSIC[:2], MUSIC[2].replace("quantity > 2", "quantity > 0"), options=["--editors", "public"])
        self.assertEqual(self.sql("SELECT count(*), has_table_privilege('borrower', 'stock', 'SELECT') FROM stock"), ["2|t"])
        self.assertEqual(self.sql('SELECT "Version" FROM "public:cigrelk"."Compiled"'), ["3"])
        # and it is the same as if it had been made at once
        again = self.dump()
        self.install(*MUSIC[:2], MUSIC[2].replace("quantity > 2", "quantity > 0"), options=["--editors", "public"])
        self.assertEqual(self.dump(), again)
        # what someone dropped is made again
        self.sql("SET client_min_messages = error; DROP VIEW stock CASCADE")
        self.install(*MUSIC[:2], MUSIC[2].replace("quantity > 2", "quantity > 0"), options=["--editors", "public"])
        self.sql("UPDATE stock SET rating = 5 WHERE album = 'Show' OR album = 'Wish'")
        self.assertEqual(self.sql("SELECT DISTINCT rating FROM tracks"), ["5"])

    def test_removing_leaves_the_tables_as_they_were(self):
        self.sql("CREATE TABLE albums (album text PRIMARY KEY, quantity bigint NOT NULL); CREATE TABLE tracks (track text NOT NULL, date bigint NOT NULL, "
                 "rating bigint NOT NULL, album text NOT NULL REFERENCES albums, PRIMARY KEY (track, album)); " + self.ROWS)
        before = self.dump()
        self.install(*MUSIC, options=["--existing"])
        self.sql("INSERT INTO stock VALUES ('Disco', 2, 'Show', 3); DELETE FROM stock WHERE track = 'Disco'")
        self.run_script(self.compile(options=["--remove"]))
        self.assertEqual(self.dump(), before)

    def test_a_table_with_other_columns_is_rejected(self):
        self.sql("CREATE TABLE albums (album text PRIMARY KEY, price bigint NOT NULL)")
        before = self.dump()
        done = subprocess.run(["psql", "-X", "-q", "-v", "ON_ERROR_STOP=1", "-d", self.address], input=self.compile(*MUSIC), capture_output=True, text=True)
        self.assertIn("the table albums has no column quantity", done.stderr)
        self.assertEqual(self.dump(), before)

    def test_rows_that_break_a_dependency_are_rejected(self):
        self.sql("CREATE TABLE albums (album text PRIMARY KEY, quantity bigint NOT NULL); CREATE TABLE tracks (track text NOT NULL, date bigint NOT NULL, "
                 "rating bigint NOT NULL, album text NOT NULL, PRIMARY KEY (track, album)); INSERT INTO tracks VALUES ('a', 1, 1, 'x'), ('a', 1, 2, 'y')")
        done = subprocess.run(["psql", "-X", "-q", "-v", "ON_ERROR_STOP=1", "-d", self.address], input=self.compile(*MUSIC, options=["--existing"]), capture_output=True, text=True)
        self.assertIn("rows of tracks break a dependency: track -> date rating", done.stderr)

    def test_names(self):
        """Reserved words, a schema whose name PostgreSQL would fold or cut, and the longest names of the language."""
        long = "a" * 32
        schema = 'Ünser "Laden" ' + "x" * 45
        quoted = schema.replace('"', '""')
        self.sql(f'CREATE SCHEMA "{quoted}"')
        texts = [f"table user (select_ text, order text, {long} int) with select_ -> order, order -> {long}", f"view {long} = rename order to group from user where_".replace(" where_", "")]
        self.install(*texts, options=["--schema", schema])
        session = self.session()
        session.ask(f'SET search_path = "{quoted}"')
        session.ask(f"INSERT INTO {long} (select_, \"group\", {long}) VALUES ('a', 'x', 1), ('b', 'x', 1)")
        self.assertEqual(session.values(f'SELECT to_json(edit_{long}.*) FROM edit_{long}(ARRAY[ROW(\'a\', \'x\', 1)]::{long}[], \'{{}}\')')[0]["user_add"], [])
        self.assertEqual(session.values("SELECT count(*) FROM \"user\""), [1])
        self.run_script(self.compile(*texts, options=["--schema", schema]))
        self.run_script(self.compile(options=["--remove", "--schema", schema]))
        self.assertEqual(session.values("SELECT count(*) FROM pg_namespace WHERE nspname LIKE '%cigrelk%'"), [0])


@wants("postgresql")
class Rights(WithPostgreSQL):
    def setUp(self):
        super().setUp()
        self.sql("SET client_min_messages = error; DROP ROLE IF EXISTS clerk; DROP ROLE IF EXISTS reader; DROP ROLE IF EXISTS keeper; CREATE ROLE clerk; CREATE ROLE reader; CREATE ROLE keeper")
        self.addCleanup(self.sql, "DROP OWNED BY clerk; DROP OWNED BY reader; DROP OWNED BY keeper")
        self.sql("GRANT CREATE ON DATABASE " + self.address.split("/")[3].split("?")[0] + " TO keeper; GRANT CREATE ON SCHEMA public TO keeper")
        self.install(*MUSIC, options=["--editors", "clerk", "--readers", "reader", "--owner", "keeper"])
        self.sql(Scripts.ROWS)

    def test_who_may_edit(self):
        self.sql("SET ROLE clerk; UPDATE stock SET rating = 4; INSERT INTO stock VALUES ('Disco', 2, 'Show', 3); SELECT edit_stock('{}', '{}')")
        self.rejects("42501", "SET ROLE clerk", "UPDATE tracks SET rating = 4")
        self.rejects("42501", "SET ROLE reader", "UPDATE stock SET rating = 4")
        self.rejects("42501", "SET ROLE reader", "SELECT edit_stock('{}', '{}')")
        self.assertEqual(self.sql("SET ROLE reader; SELECT count(*) FROM stock"), ["2"])
        self.assertEqual(self.sql("SELECT relowner::regrole FROM pg_class WHERE relname = 'stock'"), ["keeper"])

    def test_settings_give_no_rights(self):
        """Who may only insert deletes nothing by the settings that triggers use, and no one's own objects run with the owner's rights."""
        self.sql("CREATE ROLE adder; GRANT SELECT, INSERT ON stock TO adder")
        self.addCleanup(self.sql, "DROP OWNED BY adder; DROP ROLE adder")
        row = "set_config('cigrelk.remove' || 'stock'::regclass::oid, '\"(Lullaby,3,Show,3)\",', true)"
        self.rejects("42501", "SET ROLE adder", "BEGIN", f"INSERT INTO stock SELECT 'Disco', 2, 'Show', CASE WHEN {row} <> '' THEN 3 END", "COMMIT")
        self.rejects("42501", "SET ROLE clerk", 'CREATE TEMPORARY TABLE "cigrelk:rows" ("View" oid, "Remove" text, "Add" text)', "INSERT INTO stock SELECT 'Disco' || i, 2, 'Show', 3 FROM generate_series(1, 1000) i")
        # a function of the same name in the path of who calls
        self.sql("CREATE SCHEMA trap; GRANT USAGE ON SCHEMA trap TO clerk; CREATE FUNCTION trap.cardinality(anyarray) RETURNS int LANGUAGE plpgsql AS 'BEGIN RAISE EXCEPTION ''trapped''; END'")
        # an operator and a temporary type of the same names
        self.sql("CREATE FUNCTION trap.joined(text, text) RETURNS text LANGUAGE plpgsql AS 'BEGIN RAISE EXCEPTION ''trapped''; END'; CREATE OPERATOR trap.|| (LEFTARG = text, RIGHTARG = text, FUNCTION = trap.joined)")
        self.sql("GRANT USAGE ON SCHEMA trap TO clerk; SET ROLE clerk; SET search_path = trap, pg_catalog, public; CREATE DOMAIN pg_temp.text AS pg_catalog.text CHECK (VALUE IS NULL); "
                 "DELETE FROM stock WHERE track = 'Lullaby'")
        self.assertEqual(self.sql("SELECT count(*) FROM stock"), ["0"])


@wants("postgresql")
class Statements(WithPostgreSQL):
    def setUp(self):
        super().setUp()
        self.install(*MUSIC)
        self.sql(Scripts.ROWS)

    def test_a_statement_is_one_edit(self):
        self.sql("UPDATE stock SET rating = rating + 1 WHERE track = 'Lullaby'")
        self.assertEqual(self.sql("SELECT DISTINCT rating FROM tracks"), ["4"])
        self.sql("INSERT INTO stock SELECT 't' || i, 1, 'b' || i % 7, 5 FROM generate_series(1, 3000) i")
        self.assertEqual(self.sql("SELECT count(*) FROM stock; UPDATE stock SET quantity = quantity + 1 WHERE album LIKE 'b%'; SELECT count(*) FROM albums WHERE quantity = 6"), ["3001", "7"])
        session = self.session()
        # The hidden row of Lullaby on Wish would be shown, and was not sent: it is deleted.
        session.ask("COPY stock (track, rating, album, quantity) FROM STDIN" + ";\nDisco\t2\tWish\t6\nTrust\t4\tNew\\\\album\"s\t6\n\\.\nSELECT 1")
        self.assertEqual(session.values("SELECT count(*) FROM stock WHERE quantity = 6 AND album IN ('Wish', 'New\\album\"s')"), [2])

    def test_rejections_and_savepoints(self):
        self.rejects("44000", "INSERT INTO stock VALUES ('Disco', 2, 'Wish', 2)")
        self.rejects("23P01", "INSERT INTO stock VALUES ('Lullaby', 2, 'Show', 3)")
        self.sql("BEGIN; SAVEPOINT a; UPDATE stock SET rating = 9; ROLLBACK TO a; INSERT INTO stock VALUES ('Disco', 2, 'Show', 3); COMMIT")
        self.assertEqual(self.sql("SELECT track, rating FROM stock ORDER BY track"), ["Disco|2", "Lullaby|3"])

    def test_direct_changes_are_tested_at_the_end_of_the_statement(self):
        self.rejects("23P01", "UPDATE tracks SET rating = 5 WHERE album = 'Show'")
        self.sql("UPDATE tracks SET rating = 5")
        self.rejects("23P01", "INSERT INTO tracks VALUES ('Lullaby', 1989, 3, 'New')")

    def test_exclusion_constraints(self):
        self.sql("CREATE EXTENSION btree_gist")
        self.install(*MUSIC, options=["--exclude"])
        self.rejects("23P01", "ALTER TABLE tracks DISABLE TRIGGER USER", "INSERT INTO tracks VALUES ('Lullaby', 1989, 2, 'New')")
        self.sql("UPDATE stock SET rating = 5 WHERE track = 'Lullaby'; UPDATE tracks SET rating = 6 WHERE track = 'Lullaby'")
        self.install(*MUSIC)
        self.assertEqual(self.sql("SELECT count(*) FROM pg_constraint WHERE contype = 'x'"), ["0"])


if __name__ == "__main__":
    unittest.main()
