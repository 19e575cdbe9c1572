"""What stands on docs/SQL.md does what the page says: its commands, and the loops by which clients try a transaction again."""
import os
import re
import subprocess
import sys
import tempfile
import unittest

HERE = os.path.dirname(os.path.abspath(__file__))
sys.path[:0] = [os.path.dirname(HERE), HERE]
from cigrelk import TOP
from packages import module, wants
from postgres_servers import Servers


def blocks(kind):
    """The blocks of a kind on the page."""
    with open(f"{TOP}/docs/SQL.md", encoding="utf-8") as file:
        return re.findall(rf"^```{kind}\n(.*?)^```$", file.read(), re.S | re.M)


@wants("postgresql")
class SQLPage(unittest.TestCase):
    """The page is read from above, so its tests are one."""

    def setUp(self):
        self.servers = Servers("base", settings="synchronous_commit = off")
        self.addCleanup(self.servers.close)
        room = tempfile.TemporaryDirectory()
        self.addCleanup(room.cleanup)
        self.room = room.name
        # What is typed on the page names a database alone.
        self.settings = {**os.environ, "PGHOST": f"{self.servers.room}/base", "PGUSER": "shop", "PGCLIENTENCODING": "UTF8"}
        self.servers.sql(self.servers.address("base"), "CREATE DATABASE shop")

    def run_it(self, *words, text=None):
        done = subprocess.run(words, input=text, stdout=subprocess.PIPE, stderr=subprocess.STDOUT, text=True, env=self.settings, cwd=self.room)
        self.assertEqual(done.returncode, 0, done.stdout)
        return done.stdout

    def names(self):
        """The name that the last loop gave, as the table has it."""
        return self.run_it("psql", "-At", "shop", "-c", "SELECT name FROM customers WHERE id = 3; UPDATE customers SET name = 'Bob' WHERE id = 3")

    def test_the_page(self):
        with self.subTest("the commands"):
            self.run_it(f"{TOP}/examples/check_pages", "SQL")
        self.run_it("psql", "-q", "shop", "-c", "UPDATE customers SET name = 'Bob'")
        update = "UPDATE paid SET name = 'Robert' WHERE customer_id = 3"
        with self.subTest("a loop in psql"):
            (loop,) = blocks("sh")
            self.write("edit.sql", f"{update};\n")
            self.assertEqual(self.run_it("bash", "-c", loop), "")
            self.assertEqual(self.names(), "Robert\nUPDATE 1\n")
            self.write("edit.sql", "UPDATE paid SET status = 'new';\n")
            self.assertIn("44000", self.run_it("bash", "-c", loop))
        with self.subTest("a loop in SQL"):
            procedure = next(text for text in blocks("sql") if "try_again" in text)
            self.run_it("psql", "-q", "-v", "ON_ERROR_STOP=1", "shop", text=procedure)
            self.assertEqual(self.names(), "Robert\nUPDATE 1\n")
        with self.subTest("a loop in Python"):
            if module("psycopg2")():
                (loop,) = blocks("python")
                self.run_it(sys.executable, "-c", f"import psycopg2\nconnection = psycopg2.connect('dbname=shop')\n{loop}")
                self.assertEqual(self.names(), "Robert\nUPDATE 1\n")

    @wants("python3-psycopg2")
    def test_two_clients_lose_no_update(self):
        """Both make one text longer at once in serializable transactions, by the loop of the page."""
        self.run_it("psql", "-q", "shop", "-f", f"{TOP}/examples/orders.sql")
        self.run_it("bash", "-c", f"{TOP}/cigrelk take postgresql:///shop --types types.json > definitions.txt; sed -i 's/^# view/view/' definitions.txt; "
                    f"{TOP}/cigrelk compile definitions.txt --existing --types types.json --isolation serializable | psql -q -v ON_ERROR_STOP=1 shop")
        (loop,) = blocks("python")
        edit = "transaction(connection, lambda cursor: cursor.execute(\"UPDATE orders_customers SET email = email || 'x' WHERE customer_id = 3\"))"
        text = f"import psycopg2\nconnection = psycopg2.connect('dbname=shop')\nconnection.set_session('SERIALIZABLE')\n{loop[: loop.rindex('transaction(')]}for _ in range(20):\n    {edit}\n"
        clients = [subprocess.Popen([sys.executable, "-c", text], env=self.settings) for _ in range(2)]
        self.assertEqual([client.wait() for client in clients], [0, 0])
        self.assertEqual(self.run_it("psql", "-At", "shop", "-c", "SELECT email FROM customers WHERE id = 3"), f"bob@example{'x' * 40}\n")

    def write(self, name, text):
        with open(f"{self.room}/{name}", "w", encoding="utf-8") as file:
            file.write(text)


if __name__ == "__main__":
    unittest.main()
