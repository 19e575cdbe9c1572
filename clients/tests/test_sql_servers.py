"""Compiled views over tables that are spread over three servers by postgres_fdw: the same meaning, and few trips."""
import os
import re
import sys
import unittest

HERE = os.path.dirname(os.path.abspath(__file__))
sys.path[:0] = [os.path.dirname(HERE), HERE]
from cigrelk import Server
from cigrelk.sql.edits import Compiling
from cigrelk.sql.judge import Judge, run_script
from cigrelk.sql.nodes import Catalogue
from cigrelk.sql.samples import Samples
from cigrelk.sql.script import script
from packages import wants
from postgres_servers import Servers
from sql_session import Session
from sql_writers import MUSIC

FAR = ("s0", "s1", "s2")
TRACKS = "track text NOT NULL, date bigint NOT NULL, rating bigint NOT NULL, album text NOT NULL"
# What postgres_fdw sends for transactions, and to read on or to end a cursor.
BESIDES = re.compile("START|COMMIT|SET|CLOSE|FETCH|DEALLOCATE|SAVEPOINT|RELEASE|ROLLBACK")
STATEMENT = re.compile(r"LOG:  (?:statement|execute [^:]*): (.*(?:\n\t.*)*)")
VALUES = {"int": [0, 1, 2, 3], "text": ["x", "y", "it's", "\\"]}


@wants("postgresql")
class ViewsOverServers(unittest.TestCase):
    def test_edits_over_servers(self):
        self.start()
        with self.subTest("the same meaning"):
            self.random_edits()
        with self.subTest("as many trips for many rows as for few"):
            self.many_rows()

    def start(self):
        self.servers = Servers("base", *FAR)
        self.addCleanup(self.servers.close)
        address = self.servers.address("base")
        self.servers.link(address, FAR)
        self.servers.spread(address, FAR, "albums", "album text NOT NULL, quantity bigint NOT NULL", "album", ", PRIMARY KEY (album)")
        self.servers.spread(address, FAR, "tracks", TRACKS, "album", ", PRIMARY KEY (track, album)")
        self.session = Session(address)
        self.addCleanup(self.session.close)
        run_script(self.session, script(Compiling(Catalogue(MUSIC), foreign=True)))
        program = Server()
        self.addCleanup(program.close)
        for text in MUSIC:
            program.define(text)
        self.judge = Judge(self.session, program, "public")

    def sent(self, work):
        """The statements that the servers get while something is done."""
        before = {name: os.path.getsize(self.log(name)) for name in FAR}
        work()
        found = []
        for name in FAR:
            with open(self.log(name), encoding="utf-8") as file:
                file.seek(before[name])
                found += [text for text in STATEMENT.findall(file.read()) if not BESIDES.match(text)]
        return found

    def log(self, name):
        return f"{self.servers.room}/{name}/log"

    def random_edits(self):
        samples = Samples(self.judge.program, 5, lambda column, kind: VALUES[kind])
        accepted = 0
        for number in range(40):
            name, remove, add = samples.next()
            reply = {}
            texts = self.sent(lambda: reply.update(self.judge.edit(name, remove, add)))
            accepted += reply["ok"]
            # No edit asks a server for all rows of a table.
            self.assertEqual([text for text in texts if "WHERE" not in text and "INSERT" not in text], [], (name, remove, add))
            if number % 10 == 9:
                self.judge.compare()
        self.assertGreater(accepted, 10)

    def many_rows(self):
        self.judge.edit("albums", [], [{"album": f"a{number}", "quantity": 3 + number % 5} for number in range(60)])
        insert = "INSERT INTO stock SELECT 't' || i / 5, 2, album, quantity FROM generate_series({}, {}) i JOIN albums ON album = 'a' || i"
        few, many = (len(self.sent(lambda: self.session.ask(insert.format(*rows)))) for rows in ((0, 9), (10, 59)))
        self.assertLessEqual(many, few)
        for statement in ("UPDATE stock SET rating = rating + 1 WHERE track IN ({})", "DELETE FROM stock WHERE track IN ({})"):
            few, many = (len(self.sent(lambda: self.session.ask(statement.format(names)))) for names in ("'t0', 't1'", "'t2', 't3', 't4', 't5', 't6', 't7'"))
            self.assertLessEqual(many, few)
        self.assertEqual(self.session.values("SELECT count(*) FROM tracks WHERE track LIKE 't%'"), [20])


if __name__ == "__main__":
    unittest.main()
