"""Random definitions and edits, given to the program and to PostgreSQL: the same replies, and the same rows everywhere."""
import collections
import random

from cigrelk import Server
from cigrelk.kinds import base
from cigrelk.postgres import TYPES, Failed
from cigrelk.sql.edits import Compiling
from cigrelk.sql.judge import Differ, Judge, key, run_script
from cigrelk.sql.nodes import Catalogue
from cigrelk.sql.script import script
from cigrelk.sql.words import value_literal
from random_views import Definitions, edits

STATES = {None: "00000", 42: "44000", 43: "23P01"}


class Stream:
    """A set of random definitions in a schema of its own, and edits of it. A part `by_statement` of the edits is made by statements
    of SQL. `texts` has the definitions, if they are not random."""

    def __init__(self, session, seed, by_statement=0.3, isolation="locks", texts=()):
        self.session, self.by_statement, self.schema = session, by_statement, f"s{seed}"
        self.counts, self.random = collections.Counter(), random.Random(f"{seed} statements")
        self.program = Server()
        for text in texts:
            self.program.define(text)
        self.texts = texts or Definitions(self.program, f"{seed} definitions").texts
        self.edits = edits(self.program, f"{seed} edits")
        self.drop()
        session.ask(f"SET default_transaction_isolation = '{'serializable' if isolation == 'serializable' else 'read committed'}'", f"CREATE SCHEMA {self.schema}")
        run_script(session, script(Compiling(Catalogue(self.texts, self.schema), isolation)))
        self.judge = Judge(session, self.program, self.schema)

    def __enter__(self):
        return self

    def __exit__(self, *_):
        self.program.close()

    def drop(self):
        self.session.ask(f"DROP SCHEMA IF EXISTS {self.schema} CASCADE", f'DROP SCHEMA IF EXISTS "{self.schema}:cigrelk" CASCADE')

    def run(self, count):
        """Makes edits, and compares all tables and views after every fifth of them. Raises Differ."""
        try:
            for number in range(count):
                self.edit()
                if number % 5 == 4 or number == count - 1:
                    self.counts["relations compared"] += self.judge.compare()
        except Differ as difference:
            raise Differ("\n".join([str(difference), *self.texts, *self.judge.lines[-8:]])) from None
        self.drop()

    def edit(self):
        name, remove, add = self.edits.next()
        statements = self.statements(name, remove, add) if self.random.random() < self.by_statement else None
        reply = self.by_statements(name, remove, add, statements) if statements else self.judge.edit(name, remove, add)
        self.counts["edits"] += 1
        self.counts["made by statements"] += bool(statements)
        self.counts["accepted" if reply["ok"] else f"rejected by {reply['error']}"] += 1
        self.counts["with a change"] += bool(reply["ok"] and reply["changed"])

    def by_statements(self, name, remove, add, statements):
        reply = self.judge.request({"do": "edit", "view": name, "remove": remove, "add": add})
        try:
            self.session.ask(*statements)
            state = "00000"
        except Failed as error:
            state = error.state
            self.session.ask("ROLLBACK")
        if state != STATES[reply.get("error")]:
            raise Differ(f"{statements}\nprogram: {key(reply)}\nPostgreSQL: {state}")
        return reply

    def statements(self, name, remove, add):
        """One edit as statements of SQL, or None if it is none: a table is edited by its functions alone."""
        if self.program.names()[name] == "table":
            return None
        kinds = self.program[name].columns()
        view, columns = f'{self.schema}."{name}"', list(kinds)
        there = {key(row) for row in self.program[name].read()}
        gone = [row for row in remove if key(row) in there]
        typed = lambda row, start: ", ".join(f'{value_literal(row[column])}::{TYPES[base(kinds[column])]} AS "{start}{column}"' for column in columns)
        same = " AND ".join(f'"V"."{column}" IS NOT DISTINCT FROM "O"."O{column}"' for column in columns)
        picked = " UNION ALL ".join(f"SELECT {typed(row, 'O')}" for row in remove)
        delete = f'DELETE FROM {view} "V" USING ({picked}) "O" WHERE {same}'
        rows = ", ".join("(" + ", ".join(f"({value_literal(row[column])})" for column in columns) + ")" for row in add)
        insert = f"INSERT INTO {view} ({', '.join(columns)}) VALUES {rows}"
        if self.random.random() < 0.3 or (remove and add and len(gone) != len(add)):
            # All statements of a transaction are one edit.
            parts = [part for part, rows in ((delete, remove), (insert, add)) if rows]
            return ["BEGIN", "SET LOCAL cigrelk.at = 'commit'", *parts, "COMMIT"]
        if remove and not add:
            return [delete]
        if add and not gone:
            return [insert]
        picked = " UNION ALL ".join(f"SELECT {typed(old, 'O')}, {typed(new, 'W')}" for old, new in zip(gone, add))
        changes = ", ".join(f'"{column}" = "O"."W{column}"' for column in columns)
        return [f'UPDATE {view} "V" SET {changes} FROM ({picked}) "O" WHERE {same}']
