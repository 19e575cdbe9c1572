"""A connection to PostgreSQL over psql, and texts of its SQL."""
import json
import os
import subprocess

from .errors import CommandError

# What psql prints behind the output of a message.
DONE = "cigrelk-done"
# The line behind the rows of a query.
LAST = "cigrelk-last"
# One bridge serves a schema at a time: a second one waits for the first one's connection, and for the statement that it runs.
ALONE = ["SET lock_timeout = '30s'", "SELECT pg_advisory_lock(hashtext('cigrelk ' || current_schema()))", "SET lock_timeout = 0"]
# What the catalogue calls tables (plain, partitioned and foreign ones) and views.
KINDS = {"r": "table", "p": "table", "f": "table", "v": "view", "m": "materialized view", "S": "sequence", "i": "index", "I": "index"}
# The types of columns, by the kinds of the language.
TYPES = {"int": "bigint", "text": "text", "bool": "boolean"}
# The beginnings of those SQLSTATEs that pass by themselves: a connection, also between two servers, a conflict, a want of room, an
# operator, a standby that does not write yet, a lock.
PASSING = ("08", "40", "53", "57", "58", "HV", "25006", "55P03")


class Failed(CommandError):
    """The database refused statements, or cannot be reached, or went away; psql says more on standard error. `passes` tells
    whether it is worth trying again, and `state` is the SQLSTATE, if there is one."""

    def __init__(self, text, passes, state=None):
        self.passes, self.state = passes, state
        super().__init__(text)


class Connection:
    """A connection, by psql. Raises Failed."""

    def __init__(self, address, errors=None):
        words = ["psql", "-X", "-q", "-t", "-A", "-d", address]
        settings = {**os.environ, "PGCLIENTENCODING": "UTF8", "PGAPPNAME": "cigrelk"}
        try:
            # In a session of its own, so that Ctrl-C at a terminal does not end a statement in the middle.
            self.process = subprocess.Popen(words, stdin=subprocess.PIPE, stdout=subprocess.PIPE, stderr=errors, env=settings, start_new_session=True)
        except OSError as error:
            raise Failed(f"psql cannot be started ({error.strerror})", False) from None
        # In literals a backslash means itself.
        self.ask("SET client_min_messages = warning", "SET standard_conforming_strings = on")

    def ask(self, *statements):
        """The lines that statements give. They go as one message, which is one transaction."""
        text = " \\; ".join(statements)
        try:
            self.process.stdin.write(f"{text};\n\\echo {DONE} :SQLSTATE\n".encode())
            self.process.stdin.flush()
        except BrokenPipeError:
            # psql has ended, which the next lines find.
            pass
        found = []
        while True:
            line = self.process.stdout.readline().decode()
            if line.startswith(DONE):
                break
            if not line:
                self.process.wait()
                raise Failed("the database cannot be reached, or went away", True)
            found.append(line)
        # psql tells no state where the connection broke.
        state = line[len(DONE) :].strip() or "08006"
        if state != "00000":
            raise Failed(f"the database refused it (SQLSTATE {state})", state.startswith(PASSING), state)
        return found

    def values(self, query):
        """The JSON values of a query of one column. By COPY, which gives all characters as they are; psql's own output loses some. A
        COPY that fails in the middle is no error for psql, so a last line tells that it came to its end. (It is the last since the
        query is materialized: of a query over other servers the parts come as they are there.)"""
        *lines, last = self.ask(f'COPY (WITH "IT"("IT") AS MATERIALIZED ({query}) SELECT "IT"::text FROM "IT" UNION ALL SELECT \'{LAST}\') TO STDOUT') or [""]
        if last.rstrip("\n") != LAST:
            raise Failed("the database rejected a query while it ran", False)
        return [json.loads(line.replace("\\\\", "\\")) for line in lines]

    def rows(self, query):
        """The rows of a query as dicts."""
        return self.values(f'SELECT row_to_json("IT") FROM ({query}) AS "IT"')

    def copy(self, statement, lines):
        """Sends lines to a COPY FROM STDIN."""
        self.ask(statement + ";\n" + "\n".join([*lines, "\\."]) + "\nSELECT 1")

    def close(self):
        try:
            self.process.stdin.close()
        except BrokenPipeError:
            pass
        self.process.wait()
        self.process.stdout.close()


class Database(Connection):
    """The connection of a mirror, which has a schema to itself. Raises Failed."""

    def __init__(self, address):
        super().__init__(address)
        try:
            self.ask(*ALONE)
        except Failed as error:
            if error.state == "55P03":
                raise Failed("another bridge serves this schema of the database, or what it did last still runs", True) from None
            raise
        self.schema = self.rows("SELECT current_schema() AS name")[0]["name"]
        if self.schema is None:
            raise Failed("there is no schema to make tables in", False)

    def change(self, statements):
        """Does statements as one transaction. BEGIN and COMMIT, since a message of which only a part was sent must do nothing."""
        if statements:
            self.ask("BEGIN", *statements, "COMMIT")

    def name(self, name):
        """A name with its schema: without it pg_class would be a table of the catalogue."""
        return f"{quoted(self.schema)}.{quoted(name)}"

    def kind_of(self, name):
        """What stands under a name in the schema, as 'table' or 'view'; None if nothing does."""
        found = self.rows(f"SELECT relkind FROM pg_class WHERE oid = to_regclass({literal(self.name(name))})")
        return KINDS.get(found[0]["relkind"], "thing of another kind") if found else None

    def columns(self, name):
        """The type of each column of a table by its name, without those that the database computes; empty if there is no table."""
        rows = self.rows("SELECT attname AS name, format_type(atttypid, atttypmod) AS type FROM pg_attribute "
                         f"WHERE attrelid = to_regclass({literal(self.name(name))}) AND attnum > 0 AND NOT attisdropped AND coalesce(to_jsonb(pg_attribute)->>'attgenerated', '') = '' ORDER BY attnum")
        return {row["name"]: row["type"] for row in rows}


def quoted(name):
    return '"' + name.replace('"', '""') + '"'


def names_of(columns):
    return ", ".join(map(quoted, columns))


def literal(value):
    """A value in quotes, which PostgreSQL reads as one of the column's kind."""
    if value is None:
        return "NULL"
    if isinstance(value, bool):
        return "true" if value else "false"
    return "'" + str(value).replace("'", "''") + "'"
