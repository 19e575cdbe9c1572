"""The program as the judge of compiled views: both make the same edits, and have to give the same replies and the same rows.

`cigrelk compile --check` copies rows of the tables to a schema of its own, compiles the definitions there, and plays random edits on the
copy. At the first difference it prints the requests that repeat it.
"""
import json
import os
import random

from ..kinds import base
from ..postgres import Connection, Failed, literal, quoted
from ..server import Server
from .edits import Compiling
from .nodes import Catalogue
from .samples import Samples
from .script import script
from .words import name_within

# Calls json_edit_NAME, gives a refusal as a reply, and reports if a table was scanned.
ANSWER = """
CREATE OR REPLACE FUNCTION {schema}."Answer"(view text, remove jsonb, add jsonb) RETURNS jsonb LANGUAGE plpgsql AS $$
DECLARE reply jsonb; told text; scanned bigint := (SELECT sum(seq_scan) FROM pg_stat_xact_user_tables WHERE schemaname = {literal});
BEGIN
  EXECUTE format('SELECT %I.%I($1, $2)', {literal}, 'json_edit_' || view) INTO reply USING remove, add;
  SELECT sum(seq_scan) - scanned INTO scanned FROM pg_stat_xact_user_tables WHERE schemaname = {literal};
  IF scanned > 0 THEN
    RETURN jsonb_build_object('ok', false, 'error', 0, 'scanned', scanned);
  END IF;
  RETURN reply;
EXCEPTION WHEN SQLSTATE '44000' OR SQLSTATE '23P01' THEN
  GET STACKED DIAGNOSTICS told = PG_EXCEPTION_DETAIL;
  RETURN told::jsonb;
END $$"""
# How many rows of each table are copied, and new values for columns of each type.
MOST_ROWS = 300
NEW = {"int": (0, 7, -1), "text": ("", "new", "it's"), "bool": (True, False)}


class Differ(Exception):
    """The program and PostgreSQL differ."""


def as_json(rows):
    return f"{literal(json.dumps(rows, ensure_ascii=False))}::jsonb"


def key(value):
    return json.dumps(value, sort_keys=True, ensure_ascii=False)


def in_order(rows):
    return sorted(map(key, rows))


def comparable(reply):
    """A reply without what only the program has, its rows in one order."""
    reply = {name: value for name, value in reply.items() if name != "version"}
    if "changed" in reply:
        reply["changed"] = sorted(({**one, "add": in_order(one["add"]), "remove": in_order(one["remove"])} for one in reply["changed"]), key=key)
    return reply


class Judge:
    """A program and a schema that have the same definitions and rows. `lines` has the requests so far."""

    def __init__(self, connection, program, schema):
        self.connection, self.program, self.schema, self.lines = connection, program, schema, []
        connection.ask(ANSWER.format(schema=quoted(schema), literal=literal(schema)))

    def request(self, request):
        """The program's reply."""
        self.lines.append(json.dumps(request, ensure_ascii=False))
        return json.loads(self.program.pass_on(self.lines[-1].encode()))

    def edit(self, name, remove, add):
        """Has both make an edit, and returns the program's reply. Raises Differ."""
        reply = self.request({"do": "edit", "view": name, "remove": remove, "add": add})
        try:
            found = self.answer(name, remove, add)
        except Failed as error:
            raise Differ(f"program: {key(reply)}\nPostgreSQL: {error}") from None
        if comparable(found) != comparable(reply):
            raise Differ(f"program:    {key(comparable(reply))}\nPostgreSQL: {key(comparable(found))}")
        return reply

    def answer(self, name, remove, add):
        """PostgreSQL's reply to an edit."""
        return self.connection.values(f'SELECT {quoted(self.schema)}."Answer"({literal(name)}, {as_json(remove)}, {as_json(add)})')[0]

    def relation(self, name):
        return self.connection.values(f'SELECT to_jsonb("N") FROM {quoted(self.schema)}.{quoted(name)} "N"')

    def compare(self):
        """Compares all tables and views, and returns how many they are. Raises Differ."""
        names = self.program.names()
        for name in names:
            has, found = in_order(self.program[name].read()), in_order(self.relation(name))
            if has != found:
                raise Differ(f"rows of {name}\nprogram:    {has}\nPostgreSQL: {found}")
        return len(names)


def check(texts, address, schema, types, count, seed):
    """Plays random edits on a copy of the tables, and returns a sentence. Raises Differ with the requests that repeat the difference."""
    connection, copy = Connection(address), name_within(f"{schema}:check:{os.getpid()}")
    inside = name_within(f"{copy}:cigrelk")
    try:
        with Server() as program:
            catalogue = Catalogue(texts, copy)
            connection.ask(f"CREATE SCHEMA {quoted(copy)}")
            run_script(connection, script(Compiling(catalogue)))
            for text in texts:
                program.define(text)
            judge = Judge(connection, program, copy)
            judge.lines += [json.dumps({"do": "define", "text": text}, ensure_ascii=False) for text in texts]
            pools = {}
            for leaf in Catalogue(texts, schema, types).leaves.values():
                rows = copied(connection, leaf, seed)
                reply = judge.request({"do": "put", "view": leaf.name, "rows": rows})
                if not reply["ok"]:
                    raise Differ(f"rows of {leaf.name} are no rows of its definition: {key(reply)}")
                judge.answer(leaf.name, [], rows)
                for row in rows:
                    for column, value in row.items():
                        pools.setdefault(column, []).append(value)
            chance = random.Random(seed)
            samples = Samples(program, seed, lambda column, kind: choices(pools, column, kind, chance))
            accepted = play(judge, samples, count)
            return f"{count:,} edits, {accepted:,} of them accepted: the same replies and the same rows"
    finally:
        connection.ask("SET client_min_messages = error", f"DROP SCHEMA IF EXISTS {quoted(copy)} CASCADE", f"DROP SCHEMA IF EXISTS {quoted(inside)} CASCADE")
        connection.close()


def play(judge, samples, count):
    """Makes edits, and returns how many were accepted. Raises Differ with the requests so far."""
    accepted = 0
    try:
        for number in range(count):
            accepted += judge.edit(*samples.next())["ok"]
            if number % 5 == 4 or number == count - 1:
                judge.compare()
    except Differ as difference:
        raise Differ("\n".join([*judge.lines, str(difference)])) from None
    return accepted


def copied(connection, leaf, seed):
    """Some rows of a table, with values of native types as texts."""
    native = [name for name, kind in leaf.kinds.items() if ":" in base(kind)]
    parts = ", ".join(f"{literal(name)}, {leaf.column(name)}{'::text' if name in native else ''}" for name in leaf.kinds)
    return connection.values(f"SELECT json_build_object({parts}) FROM (SELECT * FROM {leaf.place} ORDER BY md5({literal(str(seed))} || ctid::text) LIMIT {MOST_ROWS}) \"N\"")


def choices(pools, column, kind, chance):
    """Values that rows have, and some new ones."""
    pool = [value for value in pools.get(column, ()) if value is not None]
    return (chance.sample(pool, min(len(pool), 10)) if pool else []) + list(NEW[kind])


def run_script(connection, text):
    """Runs a script, and stops at its first fault."""
    connection.process.stdin.write(b"\\set ON_ERROR_STOP 1\n" + text.encode() + b"\n")
    connection.ask("SELECT 1")
    connection.process.stdin.write(b"\\set ON_ERROR_STOP 0\n")
