#!/usr/bin/env python3
"""Views compiled to SQL: the long form of the tests, mutants of the compiler, and how many edits a second.

    bench/sql_views.py compare [--edits N] [--seed N]    random edits of random views, as the program makes them
    bench/sql_views.py writers, replay                   several clients at once
    bench/sql_views.py mutants                           six mutants of the compiler, each of which `compare` has to find
    bench/sql_views.py speed [--sizes N,N]               edits of one row beside triggers by hand (Debian's python3-psycopg2), by the
                                                         clock, and by the processor time of the server, which a busy machine does not change
    bench/sql_views.py instructions                      instructions for each such edit (valgrind)

Each starts a PostgreSQL in a folder. CIGRELK names the program, or else it is that of ./serve.
"""
import argparse
import collections
import os
import random
import statistics
import subprocess
import sys
import tempfile
import time

TOP = os.path.dirname(os.path.dirname(os.path.abspath(__file__)))
sys.path[:0] = [f"{TOP}/clients", f"{TOP}/clients/tests"]
from cigrelk.sql import deltas, plain, words
from cigrelk.sql.judge import Differ
from compare_sql import Stream
from postgres_servers import BIN, Servers, other_user
from sql_session import Session
from sql_writers import MUSIC, make, replay, write_at_once

EDITS_A_STREAM = 300
# Triggers as a person writes them for this view and for edits of one row.
BY_HAND = """
CREATE TABLE albums (album text COLLATE "C" PRIMARY KEY, quantity bigint NOT NULL);
CREATE TABLE tracks (track text COLLATE "C" NOT NULL, date bigint NOT NULL, rating bigint NOT NULL, album text COLLATE "C" NOT NULL, PRIMARY KEY (track, album));
CREATE INDEX ON tracks (album);
CREATE VIEW stock AS SELECT t.track, t.rating, t.album, a.quantity FROM tracks t JOIN albums a USING (album) WHERE a.quantity > 2;
CREATE FUNCTION stock_edit() RETURNS trigger LANGUAGE plpgsql AS $$
DECLARE d bigint;
BEGIN
  IF TG_OP <> 'INSERT' THEN
    IF TG_OP = 'DELETE' OR OLD.track <> NEW.track OR OLD.album <> NEW.album THEN
      DELETE FROM tracks WHERE track = OLD.track AND album = OLD.album RETURNING date INTO d;
      IF TG_OP = 'DELETE' THEN RETURN OLD; END IF;
    END IF;
  END IF;
  IF NEW.quantity <= 2 THEN RAISE EXCEPTION 'refused' USING ERRCODE = '44000'; END IF;
  IF TG_OP = 'INSERT' OR OLD.quantity <> NEW.quantity THEN
    IF TG_OP = 'INSERT' AND EXISTS (SELECT FROM tracks t JOIN albums a USING (album) WHERE t.album = NEW.album AND a.quantity > 2 AND a.quantity <> NEW.quantity) THEN
      RAISE EXCEPTION 'refused' USING ERRCODE = '23P01';
    END IF;
    INSERT INTO albums VALUES (NEW.album, NEW.quantity) ON CONFLICT (album) DO UPDATE SET quantity = NEW.quantity WHERE albums.quantity <> NEW.quantity;
  END IF;
  IF TG_OP = 'INSERT' OR OLD.rating <> NEW.rating THEN
    UPDATE tracks SET rating = NEW.rating WHERE track = NEW.track AND rating <> NEW.rating;
  END IF;
  IF TG_OP = 'INSERT' OR OLD.track <> NEW.track OR OLD.album <> NEW.album THEN
    SELECT date INTO d FROM tracks WHERE track = NEW.track LIMIT 1;
    INSERT INTO tracks VALUES (NEW.track, coalesce(d, 2018), NEW.rating, NEW.album) ON CONFLICT DO NOTHING;
  END IF;
  RETURN NEW;
END $$;
CREATE TRIGGER e INSTEAD OF INSERT OR UPDATE OR DELETE ON stock FOR EACH ROW EXECUTE FUNCTION stock_edit();
"""


def compare(address, edits, seed, isolation="locks"):
    """Random edits, until so many were made. Returns what was counted."""
    counts = collections.Counter()
    while counts["edits"] < edits:
        # A session of its own for each stream: it keeps the plans of functions that are gone.
        session = Session(address)
        with Stream(session, seed, isolation=isolation) as stream:
            stream.run(min(EDITS_A_STREAM, edits - counts["edits"]))
            counts.update(stream.counts)
        session.close()
        counts["sets of definitions"] += 1
        seed += 1
    return counts


# Each mutant is a module, a name in it, and what stands there in its place.
def without_hidden_rows(body, looks, node):
    """A selection revises no hidden rows."""
    deltas.cast(body, node, node.below[0])


def null_is_unknown(kind, one, other):
    """Null is not equal to itself."""
    return f"{one} = {other}"


def plain_not(condition):
    """A predicate that is unknown counts as one that holds."""
    return f"NOT ({condition})"


def default_always(self, child, column):
    """A dropped column that is hidden below the drop is taken all the same."""
    return "(SELECT 1)"


def no_left_waits(self, body, place):
    """A new right row is made though a left row waits for it."""


def keeps_rows_of_others(body, looks, node):
    """A join deletes its left part, whatever its kind."""
    left, _ = node.below
    found, doomed = body.variable("Over", node), body.variable("Doomed", left)
    body.by_number(found, lambda given: body.set(doomed, given.shown(left.row(given.alias))))
    deltas.delete(body, left)


MUTANTS = {
    "a selection revises no hidden rows": [(deltas, "select", without_hidden_rows)],
    "null is not equal to itself": [(words, "same", null_is_unknown), (deltas, "same", null_is_unknown), (plain, "same", null_is_unknown)],
    "a condition that is unknown holds": [(deltas, "fails", plain_not), (plain, "fails", plain_not)],
    "a plain edit takes what is hidden below a drop": [(plain.Plain, "known_below", default_always)],
    "a plain edit overlooks left rows that wait": [(plain.Plain, "look_for_waiting", no_left_waits)],
    "a join deletes from the left, whatever its kind": [(deltas, "delete_over", keeps_rows_of_others)],
}


# Definitions in which each form stands over another, with nulls and rows that are hidden or wait.
FORMS = (
    "table t (a int, b int, c int, d text) with a -> b c", "table u (d text, e int null) with d -> e", "table w (e int null, f int) with e -> f",
    "view left_of = join_dl t with u", "view right_of = join_dr t with u", "view both_of = join_both t with u", "view of_nulls = join_dl u with w",
    "view narrow = drop c determined by (a, 0) from left_of", "view some = select from narrow where b > 1", "view others = select from t where not b = 1",
    "view low = select from u where not (e > 1)", "view high = select from u where e > 1",
    "view few = select from t where d in ('', 'x', 'y')", "view short = drop c determined by (a, 0) from few",
)


def mutants(address, most=3_000):
    """Compiles with one mutant after another, and prints after how many edits it was found."""
    missed = 0
    for number, (name, changes) in enumerate(MUTANTS.items()):
        before = [(place, word, getattr(place, word)) for place, word, _ in changes]
        for place, word, body in changes:
            setattr(place, word, body)
        session = Session(address)
        try:
            with Stream(session, f"mutant{number}", by_statement=0, texts=FORMS) as stream:
                try:
                    stream.run(most)
                    missed += 1
                    print(f"{name}: NOT found in {most:,} edits", flush=True)
                except Differ:
                    print(f"{name}: found after {len(stream.judge.lines):,} edits", flush=True)
        finally:
            session.close()
            for place, word, body in before:
                setattr(place, word, body)
    return missed


def statements(size, count):
    """Six kinds of edits of one row in turn: another rating, a track on an album, a track on a new album, that track away, another name of a
    track, a track away. They are no more than the tracks, or else too few tracks are left as they were."""
    chance, albums, gone, added, rates = random.Random(7), size // 10, set(), [], {}

    def shown():
        while True:
            number = chance.randrange(size)
            if number % albums % 7 > 2 and number not in gone:
                return number

    for number in range(count):
        one = shown()
        track, album, quantity = f"track{one}", f"album{one % albums}", one % albums % 7
        where = f"WHERE track = '{track}' AND album = '{album}'"
        kind = number % 6
        if kind == 0:
            rates[track] = chance.randrange(100)
            yield f"UPDATE stock SET rating = {rates[track]} {where}"
        elif kind == 1:
            added.append((f"new{number}", album))
            yield f"INSERT INTO stock (track, rating, album, quantity) VALUES ('new{number}', 3, '{album}', {quantity})"
        elif kind == 2:
            yield f"INSERT INTO stock (track, rating, album, quantity) VALUES ('new{number}', 3, 'newalbum{number}', 5)"
        elif kind == 3:
            yield "DELETE FROM stock WHERE track = '{}' AND album = '{}'".format(*added.pop())
        else:
            gone.add(one)
            yield f"UPDATE stock SET track = 'moved{number}' {where}" if kind == 4 else f"DELETE FROM stock {where}"


def fill(session, size):
    session.ask("SET session_replication_role = replica", "TRUNCATE albums, tracks",
                f"INSERT INTO albums (album, quantity) SELECT 'album' || i, i % 7 FROM generate_series(0, {size // 10} - 1) i",
                f"INSERT INTO tracks (track, date, rating, album) SELECT 'track' || i, 1950 + i % 70, i % 5, 'album' || i % ({size // 10}) FROM generate_series(0, {size} - 1) i",
                "SET session_replication_role = origin")
    session.ask("VACUUM ANALYZE albums")
    session.ask("VACUUM ANALYZE tracks")


def processor_seconds(process):
    """The processor time that a process has had."""
    with open(f"/proc/{process}/schedstat", encoding="ascii") as file:
        return int(file.read().split()[0]) / 1e9


class Run:
    """The edits of one client of psycopg2: the time of each, the processor time of the server for the first and for all others, and the
    memory that the first one takes in its session."""

    MEMORY = "SELECT sum(used_bytes) FROM pg_backend_memory_contexts"

    def __init__(self, address, texts):
        import psycopg2

        connection = psycopg2.connect(address)
        connection.autocommit = True
        cursor, self.times = connection.cursor(), []

        def value(text):
            cursor.execute(text)
            return cursor.fetchone()[0]

        cursor.execute("SET synchronous_commit = off")
        process, before = value("SELECT pg_backend_pid()"), value(self.MEMORY)
        start = processor_seconds(process)
        for text in texts:
            begin = time.perf_counter()
            cursor.execute(text)
            self.times.append(time.perf_counter() - begin)
            if len(self.times) == 1:
                self.first = processor_seconds(process) - start
                self.memory = float(value(self.MEMORY) - before)
                start = processor_seconds(process)
        self.processor = (processor_seconds(process) - start) / (len(self.times) - 1)
        connection.close()

    @property
    def each_second(self):
        return len(self.times) / sum(self.times)


def speed(servers, sizes, count):
    """Edits a second of one client, each a transaction, by triggers by hand and by the generated ones, and the same tables at the end."""
    print("| tracks | by hand, a second | generated | ratio | medians, us | processor time of the server, us | ratio | first edit of each, ms | their processor time, ms | their memory, MB |\n|" + "---|" * 10, flush=True)
    sessions = {}
    for name in ("hand", "made"):
        servers.sql(servers.address("base"), f"CREATE DATABASE {name}")
        sessions[name] = make(servers.address("base", name), "locks") if name == "made" else Session(servers.address("base", name))
    sessions["hand"].ask(BY_HAND)
    for size in sizes:
        found = {}
        for name, session in sessions.items():
            fill(session, size)
            found[name] = Run(servers.address("base", name), statements(size, min(count, size)))
        hand, made = found["hand"], found["made"]
        medians = [1e6 * statistics.median(run.times) for run in (hand, made)]
        print(f"| {size:,} | {hand.each_second:,.0f} | {made.each_second:,.0f} | {made.each_second / hand.each_second:.2f} | {medians[0]:.0f} and {medians[1]:.0f} "
              f"| {1e6 * hand.processor:.0f} and {1e6 * made.processor:.0f} | {made.processor / hand.processor:.2f} "
              f"| {1e3 * hand.times[0]:.1f} and {1e3 * made.times[0]:.1f} | {1e3 * hand.first:.1f} and {1e3 * made.first:.1f} | {hand.memory / 1e6:.2f} and {made.memory / 1e6:.2f} |", flush=True)
        tables = "SELECT md5(string_agg(x::text, ',' ORDER BY x)) FROM (SELECT album, quantity FROM albums UNION ALL SELECT track || ' ' || album, rating FROM tracks) x"
        if len({tuple(session.ask(tables)) for session in sessions.values()}) != 1:
            raise SystemExit("the tables differ")


def instructions(servers, size=10_000, few=30, many=150):
    """Instructions of the first edit in a session and of a later one: a server that one person has alone (postgres --single) makes none,
    one, few and many edits under valgrind."""
    for name in ("hand", "made"):
        servers.sql(servers.address("base"), f"CREATE DATABASE {name}")
        session = make(servers.address("base", name), "locks") if name == "made" else Session(servers.address("base", name))
        if name == "hand":
            session.ask(BY_HAND)
        fill(session, size)
        session.close()
    servers.stop("base")
    user = other_user()
    for name in ("hand", "made"):
        counts = []
        for count in (0, 1, few, many):
            with tempfile.TemporaryDirectory() as room:
                subprocess.run(["cp", "-a", f"{servers.room}/base/data", f"{room}/data"], check=True)
                if user:
                    os.chown(room, *user)
                as_user = ["setpriv", f"--reuid={user[0]}", f"--regid={user[1]}", "--clear-groups", "env", "HOME=/tmp"] if user else []
                lines = "".join(f"{text}\n" for text in ["SET synchronous_commit = off", *statements(size, count)])
                done = subprocess.run([*as_user, "valgrind", "--tool=callgrind", f"--callgrind-out-file={room}/out", f"{BIN}/postgres", "--single", "-D", f"{room}/data", "-F", name],
                                      input=lines, capture_output=True, text=True, check=True, cwd="/")
                counts.append(int(done.stderr.rsplit("Collected : ", 1)[1].split()[0]))
        print(f"{name}: {counts[1] - counts[0]:,} instructions for the first edit, and {(counts[3] - counts[2]) // (many - few):,} for a later one", flush=True)
    servers.start("base")


def main():
    parser = argparse.ArgumentParser(description=__doc__, formatter_class=argparse.RawDescriptionHelpFormatter)
    parser.add_argument("what", choices=("compare", "writers", "replay", "mutants", "speed", "instructions"))
    parser.add_argument("--edits", type=int)
    parser.add_argument("--seed", type=int, default=1000)
    parser.add_argument("--sizes", default="1000,10000,100000,1000000")
    parser.add_argument("--isolation", choices=("locks", "serializable"), default="locks")
    options = parser.parse_args()
    servers = Servers("base", settings="synchronous_commit = off\nautovacuum = off")
    address = servers.address("base")
    status = 0
    try:
        if options.what == "compare":
            for name, number in sorted(compare(address, options.edits or 100_000, options.seed, options.isolation).items()):
                print(f"{number:9,} {name}")
        elif options.what == "writers":
            lost, broken, counts = write_at_once(address, options.isolation, 6, options.edits or 400)
            print(f"{lost} updates lost, {broken} dependencies broken: {dict(counts)}")
            status = int(lost + broken > 0)
        elif options.what == "replay":
            wrong, accepted = replay(address, 5, options.edits or 300)
            print("\n".join([*wrong, f"{accepted:,} accepted edits made again by the program, {len(wrong)} differ"]))
            status = int(bool(wrong))
        elif options.what == "mutants":
            status = int(mutants(address) > 0)
        elif options.what == "speed":
            speed(servers, [int(size) for size in options.sizes.split(",")], options.edits or 6_000)
        else:
            instructions(servers)
    finally:
        servers.close()
    return status


if __name__ == "__main__":
    sys.exit(main())
