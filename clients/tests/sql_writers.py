"""Several clients edit compiled views at once. They are used by test_sql_views and bench/sql_views."""
import collections
import json
import random
import re
import threading

from cigrelk import Server
from cigrelk.postgres import Failed
from cigrelk.sql.edits import Compiling
from cigrelk.sql.judge import Judge, comparable, in_order, run_script
from cigrelk.sql.nodes import Catalogue
from cigrelk.sql.script import script
from sql_session import Session

MUSIC = (
    "table albums (album text, quantity int) with album -> quantity",
    "table tracks (track text, date int, rating int, album text) with track -> date rating",
    "view stock = select from (drop date determined by (track, 2018) from (join_dl tracks with albums)) where quantity > 2",
)
TRY_AGAIN = ("40001", "40P01")
BROKEN = (
    "SELECT count(*) FROM (SELECT album FROM albums GROUP BY album HAVING count(DISTINCT quantity) > 1) a",
    "SELECT count(*) FROM (SELECT track FROM tracks GROUP BY track HAVING count(DISTINCT (date, rating)) > 1) t",
)


def make(address, isolation):
    """The tables and the view of music in an empty database."""
    session = Session(address)
    run_script(session, script(Compiling(Catalogue(MUSIC), isolation)))
    return session


def take_locks_out(session):
    """Makes the functions anew without what they do for other writers."""
    for text in session.values("SELECT to_json(pg_get_functiondef(oid)) FROM pg_proc WHERE pronamespace = '\"public:cigrelk\"'::regnamespace"):
        session.ask(re.sub(r"IF pg_catalog\.pg_advisory_xact_lock.*? THEN NULL; END IF;", "", text))


class Writer(threading.Thread):
    """Adds one to the quantity of albums and to the rating of tracks, and adds tracks that others add with other ratings."""

    def __init__(self, number, address, isolation, rounds, together):
        super().__init__()
        self.number, self.rounds, self.together, self.random = number, rounds, together, random.Random(number)
        self.counts, self.raised = collections.Counter(), collections.Counter()
        level = "serializable" if isolation == "serializable" else "read committed"
        self.session = Session(address)
        self.session.ask(f"SET default_transaction_isolation = '{level}'")

    def run(self):
        for number in range(self.rounds):
            way, chance = number % 4, self.random
            # All begin a round at once, so that they add the same new keys at the same time.
            self.together.wait()
            if way == 0:
                self.raise_one("UPDATE stock SET quantity = quantity + 1 WHERE album = '{}'", f"a{chance.randrange(3)}")
            elif way == 1:
                self.raise_one("UPDATE stock SET rating = rating + 1 WHERE track = '{}'", f"t{chance.randrange(3)}")
            elif way == 2:
                self.done(f"INSERT INTO stock (album, quantity, rating, track) SELECT album, quantity, {chance.randrange(2)}, 'x{number // 16}' FROM albums WHERE album = 'c{chance.randrange(4)}'")
            else:
                self.done(f"INSERT INTO tracks (track, date, rating, album) VALUES ('y{number // 16}', 2000, {chance.randrange(3)}, 'c{chance.randrange(4)}') ON CONFLICT DO NOTHING")
        self.session.close()

    def raise_one(self, text, name):
        if self.done(text.format(name)):
            self.raised[name] += 1

    def done(self, text):
        """Makes a transaction, again while it may be. It stays open for a while, so that others meet it."""
        while True:
            try:
                self.session.ask("BEGIN", text, "SELECT pg_sleep(0.002)", "COMMIT")
                self.counts["done"] += 1
                return True
            except Failed as error:
                self.counts[error.state] += 1
                self.session.ask("ROLLBACK")
                if error.state not in TRY_AGAIN:
                    return False


def write_at_once(address, isolation, clients, rounds, without_locks=False):
    """How many updates were lost, how many keys have a broken dependency, and how often what happened."""
    session = make(address, isolation)
    session.ask(f"SET default_transaction_isolation = '{'serializable' if isolation == 'serializable' else 'read committed'}'")
    session.ask("INSERT INTO albums SELECT 'a' || i, 10 FROM generate_series(0, 2) i", "INSERT INTO albums SELECT 'c' || i, 5 FROM generate_series(0, 3) i", "INSERT INTO albums VALUES ('hidden', 0)")
    # Each track on two albums, one of which is hidden.
    session.ask("INSERT INTO tracks (track, date, rating, album) SELECT 't' || i, 1990, 1, a FROM generate_series(0, 2) i, unnest(ARRAY['a' || i, 'hidden']) a")
    session.ask("ANALYZE albums, tracks")
    if without_locks:
        take_locks_out(session)
    together = threading.Barrier(clients)
    writers = [Writer(number, address, isolation, rounds, together) for number in range(clients)]
    for writer in writers:
        writer.start()
    for writer in writers:
        writer.join()
    counts, raised = (sum((getattr(writer, name) for writer in writers), collections.Counter()) for name in ("counts", "raised"))
    lost = 0
    for name, times in raised.items():
        query, begin = (f"SELECT coalesce(max(quantity), 0) FROM albums WHERE album = '{name}'", 10) if name.startswith("a") else (f"SELECT coalesce(max(rating), 0) FROM tracks WHERE track = '{name}'", 1)
        lost += abs(begin + times - session.values(query)[0])
    broken = sum(session.values(query)[0] for query in BROKEN)
    session.close()
    return lost, broken, counts


class Editor(threading.Thread):
    """Makes edits over few values, so that they meet, and notes the turn in which each was made under the locks."""

    def __init__(self, address, number, count):
        super().__init__()
        self.session, self.done = Session(address), []
        self.judge = Judge(self.session, None, "public")
        chance = random.Random(number)
        self.edits = [random_edit(chance) for _ in range(count)]

    def run(self):
        for view, remove, add in self.edits:
            while True:
                try:
                    self.session.ask("BEGIN")
                    reply = self.judge.answer(view, remove, add)
                    (turn,) = self.session.values("SELECT nextval('turns')")
                    self.session.ask("COMMIT")
                    self.done.append((turn, {"do": "edit", "view": view, "remove": remove, "add": add}, reply))
                    break
                except Failed as error:
                    if error.state not in TRY_AGAIN:
                        raise
                    self.session.ask("ROLLBACK")
        self.session.close()


def random_edit(chance):
    track, album = f"t{chance.randrange(4)}", f"a{chance.randrange(3)}"
    view = chance.choice(("stock", "stock", "tracks", "albums"))
    row = lambda: {"stock": {"track": track, "rating": chance.randrange(3), "album": album, "quantity": 3 + chance.randrange(3)},
                   "tracks": {"track": track, "date": 1990 + chance.randrange(2), "rating": chance.randrange(3), "album": album},
                   "albums": {"album": album, "quantity": chance.randrange(6)}}[view]
    return view, [row() for _ in range(chance.choice((0, 1, 3)))], [row() for _ in range(chance.choice((0, 1, 1)))]


def replay(address, clients, count):
    """Makes edits at once, and the accepted ones again by the program in the order of their turns. Returns the texts of what differs
    and the number of accepted edits. (A rejected edit gives its locks back before it takes a turn.)"""
    session = make(address, "locks")
    session.ask("CREATE SEQUENCE turns")
    editors = [Editor(address, number, count) for number in range(clients)]
    for editor in editors:
        editor.start()
    for editor in editors:
        editor.join()
    accepted = sorted((one for editor in editors for one in editor.done if one[2]["ok"]), key=lambda one: one[0])
    wrong, there = [], Judge(session, None, "public")
    with Server() as program:
        for text in MUSIC:
            program.define(text)
        for turn, edit, reply in accepted:
            wanted = json.loads(program.pass_on(json.dumps(edit).encode()))
            if comparable(wanted) != comparable(reply):
                wrong.append(f"turn {turn}: {edit}\nprogram:    {wanted}\nPostgreSQL: {reply}")
        for name in program.names():
            if in_order(program[name].read()) != in_order(there.relation(name)):
                wrong.append(f"rows of {name}")
    session.close()
    return wrong, len(accepted)
