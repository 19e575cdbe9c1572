#!/usr/bin/env python3
"""Measures the time of requests of many rows, and others, with the peak memory after each."""
import json
import os
import re
import sqlite3
import string
import subprocess
import tempfile
import time

from program import UNDO, Server, arguments, batch, define, edit, find, must_begin, options, print_head, put

ROWS = 100_000
HIDING = 125_000
PUTS = 1_000
ROUNDS = 8
COMMITS = 250
HUGE = 300_000
LONGEST = 16_777_216
TRACKS = "table tracks (album text, date int, rating int, track text)"
DEPENDENCIES = " with track -> album date, date -> rating"


def row(number, rating=None):
    """A row of four columns, two of them texts."""
    rating = number % 5 if rating is None else rating
    return f'{{"album":"album{number // 10}","date":{1950 + number % 70},"rating":{rating},"track":"track{number}"}}'


def csv_of(rows):
    """Rows as CSV."""
    records = [json.loads(line) for line in rows]
    return "".join(",".join(map(str, fields)) + "\n" for fields in [records[0], *(record.values() for record in records)])


def imported(rows, view="tracks"):
    return (json.dumps({"do": "import", "view": view, "csv": csv_of(rows)}) + "\n").encode()


def in_ms(seconds):
    """A time in ms, with about two digits."""
    ms = seconds * 1000
    return f"{ms:,.{3 if ms < 0.1 else 2 if ms < 1 else 1 if ms < 10 else 0}f} ms"


def timed(server, steps, times=1):
    """The lines, each with how its reply is to begin: the mean of what each takes in ms, and the peak memory after it in MB."""
    table = []
    for name, line, start in steps:
        total = 0.0
        for _ in range(times):
            reply, seconds = server.ask(line)
            must_begin(reply, start)
            total += seconds
        table.append((name, len(line), in_ms(total / times), f"{server.peak():,.0f} MB"))
    server.end()
    return table


def defined(program, *texts, words=()):
    """A server with these words that has taken these definitions."""
    server = Server(program, *words)
    for text in texts:
        reply, _ = server.ask(define(text))
        must_begin(reply, b'{"ok":true')
    return server


def large(program):
    """Lines of 100,000 rows: what each takes in ms, and the peak memory after it in MB."""
    server = defined(program, TRACKS, "view good = select from tracks where rating > 2")
    rows = [row(number) for number in range(ROWS)]
    changed = rows[:-1] + [row(ROWS - 1, 9)]
    good = [line for line in rows if '"rating":3' in line or '"rating":4' in line]
    steps = [
        (f"put of {ROWS:,} rows", put(rows), b'{"changed":[{'),
        (f"read of {ROWS:,} rows", b'{"do":"read","view":"tracks"}\n', b'{"ok":true,"rows":[{'),
        ("the same put again, which changes nothing", put(rows), b'{"changed":[],'),
        ("the put with one row changed", put(changed), b'{"changed":[{'),
        ("undo of that put", UNDO, b'{"changed":[{'),
        (f"export of {ROWS:,} rows", b'{"do":"export","view":"tracks"}\n', b'{"csv":"album,'),
        ("import of what was exported, which changes nothing", imported(rows), b'{"changed":[],'),
        ("import of it with one row changed", imported(changed), b'{"changed":[{'),
        (f"read of a view of {len(good):,} of the rows", b'{"do":"read","view":"good"}\n', b'{"ok":true,"rows":[{'),
        ("put of that view with one row changed", put(good, "good"), b'{"changed":[{'),
    ]
    return timed(server, steps)


def views(program):
    """A put of a view of 100,000 rows with one of them changed, over a table without dependencies and over one with two; ms and MB."""
    rows = [row(number) for number in range(HIDING)]
    shown = [line for line in rows if '"rating":0' not in line]
    changed = shown[:-1] + [shown[-1].replace('"album":"album', '"album":"other', 1)]
    table = []
    for name, dependencies in [
        (f"put of a view of {len(shown):,} rows, one row changed", ""),
        ("the same over a table with two dependencies", DEPENDENCIES),
    ]:
        server = defined(program, TRACKS + dependencies, "view shown = select from tracks where rating > 0")
        reply, _ = server.ask(put(rows))
        must_begin(reply, b'{"changed":[{')
        table += timed(server, [(name, put(changed, "shown"), b'{"changed":[{')])
    return table


def renamed(line):
    """The row with another track."""
    return line.replace('"track":"track', '"track":"other', 1)


def edits(program, folder):
    """Edits and a preview of a view of 100,000 rows over a store in a file, and edits that are refused; ms and MB."""
    path = os.path.join(folder, "edits.db")
    server = defined(program, TRACKS, "view shown = select from tracks where rating > 0", words=("--store", path))
    rows = [row(number) for number in range(HIDING)]
    shown = [line for line in rows if '"rating":0' not in line]
    reply, _ = server.ask(put(rows))
    must_begin(reply, b'{"changed":[{')
    first, last = [shown[0]], [shown[-1]]
    some, many = shown[ROWS // 10 : ROWS // 5], shown[ROWS // 4 : ROWS * 3 // 4]
    steps = [
        (f"edit of a view of {len(shown):,} rows, one row replaced, with `--store`, the first after a put", edit("shown", last, map(renamed, last)), b'{"changed":[{'),
        ("preview of such an edit", edit("shown", first, map(renamed, first), "preview"), b'{"changed":[{'),
        (f"edit of that view, {len(some):,} rows replaced, with `--store`", edit("shown", some, map(renamed, some)), b'{"changed":[{'),
        ("the same edit again, which changes nothing", edit("shown", some, map(renamed, some)), b'{"changed":[],'),
        (f"edit of that view, {len(many):,} rows replaced, with `--store`", edit("shown", many, map(renamed, many)), b'{"changed":[{'),
        ("an edit of one row that rests on an old version, refused", edit("shown", first, [], on=1), b'{"changed_at":'),
        ("an edit of one row that the view would not show, refused", edit("shown", [], [row(0)]), b'{"error":42,'),
    ]
    return timed(server, steps)


def in_batches(program, folder):
    """1,000 edits of one row of a view of 100,000 rows, each a line, and in one batch, without a store and over one in a file; and their
    undo. So with 10,000 edits in a batch. ms and MB."""
    rows = [row(number) for number in range(HIDING)]
    shown = [line for line in rows if '"rating":0' not in line]
    table = []
    for told, words in (("", ()), (", with `--store`", ("--store", os.path.join(folder, "batches.db")))):
        server = defined(program, TRACKS + " with track -> album date rating", "view shown = select from tracks where rating > 0", words=words)
        reply, _ = server.ask(put(rows))
        must_begin(reply, b'{"changed":[{')
        lines = [edit("shown", [line], [line.replace('"album":"album', '"album":"other', 1)]) for line in shown[:PUTS]]
        begin = time.perf_counter()
        for line in lines:
            must_begin(server.ask(line)[0], b'{"changed":[{')
        table.append((f"{PUTS:,} edits of one row of a view of {len(shown):,}, one request each{told}", sum(map(len, lines)), in_ms(time.perf_counter() - begin), f"{server.peak():,.0f} MB"))
        some, many = ([("shown", [line], [line.replace('"album":"album', '"album":"other', 1)]) for line in part] for part in (shown[PUTS : 2 * PUTS], shown[2 * PUTS : 12 * PUTS]))
        table += timed(server, [
            (f"a batch of {len(some):,} such edits{told}", batch(some), b'{"changed":[{'), (f"undo of the batch of {len(some):,}{told}", UNDO, b'{"changed":[{'),
            (f"a batch of {len(many):,}{told}", batch(many), b'{"changed":[{'), (f"undo of the batch of {len(many):,}{told}", UNDO, b'{"changed":[{'),
        ])
    return table


def remembered(program):
    """16 puts of 100,000 rows, each of other rows, which can all be undone; their undo; seconds and MB."""
    server = defined(program, TRACKS)
    lines = [put([row(number, number % 5 + 5 * turn) for number in range(ROWS)]) for turn in range(16)]
    seconds = 0.0
    for line in lines:
        reply, taken = server.ask(line)
        must_begin(reply, b'{"changed":[{')
        seconds += taken
    table = [(f"16 puts of {ROWS:,} rows, each of other rows", sum(map(len, lines)), f"{seconds:,.1f} s", f"{server.peak():,.0f} MB")]
    seconds = 0.0
    for start in [b'{"changed":[{'] * 16 + [b'{"error":44,']:
        reply, taken = server.ask(UNDO)
        must_begin(reply, start)
        seconds += taken
    table.append(("their undo, 16 times", 16 * len(UNDO), f"{seconds:,.1f} s", f"{server.peak():,.0f} MB"))
    server.end()
    return table


def questions(program):
    """Questions over a table of 100,000 rows, and lines that are refused; ms a line and MB."""
    server = defined(program, TRACKS + DEPENDENCIES, "view known = select from tracks where track != ''", "view good = select from known where rating > 2")
    reply, _ = server.ask(put([row(number) for number in range(ROWS)]))
    must_begin(reply, b'{"changed":[{')
    steps = [
        (f"a type, over a table of {ROWS:,} rows", b'{"do":"type","view":"good"}\n', b'{"columns":{'),
        ("a list of the definitions", b'{"do":"list"}\n', b'{"definitions":['),
        ("a line that is no JSON", b'{"do":"list"\n', b'{"error":11,'),
        ("a request with a member that is wrong", b'{"do":"edit","view":"good","remove":[],"add":[],"on":null}\n', b'{"error":12,'),
        ("an edit of a view that is not there", edit("nothing", [], [row(0)]), b'{"error":22,'),
        ("an edit with a row that is none", edit("good", [], ["3"]), b'{"col":'),
    ]
    return timed(server, steps, times=PUTS)


def without_date(line):
    """The row as a view without dates has it."""
    return re.sub(r'"date":(?:[0-9]+|null),', "", line)


def drops(program):
    """A put through a drop over a selection, of 10,000 and of 100,000 rows, with one of them changed; ms and MB."""
    table = []
    for count in (ROWS // 10, ROWS):
        rows = [row(number) for number in range(count * 5 // 4)]
        shown = [without_date(line) for line in rows if '"rating":0' not in line]
        changed = shown[:-1] + [shown[-1].replace('"album":"album', '"album":"other', 1)]
        server = defined(
            program,
            TRACKS + " with track -> album date rating",
            "view undated = drop date determined by (track, 2018) from (select from tracks where rating > 0)",
        )
        reply, _ = server.ask(put(rows))
        must_begin(reply, b'{"changed":[{')
        table += timed(server, [(f"put through a drop over a selection of {count:,} rows, one row changed", put(changed, "undated"), b'{"changed":[{')])
    return table


def quantity(album):
    """How many there are of an album: of four in seven more than two."""
    return album % 7


def joins(program):
    """A join of tracks and a tenth as many albums, with a drop and a selection over it: a read, and a put with one row changed; ms and MB."""
    table = []
    for count in (ROWS // 10, ROWS):
        albums = [f'{{"album":"album{number}","quantity":{quantity(number)}}}' for number in range(count // 10)]
        tracks = [row(number) for number in range(count)]
        stock = [
            without_date(line).replace(',"rating"', f',"quantity":{quantity(number // 10)},"rating"', 1)
            for number, line in enumerate(tracks)
            if quantity(number // 10) > 2
        ]
        changed = stock[:-1] + [re.sub(r'"rating":[0-9]+', '"rating":9', stock[-1])]
        server = defined(
            program,
            TRACKS + " with track -> date rating",
            "table albums (album text, quantity int) with album -> quantity",
            "view stock = select from (drop date determined by (track, 2018) from (join_dl tracks with albums)) where quantity > 2",
        )
        for line in (put(tracks), put(albums, "albums")):
            reply, _ = server.ask(line)
            must_begin(reply, b'{"changed":[{')
        steps = [
            (f"read of a join of {count:,} rows with {count // 10:,}, a drop and a selection over it, {len(stock):,} rows shown", b'{"do":"read","view":"stock"}\n', b'{"ok":true,"rows":[{'),
            (f"put of that join of {count:,} rows, one row changed", put(changed, "stock"), b'{"changed":[{'),
            (f"edit of that join of {count:,} rows, one row replaced", edit("stock", stock[:1], [re.sub(r'"rating":[0-9]+', '"rating":9', stock[0])]), b'{"changed":[{'),
            (f"preview of such an edit of that join of {count:,} rows", edit("stock", stock[1:2], [re.sub(r'"rating":[0-9]+', '"rating":9', stock[1])], "preview"), b'{"changed":[{'),
            (f"find of one row of that join of {count:,} rows by its key", find("stock", "track", re.search('"track":(.*)}', stock[0])[1]), b'{"ok":true,"rows":[{'),
            (f"find of two rows of that join of {count:,} rows by a column that determines nothing", find("stock", "rating", 9), b'{"ok":true,"rows":[{'),
        ]
        table += timed(server, steps)
    return table


def nulls(program, folder):
    """A table of 100,000 rows in which every other date is null, over a store in a file; ms and MB."""
    server = defined(
        program,
        "table tracks (album text, date int null, rating int, track text)",
        "view undated = select from tracks where date is null",
        "view later = select from tracks where not date < 2000",
        words=("--store", os.path.join(folder, "nulls.db")),
    )
    rows = [row(number) for number in range(ROWS)]
    rows[::2] = [re.sub(r'"date":[0-9]+', '"date":null', line) for line in rows[::2]]
    changed = rows[:-1] + [row(ROWS - 1, 9)]
    steps = [
        (f"put of {ROWS:,} rows into a table with a nullable column, every other one null, with `--store`", put(rows), b'{"changed":[{'),
        ("the put of that table with one row changed", put(changed), b'{"changed":[{'),
        (f"read of a view of the {ROWS // 2:,} nulls, by `is null`", b'{"do":"read","view":"undated"}\n', b'{"ok":true,"rows":[{'),
        ("read of a view by `not` over a comparison", b'{"do":"read","view":"later"}\n', b'{"ok":true,"rows":[{'),
        ("edit of a row of the first view, with `--store`", edit("undated", rows[:1], [renamed(rows[0])]), b'{"changed":[{'),
    ]
    return timed(server, steps)


def streams(program):
    """Previews over 50,000 albums, all in one stream; and the memory after 1,000 and after 100,000 edits of one row; seconds and MB."""
    server = defined(
        program,
        "table albums (album text, quantity int) with album -> quantity",
        "table tracks (track text, date int, rating int, album text) with track -> date rating",
        "view stock = select from (drop date determined by (track, 2018) from (join_dl tracks with albums)) where quantity > 2",
    )
    albums = [f'{{"album":"z{number}","quantity":5}}' for number in range(50_000)]
    server.ask(edit("albums", [], albums))
    asked = [edit("stock", [], [f'{{"album":"z1","quantity":5,"rating":2,"track":"n{number}"}}'], "preview") for number in range(40_000)]
    seconds = sum(server.ask(line)[1] for line in asked)
    table = [("40,000 previews over 50,000 albums, one row each", len(asked[0]), f"{seconds:,.1f} s", f"{server.peak():,.0f} MB")]
    rated = [f'{{"album":"z1","quantity":5,"rating":{rating},"track":"t"}}' for rating in (1, 2)]
    server.ask(edit("stock", [], rated[:1]))
    begin, done = 0.0, 0
    for many in (1_000, 100_000):
        for number in range(done, many):
            reply, seconds = server.ask(edit("stock", [rated[number % 2]], [rated[(number + 1) % 2]]))
            must_begin(reply, b'{"changed":[{')
            begin += seconds
        done = many
        table.append((f"{many:,} edits of one row of that view", len(edit("stock", rated[:1], rated[1:])), f"{begin:,.2f} s", f"{server.peak():,.0f} MB"))
    server.end()
    return table


def dependent(program):
    """The put of 100,000 rows into a table with two dependencies, and a put of as many that clash; ms and MB."""
    server = defined(program, TRACKS + DEPENDENCIES)
    rows = [row(number) for number in range(ROWS)]
    clashing = rows[:-1] + [row(ROWS - 1, 9)]
    steps = [
        (f"put of {ROWS:,} rows into a table with two dependencies", put(rows), b'{"changed":[{'),
        ("the put into that table again, which changes nothing", put(rows), b'{"changed":[],'),
        ("a put to it of which the last row clashes", put(clashing), b'{"edge":{'),
    ]
    return timed(server, steps)


def chains(program):
    """Definitions of 64 columns and 63 dependencies, in order and turned; ms and MB."""
    server = Server(program)
    # A first line, so that the start of the program is not timed.
    server.ask(b'{"do":"list"}\n')
    columns = ", ".join(f"c{number} int" for number in range(64))
    chain = [f"c{number} -> c{number + 1}" for number in range(63)]
    steps = [
        (what, define(f"table {name} ({columns}) with {', '.join(deps)}"), b'{"ok":true')
        for what, name, deps in [
            ("definition of 64 columns with a chain of 63 dependencies, in order", "in_order", chain),
            ("the same, the dependencies in the other order", "turned", chain[::-1]),
        ]
    ]
    return timed(server, steps)


def long_texts(program):
    """Definitions of 4,096 bytes that are read to their end; ms a line and MB."""
    server = defined(program, "table counts (key int, value int)")
    front = "view v = select from counts where key in ("
    names = [f"c{first}{second}" for first in string.ascii_lowercase for second in string.ascii_lowercase]
    texts = {
        "4,054 of them in one-byte tokens, refused at its end": front + ("1," * 4096)[: 4096 - len(front)],
        "as many columns as it holds, refused at its end": ("table many (" + " int,".join(names))[:4096 - 5].rsplit(",", 1)[0] + ")",
        "as many `and` and `or` as it holds, refused at its end": ("view v = select from counts where true" + " and true or true" * 4096)[:4096 - 5].rsplit(" ", 1)[0],
        "as many dependencies as it holds, taken once and then refused for its name": "table twice (a int) with a->a" + ",a->a" * 813,
    }
    steps = [(f"definition of {len(text):,} bytes, {name}", define(text), b'{"') for name, text in texts.items()]
    return timed(server, steps, times=PUTS)


def longest(program):
    """A line of 16 MB of rows, and a read of them; ms, MB a second and MB."""
    server = defined(program, TRACKS + " where date > 0 and rating < 100")
    rows = [row(number) for number in range(HUGE)]
    line = put(rows)
    while len(line) > LONGEST:
        rows = rows[: len(rows) * LONGEST // len(line)]
        line = put(rows)
    reply, seconds = server.ask(line)
    must_begin(reply, b'{"changed":[{')
    table = [(f"put of {len(rows):,} rows in one line, into a table with a predicate", len(line), f"{seconds * 1000:,.0f} ms", f"{server.peak():,.0f} MB")]
    reply, seconds = server.ask(b'{"do":"read","view":"tracks"}\n')
    must_begin(reply, b'{"ok":true,"rows":[{')
    speed = f"{len(reply) / seconds / 1e6:,.0f} MB a second"
    table.append((f"read of these rows, {len(reply):,} bytes of output, {speed}", 30, f"{seconds * 1000:,.0f} ms", f"{server.peak():,.0f} MB"))
    server.end()
    return table


def small(program):
    """Single-row puts of a small table: lines a second, and the peak memory in MB."""
    server = defined(program, "table counts (key int, value int)")
    lines = [f'{{"do":"put","view":"counts","rows":[{{"key":1,"value":{number}}}]}}\n'.encode() for number in range(PUTS)]
    begin = time.perf_counter()
    for line in lines:
        reply, _ = server.ask(line)
        must_begin(reply, b'{"changed":[{')
    seconds = time.perf_counter() - begin
    peak = server.peak()
    server.end()
    return [(f"{PUTS:,} puts of one row to a small table", sum(map(len, lines)), f"{PUTS / seconds:,.0f} lines a second", f"{peak:,.0f} MB")]


def kept(program, folder):
    """A put of 100,000 rows to a new store, and the opening of that store; ms and MB."""
    path = os.path.join(folder, "large.db")
    rows = [row(number) for number in range(ROWS)]
    server = Server(program, "--store", path)
    server.ask(define(TRACKS))
    line = put(rows)
    reply, seconds = server.ask(line)
    must_begin(reply, b'{"changed":[{')
    table = [(f"put of {ROWS:,} rows into an empty table of a store in a file", len(line), f"{seconds * 1000:,.0f} ms", f"{server.peak():,.0f} MB")]
    server.end()
    begin = time.perf_counter()
    server = Server(program, "--store", path)
    server.ask(b'{"do":"list"}\n')
    seconds = time.perf_counter() - begin
    table.append(("start over that store, to the first reply", 14, f"{seconds * 1000:,.0f} ms", f"{server.peak():,.0f} MB"))
    server.end()
    return table


def counted(number):
    """The edit that adds the row of this number."""
    return edit("counts", [], [f'{{"key":{number},"value":{number}}}'])


def ask_each(server, numbers):
    """Sends each line when the reply to the one before it is there."""
    for number in numbers:
        reply, _ = server.ask(counted(number))
        must_begin(reply, b'{"changed":[{')


def stream(server, numbers):
    """Sends all lines, and then reads all replies."""
    for reply in server.stream([counted(number) for number in numbers]):
        must_begin(reply, b'{"changed":[{')


def insert(database, numbers):
    """The same by SQLite alone."""
    for number in numbers:
        database.execute("BEGIN")
        database.execute("INSERT INTO t_counts (c_key, c_value) VALUES (?, ?)", (number, number))
        database.execute("COMMIT")


def counting(program, folder, name):
    """A server with a store of this name that has an empty table."""
    server = Server(program, "--store", os.path.join(folder, name))
    server.ask(define("table counts (key int, value int)"))
    return server


def committed(program, folder):
    """Changes of one row, each one transaction in a file, in turn with SQLite itself: a write-ahead log, full synchronous writes; a second."""
    waiting = counting(program, folder, "waiting.db")
    streaming = counting(program, folder, "streaming.db")
    other = sqlite3.connect(os.path.join(folder, "other.db"), isolation_level=None)
    other.execute("PRAGMA journal_mode=WAL")
    other.execute("PRAGMA synchronous=FULL")
    other.execute("CREATE TABLE t_counts (c_key INTEGER NOT NULL, c_value INTEGER NOT NULL, UNIQUE (c_key, c_value)) STRICT")
    ways = [(ask_each, waiting), (stream, streaming), (insert, other)]
    seconds = [0.0] * len(ways)
    for first in range(0, ROUNDS * COMMITS, COMMITS):
        for place, (change, database) in enumerate(ways):
            begin = time.perf_counter()
            change(database, range(first, first + COMMITS))
            seconds[place] += time.perf_counter() - begin
    asked, streamed, alone = (f"{ROUNDS * COMMITS / taken:,.0f} a second" for taken in seconds)
    size = len(counted(0))
    table = [
        ("edits of one row, each one transaction in a file, sent in a stream", size, streamed, f"{streaming.peak():,.0f} MB"),
        ("the same, each sent when the reply to the one before it is read", size, asked, f"{waiting.peak():,.0f} MB"),
        ("SQLite alone, the same transactions in the same minute", 0, alone, ""),
    ]
    waiting.end()
    streaming.end()
    other.close()
    return table


def rehearsed(program):
    """A rehearsal of 1,000; seconds."""
    begin = time.perf_counter()
    done = subprocess.run([program, "--rehearse", "1000"], stdin=subprocess.DEVNULL, capture_output=True, check=True)
    seconds = time.perf_counter() - begin
    must_begin(done.stdout, b'{"accepted":')
    return [("`--rehearse 1000`", 0, f"{seconds:,.1f} s", "")]


def stores(program):
    """The lines of stores, in a folder beside the program."""
    with tempfile.TemporaryDirectory(dir=os.path.dirname(os.path.abspath(program))) as folder:
        return edits(program, folder) + in_batches(program, folder) + nulls(program, folder) + kept(program, folder) + committed(program, folder) + rehearsed(program)


def main():
    program = options(arguments(__doc__)).program
    print_head(["What"], ["Bytes of input", "Time", "Peak memory"])
    for part in (large, remembered, views, questions, drops, joins, streams, dependent, chains, long_texts, longest, small, stores):
        for name, size, taken, peak in part(program):
            print(f"| {name} | {size:,} | {taken} | {peak} |", flush=True)


if __name__ == "__main__":
    main()
