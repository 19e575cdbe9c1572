#!/usr/bin/env python3
"""Counts the instructions that edits and previews of a view over a join, and finds in it by key, cost at tables of several sizes.

The tables are those of the stored run: albums, tracks (ten on each album, none on one) and stock. Each line of the table is the
number of instructions of one edit, preview or find of one row, by valgrind's callgrind, which counts from the filled tables
on: those of a run with many of them less those of a run with few, by the difference of the numbers. Where a line has
more rows, it is one edit of so many.

With --changes each line compares two: a batch with its edits as lines, and with a tenth as many; undos with what they take back; and
an export and an import of as many rows as there are tracks with a read and a put of them.

With --kinds each line is one edit of one row, one that changes it and one that removes it, through each kind of join, through a
rename, and with columns that may be null, of which none is.
"""
import json
import re
import subprocess

from program import UNDO, Server, arguments, batch, define, edit, options, print_head

DEFINITIONS = [
    "table albums (album text, quantity int) with album -> quantity",
    "table tracks (track text, date int, rating int, album text) with track -> date rating",
    "view stock = select from (drop date determined by (track, 2018) from (join_dl tracks with albums)) where quantity > 2",
]
# How many rows one line of the filling adds, and how many edits the shorter and the longer run make.
FILLING = 100_000
FEW, MANY = 20, 220
# An album without tracks.
EMPTY = "none"


VALGRIND = ["valgrind", "--tool=callgrind", "--instr-atstart=no", "--callgrind-out-file=/dev/null"]


def text(thing):
    """A row or a request as JSON."""
    return json.dumps(thing, separators=(",", ":"))


def line(request):
    return f"{text(request)}\n".encode()


def texts(rows):
    return [text(row) for row in rows]


def filled(rows, definitions=DEFINITIONS):
    """The lines that make the tables, with so many tracks."""
    albums = max(rows // 10, 1)
    lines = [define(definition) for definition in definitions]
    for first in range(0, albums, FILLING):
        lines.append(edit("albums", [], texts({"album": f"a{i}", "quantity": 5} for i in range(first, min(first + FILLING, albums)))))
    for first in range(0, rows, FILLING):
        lines.append(edit("tracks", [], texts(
            {"album": f"a{i % albums}", "date": 1980 + i % 40, "rating": 3, "track": f"t{i}"}
            for i in range(first, min(first + FILLING, rows))
        )))
    lines.append(edit("albums", [], texts([{"album": EMPTY, "quantity": 5}])))
    return lines


def shown(i, rows, rating):
    return {"album": f"a{i % max(rows // 10, 1)}", "quantity": 5, "rating": rating, "track": f"t{i}"}


def rated(numbers, rows, do="edit"):
    """The request that gives the tracks of these numbers another rating, by the view."""
    return edit("stock", texts(shown(i, rows, 3) for i in numbers), texts(shown(i, rows, 4) for i in numbers), do)


def added(i, rows, album):
    """The preview of a new track on this album, by the view."""
    return edit("stock", [], texts([{**shown(i, rows, 3), "album": album, "track": f"n{i}"}]), "preview")


def found(i):
    """The request that finds the row of the track of this number, by the view."""
    return line({"column": "track", "do": "find", "value": f"t{i}", "view": "stock"})


# What is asked of one row, by what is told of it. Each is given the number of a track, and how many there are.
OF_ONE_ROW = {
    "one edit of one row": lambda i, rows: rated([i], rows),
    "one preview of it": lambda i, rows: rated([i], rows, "preview"),
    "one find of it by its key": lambda i, rows: found(i),
    "one preview of a row added to an album with ten tracks": lambda i, rows: added(i, rows, "a7"),
    "one preview of a row added to one with none": lambda i, rows: added(i, rows, EMPTY),
}


def instructions(program, begin, lines):
    """The instructions of these lines, after others that are not counted. Each line has to be accepted."""
    server = Server(program, under=VALGRIND, stderr=subprocess.PIPE)
    accepted(server, begin)
    count(server, "on")
    accepted(server, lines)
    # Before the end, at which the program frees the tables.
    count(server, "off")
    _, said = server.process.communicate()
    return int(re.search(rb"Collected : (\d+)", said).group(1))


def count(server, whether):
    """Lets valgrind begin to count, or cease to."""
    subprocess.run(["callgrind_control", f"--instr={whether}", str(server.process.pid)], capture_output=True, check=True)


def accepted(server, lines):
    for request in lines:
        reply, _ = server.ask(request)
        if b'"ok":true' not in reply:
            raise SystemExit(f"not accepted: {reply[:200]!r}")


def each(program, begin, ask_for):
    """The instructions of one line, of those that `ask_for` gives by numbers."""
    runs = [instructions(program, begin, [ask_for(i) for i in range(number)]) for number in (FEW, MANY)]
    return (runs[1] - runs[0]) // (MANY - FEW)


def of_one_row(program, rows, ask_for):
    """The instructions of one line, of those of OF_ONE_ROW."""
    return each(program, filled(rows), lambda i: ask_for(i, rows))


def at_once(program, rows, number):
    """The instructions of one edit of so many rows."""
    begin = filled(rows)
    return instructions(program, begin, [rated(range(number), rows)]) - instructions(program, begin, [])


def with_join(word):
    return [text.replace("join_dl", word) for text in DEFINITIONS]


# What the view is made of, by what is told of it: its definitions, and the name that the view has for the column of the tracks.
KINDS = {
    "join_dl": (DEFINITIONS, "track"),
    "join_dr": (with_join("join_dr"), "track"),
    "join_both": (with_join("join_both"), "track"),
    "join_dl, under a rename": ([*DEFINITIONS[:2], DEFINITIONS[2].replace("select from", "rename track to title from (select from") + ")"], "title"),
    "join_dl, columns that may be null": ([text.replace(" int,", " int null,").replace("quantity int)", "quantity int null)") for text in DEFINITIONS], "track"),
}


def by_kinds(program, sizes):
    print_head(["Tracks", "The view"], ["one edit that changes a row", "one that removes it"])
    for rows in sizes:
        for kind, (definitions, name) in KINDS.items():
            begin = filled(rows, definitions)

            def named(i, rating):
                return {name if column == "track" else column: value for column, value in shown(i, rows, rating).items()}

            changed = each(program, begin, lambda i: edit("stock", texts([named(i, 3)]), texts([named(i, 4)])))
            removed = each(program, begin, lambda i: edit("stock", texts([named(i, 3)]), []))
            print(f"| {rows:,} | {kind} | {changed:,} | {removed:,} |", flush=True)


def rated_in_turn(numbers, rows):
    """The batch of edits that each give one track another rating, by the view."""
    return batch(("stock", texts([shown(i, rows, 3)]), texts([shown(i, rows, 4)])) for i in numbers)


def csv_line(tracks):
    records = ["album,date,rating,track", *(f"{it['album']},{it['date']},{it['rating']},{it['track']}" for it in tracks)]
    return line({"do": "import", "view": "tracks", "csv": "".join(f"{record}\n" for record in records)})


def changes(program, sizes):
    print_head(["Tracks", "What"], ["Instructions", "Beside", "Instructions", "Times"])
    for rows in sizes:
        begin = filled(rows)
        some, many = min(1_000, rows // 10), min(10_000, rows)

        def cost(lines, before=()):
            return instructions(program, [*begin, *before], lines)

        few, batched = rated_in_turn(range(some), rows), cost([rated_in_turn(range(some), rows)])
        one = cost([rated([0], rows)])
        tracks = [{"album": f"a{i % max(rows // 10, 1)}", "date": 1980 + i % 40, "rating": 3, "track": f"t{i}"} for i in range(rows)]
        others = line({"do": "put", "view": "tracks", "rows": [{**track, "rating": 4} for track in tracks]})
        tracks[-1]["rating"] = 5
        found = [
            (f"a batch of {some:,} edits", batched, f"{some:,} lines", cost([rated([i], rows) for i in range(some)])),
            (f"a batch of {many:,} edits", cost([rated_in_turn(range(many), rows)]), f"a batch of {some:,}", batched),
            (f"an undo of a batch of {some:,}", cost([UNDO], [few]), f"a batch of {some:,}", batched),
            ("an undo of an edit of one row", cost([UNDO], [rated([0], rows)]), "the edit", one),
            (f"an undo of a put of {rows:,} other rows", cost([UNDO], [others]), "the put", cost([others])),
            (f"an export of {rows:,} rows", cost([line({"do": "export", "view": "tracks"})]), "a read", cost([line({"do": "read", "view": "tracks"})])),
            ("an import of them, one row changed", cost([csv_line(tracks)]), "a put", cost([line({"do": "put", "view": "tracks", "rows": tracks})])),
        ]
        for name, first, other, second in found:
            print(f"| {rows:,} | {name} | {first:,} | {other} | {second:,} | {first / second:.2f} |", flush=True)


def main():
    parser = arguments(__doc__)
    parser.add_argument("--kinds", action="store_true", help="edits through each kind of join, a rename and null")
    parser.add_argument("--changes", action="store_true", help="batches, undos and CSV beside the lines that do the same")
    parser.add_argument("--rows", type=int, nargs="+", help="how many tracks there are (1,000, 100,000 and 1,000,000; with --changes 100,000)")
    given = options(parser)
    program = given.program
    if given.changes:
        changes(program, given.rows or [100_000])
        return
    sizes = given.rows or [1_000, 100_000, 1_000_000]
    if given.kinds:
        by_kinds(program, sizes)
        return
    print_head(["Tracks"], [*OF_ONE_ROW, "one edit of 1,000 rows"])
    for rows in sizes:
        counts = [*(of_one_row(program, rows, ask_for) for ask_for in OF_ONE_ROW.values()), at_once(program, rows, min(1_000, rows))]
        print(f"| {rows:,} | {' | '.join(f'{count:,}' for count in counts)} |", flush=True)


if __name__ == "__main__":
    main()
