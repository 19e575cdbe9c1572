#!/usr/bin/env python3
"""Measures how reads and puts of whole views grow with the tables, by ten times the rows; and how little finds by key do.

In time: from 1,000, 10,000 and 25,000 rows on. Each line of the table has the medians of several runs, each by a program of
its own, those with the small and those with the large tables in turn, and the quotient of the two, with that of the least
times in brackets. Where rustc is installed, two lines of each size are of bench/by_hand.rs, as a mark to compare with.

In instructions: at 10,000 and 100,000 rows, by valgrind's callgrind, which counts the line alone. Of what goes over a whole view the
table has the instructions for each of its rows, too. A put changes one row.
"""
import os
import re
import shutil
import statistics
import subprocess
import tempfile
from typing import NamedTuple

from bench import TRACKS, quantity, row, without_date
from instructions import instructions
from program import TOP, Server, arguments, define, edit, find, must_begin, options, print_head, put

SIZES = (1_000, 10_000, 25_000)
COUNTED = (10_000, 100_000)
TIMES = 10
# How many rows one line of the filling adds.
FILLING = 100_000
TAKEN = b'{"ok":true'
CHANGED = b'{"changed":[{'
SHOWN = b'{"ok":true,"rows":[{'
READ = b'{"do":"read","view":"stock"}\n'


class Measured(NamedTuple):
    """A line that is measured, how many rows of a view it goes over, if it does, and how its reply begins."""

    name: str
    line: bytes
    rows: int
    start: bytes = CHANGED


class Case(NamedTuple):
    """The lines that make tables and views, each with how its reply begins, and those that are measured after them."""

    begin: list
    measured: list


def defining(*texts):
    return [(define(text), TAKEN) for text in texts]


def filling(view, rows):
    return [(edit(view, [], rows[first:first + FILLING]), CHANGED) for first in range(0, len(rows), FILLING)]


def with_last_changed(rows, old, new):
    last = rows[-1].replace(old, new, 1)
    if last == rows[-1]:
        raise SystemExit("the last row has nothing to change")
    return rows[:-1] + [last]


def undated(count, name, order):
    """A put through a drop over a selection that shows so many rows, in an order of them."""
    rows = [row(number) for number in range(count * 5 // 4)]
    shown = order(without_date(line) for line in rows if '"rating":0' not in line)
    begin = defining(
        TRACKS + " with track -> album date rating",
        "view undated = drop date determined by (track, 2018) from (select from tracks where rating > 0)",
    )
    line = put(with_last_changed(shown, '"album":"album', '"album":"other'), "undated")
    return Case(begin + filling("tracks", rows), [Measured(name, line, len(shown))])


def drop(count):
    """The put in the order of the numbers of the tracks."""
    return undated(count, "put through a drop over a selection", list)


def drop_as_read(count):
    """The same put, in the order in which a read shows the rows."""
    return undated(count, "the same, in the order of a read", sorted)


def drop_first(count):
    """A put through a drop of the first column, so that the rows of the table come in another order than those of the view."""
    rows = [row(number) for number in range(count)]
    shown = sorted(re.sub('"album":"[^"]*",', "", line) for line in rows)
    begin = defining(
        TRACKS + " with track -> album date rating",
        "view bare = drop album determined by (track, 'none') from tracks",
    )
    line = put(with_last_changed(shown, '"rating":', '"rating":1'), "bare")
    name = "put through a drop of the first column, in the order of a read"
    return Case(begin + filling("tracks", rows), [Measured(name, line, len(shown))])


def nullable(count):
    """A put through a drop over a selection, of a table in which every other date is null."""
    rows = [row(number) for number in range(count * 5 // 4)]
    rows[::2] = [re.sub('"date":[0-9]+', '"date":null', line) for line in rows[::2]]
    shown = [without_date(line) for line in rows if '"rating":0' not in line]
    begin = defining(
        TRACKS.replace("date int", "date int null") + " with track -> album date rating",
        "view undated = drop date determined by (track, null) from (select from tracks where not rating = 0)",
        "view lacking = select from tracks where date is null",
    )
    line = put(with_last_changed(shown, '"album":"album', '"album":"other'), "undated")
    return Case(begin + filling("tracks", rows), [
        Measured("put through a drop of a nullable column over a selection, every other value null", line, len(shown)),
        Measured("read of the rows without a value, by `is null`", b'{"do":"read","view":"lacking"}\n', len(rows[::2]), SHOWN),
    ])


def finds(count):
    """Finds in a table of so many rows, and in a selection over a drop over a join with a tenth as many."""
    case = join(count)
    last = f'"track{next(number for number in reversed(range(count)) if quantity(number // 10) > 2)}"'
    return Case(case.begin + [(edit("tracks", [], ['{"album":"album3","date":1,"rating":8,"track":"rare"}']), CHANGED)], [
        Measured("find of one row by key in the table", find("tracks", "track", last), 0, SHOWN),
        Measured("find of one row by key in a selection over a drop over a join", find("stock", "track", last), 0, SHOWN),
        Measured("find of one row there by a column that determines nothing", find("stock", "rating", 8), 0, SHOWN),
    ])


def join(count):
    """A read of a join of so many tracks with a tenth as many albums, and a put with one row changed."""
    albums = [f'{{"album":"album{number}","quantity":{quantity(number)}}}' for number in range(count // 10)]
    tracks = [row(number, 3) for number in range(count)]
    stock = [
        without_date(line).replace(',"rating"', f',"quantity":{quantity(number // 10)},"rating"', 1)
        for number, line in enumerate(tracks)
        if quantity(number // 10) > 2
    ]
    begin = defining(
        TRACKS + " with track -> date rating",
        "table albums (album text, quantity int) with album -> quantity",
        "view stock = select from (drop date determined by (track, 2018) from (join_dl tracks with albums)) where quantity > 2",
    )
    changed = put(with_last_changed(stock, '"rating":3', '"rating":9'), "stock")
    return Case(
        begin + filling("tracks", tracks) + filling("albums", albums),
        [Measured("read of a selection over a drop over a join", READ, len(stock), SHOWN), Measured("put of that view", changed, len(stock))],
    )


CASES = (drop, drop_as_read, drop_first, join, nullable, finds)


def seconds(program, case):
    """What each measured line takes in seconds, with its name."""
    server = Server(program)
    for line, start in case.begin:
        must_begin(server.ask(line)[0], start)
    taken = []
    for measured in case.measured:
        reply, time = server.ask(measured.line)
        must_begin(reply, measured.start)
        taken.append((measured.name, time))
    server.end()
    return taken


def once(program, by_hand, count):
    """What each line takes in seconds, with its name."""
    lines = [line for make in CASES for line in seconds(program, make(count))]
    if by_hand:
        lines += [(f"{name}, by hand", time) for name, time in seconds(by_hand, join(count))]
    return lines


def times(program, by_hand, count, runs):
    """What each line takes in ms, by its name: the times with so many rows, and those with ten times as many."""
    taken = {}
    for _ in range(runs):
        for place, rows in enumerate((count, count * TIMES)):
            for name, time in once(program, by_hand, rows):
                taken.setdefault(name, ([], []))[place].append(time * 1000)
    return taken


def built(name, folder):
    """The program of bench/NAME.rs, or nothing where there is no rustc."""
    if not shutil.which("rustc"):
        return None
    program = os.path.join(folder, name)
    subprocess.run(["rustc", "--edition", "2021", "-O", "-o", program, os.path.join(TOP, "bench", f"{name}.rs")], check=True)
    return program


def measure(program, by_hand, runs):
    print_head(["What", "Rows"], ["Time", "Ten times the rows", "Time", "Times"])
    for count in SIZES:
        for name, (few, many) in times(program, by_hand, count, runs).items():
            usual, usual_many = statistics.median(few), statistics.median(many)
            quotients = f"{usual_many / usual:.1f} ({min(many) / min(few):.1f})"
            print(f"| {name} | {count:,} | {usual:,.{1 if usual > 1 else 3}f} ms | {count * TIMES:,} | {usual_many:,.{0 if usual_many > 1 else 3}f} ms | {quotients} |", flush=True)


def counts(program, case):
    """The instructions that each measured line takes, alone after the lines that make its tables."""
    begin = [line for line, _ in case.begin]
    return [instructions(program, begin, [measured.line]) for measured in case.measured]


def in_millions(count):
    return f"{count / 1e6:,.{1 if count > 1e6 else 3}f} M"


def count_instructions(program):
    sizes = [f"{rows:,} rows" for rows in COUNTED]
    print_head(["What"], [*sizes, "Times", *(f"A row of the view at {size}" for size in sizes)])
    for make in CASES:
        cases = [make(rows) for rows in COUNTED]
        for lines, found in zip(zip(*(case.measured for case in cases)), zip(*(counts(program, case) for case in cases))):
            of_rows = [f"{count / line.rows:,.0f}" if line.rows else "" for line, count in zip(lines, found)]
            print(f"| {' | '.join([lines[0].name, *map(in_millions, found), f'{found[-1] / found[-2]:.1f}', *of_rows])} |", flush=True)


def main():
    parser = arguments(__doc__)
    parser.add_argument("--instructions", action="store_true", help="count instructions instead")
    parser.add_argument("--runs", type=int, default=6, help="how many runs are timed (6)")
    given = options(parser)
    if given.instructions:
        count_instructions(given.program)
        return
    with tempfile.TemporaryDirectory() as folder:
        measure(given.program, built("by_hand", folder), given.runs)


if __name__ == "__main__":
    main()
