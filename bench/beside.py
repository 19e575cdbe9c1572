#!/usr/bin/env python3
"""Compares the program with two others for one view: by hand in Rust (bench/by_hand.rs), and in Rust with SQLite in memory
(bench/by_sqlite.rs). What these do not check, bench/stock.rs says at its head.

The three get the same lines, in turn, and have to give the same replies, byte for byte. The view is a selection over a drop over a join
of tracks with a tenth as many albums; of 100,000 tracks it shows 57,130 rows. First come the medians of several runs in time, and the
most memory; then instructions, by valgrind. Those of lines of one row are counted as bench/instructions.py does, over its tables.
"""
import json
import statistics
import tempfile

from bench import PUTS
from growth import built, counts, join
from instructions import OF_ONE_ROW, of_one_row
from program import Server, arguments, edit, options, print_head

EDITED = (1_000, 100_000, 1_000_000)
OTHERS = ("by_hand", "by_sqlite")


def stock_in(case):
    """The rows that the view shows, as the put of the case sends them, but for the one that it changes."""
    rows = json.loads(case.measured[1].line)["rows"]
    return [json.dumps(row, separators=(",", ":")) for row in rows[:-1]]


def of_one_row_each(case):
    """Lines of one row, by what is told of them."""
    rows = stock_in(case)[:PUTS]
    rated = [row.replace('"rating":3', '"rating":4') for row in rows]
    new = [row.replace('"track":"', '"track":"new') for row in rows]
    return {
        "edits of one row": [edit("stock", [old], [row]) for old, row in zip(rows, rated)],
        "previews of a changed row": [edit("stock", [old], [row], "preview") for old, row in zip(rated, rows)],
        "previews of an added row": [edit("stock", [], [row], "preview") for row in new],
    }


def asked(servers, lines, replies):
    """The seconds that each program takes for these lines. Appends the replies to those of the program."""
    taken = []
    for server, replied in zip(servers, replies):
        found = [server.ask(line) for line in lines]
        replied += [reply for reply, _ in found]
        taken.append(sum(seconds for _, seconds in found))
    if any(replied != replies[0] for replied in replies):
        raise SystemExit(f"other replies to lines that begin {lines[0][:100]!r}")
    return taken


def run(programs, case):
    """One run of all programs: what is told of each line, with a figure for each program."""
    servers, replies, figures = [Server(program) for program in programs], [[] for _ in programs], {}
    defined = [line for line, _ in case.begin if b'"define"' in line]
    filled = [line for line, _ in case.begin if b'"define"' not in line]
    asked(servers, defined, replies)
    count = sum(line.count(b"{") - 1 for line in filled)
    figures[f"load of {count:,} rows, rows a second"] = [count / seconds for seconds in asked(servers, filled, replies)]
    for name, lines in of_one_row_each(case).items():
        figures[f"{name}, a second"] = [len(lines) / seconds for seconds in asked(servers, lines, replies)]
    figures["most memory so far, MB"] = [server.peak() for server in servers]
    for measured in case.measured:
        figures[f"{measured.name}, ms"] = [seconds * 1000 for seconds in asked(servers, [measured.line], replies)]
    figures["most memory, MB"] = [server.peak() for server in servers]
    for server in servers:
        server.end()
    return figures


def tell(name, figures):
    print(f"| {name} | {' | '.join(f'{figure:,.0f}' for figure in figures)} |", flush=True)


def main():
    parser = arguments(__doc__)
    parser.add_argument("--runs", type=int, default=5, help="how many runs are timed (5)")
    parser.add_argument("--rows", type=int, default=100_000, help="how many tracks there are (100,000)")
    given = options(parser)
    program, runs, rows = given.program, given.runs, given.rows
    case = join(rows)
    with tempfile.TemporaryDirectory() as folder:
        programs = [program, *(built(name, folder) for name in OTHERS)]
        if None in programs:
            raise SystemExit("there is no rustc")
        print_head([f"{rows:,} tracks"], ["Cigrelk", "Rust by hand", "Rust with SQLite"])
        all_figures = [run(programs, case) for _ in range(runs)]
        for name in all_figures[0]:
            tell(name, [statistics.median(of_program) for of_program in zip(*(figures[name] for figures in all_figures))])
        for measured, found in zip(case.measured, zip(*(counts(it, case) for it in programs))):
            tell(f"{measured.name}, instructions a row of its {measured.rows:,}", [count / measured.rows for count in found])
        for name, ask_for in OF_ONE_ROW.items():
            for count in [] if "find" in name else EDITED if "edit" in name else [rows]:
                tell(f"{name}, of {count:,} tracks, instructions", [of_one_row(it, count, ask_for) for it in programs])


if __name__ == "__main__":
    main()
