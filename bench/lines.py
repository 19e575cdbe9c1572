#!/usr/bin/env python3
"""Measures how long lines of one row take at tables of several sizes: medians of many lines, each from the first byte of the line to the
last of its reply. Tables and lines are those of bench/instructions.py. The last line of the table is the most memory at each size.
"""
import statistics
import tempfile

from instructions import OF_ONE_ROW, filled
from program import UNDO, Server, arguments, options, print_head

SIZES = (1_000, 10_000, 100_000, 1_000_000)
# With a store up to so many rows.
STORED = 100_000
LINES, STORED_LINES, UNDOS = 200, 50, 16
# What is asked, by the names of bench/instructions.py.
ASKED = {"preview": "one preview of it", "find by key": "one find of it by its key", "edit": "one edit of one row"}
DONE = b'"ok":true'


def asked(server, lines):
    """The median in ms."""
    taken = []
    for line in lines:
        reply, seconds = server.ask(line)
        if DONE not in reply:
            raise SystemExit(f"not accepted: {reply[:200]!r}")
        taken.append(seconds * 1000)
    return statistics.median(taken)


def lines_of(name, rows, number):
    return [OF_ONE_ROW[name](i, rows) for i in range(number)]


def filled_server(program, rows, *words):
    server = Server(program, *words)
    asked(server, filled(rows))
    return server


def in_memory(program, rows):
    """The medians by what is asked, and the most memory in MB."""
    server = filled_server(program, rows)
    found = {name: asked(server, lines_of(of_one, rows, LINES)) for name, of_one in ASKED.items()}
    found["undo of such an edit"] = asked(server, [UNDO] * UNDOS)
    peak = server.peak()
    server.end()
    return found, peak


def in_a_file(program, rows):
    with tempfile.TemporaryDirectory() as folder:
        server = filled_server(program, rows, "--store", f"{folder}/store.db")
        found = asked(server, lines_of(ASKED["edit"], rows, STORED_LINES))
        server.end()
    return {"edit with `--store`": found}


def main():
    program = options(arguments(__doc__)).program
    measured = [in_memory(program, rows) for rows in SIZES]
    stored = [in_a_file(program, rows) for rows in SIZES if rows <= STORED]
    print_head(["Request"], [f"{rows:,} tracks" for rows in SIZES])
    for name in measured[0][0]:
        print(f"| {name} | {' | '.join(f'{found[name]:.3f} ms' for found, _ in measured)} |")
    for name in stored[0]:
        print(f"| {name} | {' | '.join(f'{found[name]:.2f} ms' for found in stored)} | |")
    print(f"| most memory | {' | '.join(f'{peak:.0f} MB' for _, peak in measured)} |")


if __name__ == "__main__":
    main()
