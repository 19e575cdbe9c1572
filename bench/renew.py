#!/usr/bin/env python3
"""Puts the figures that a bench prints into the tables of a page, and says which rows of those tables got none.

    bench/lines.py >printed; bench/renew.py docs/SPEED.md <printed

A row of the page is named by its cells that stand on the left. It gets the figures of the printed row of the same name, by the names of
the columns; a printed row or column that the page has not is left out. What the page says beside its tables it does not change.
"""
import argparse
import re
import sys


def cells(line):
    return [cell.strip() for cell in line.strip().strip("|").split(" | ")] if line.startswith("|") else []


def numbered(names):
    """Names of columns, those that come again told apart."""
    return [(name, names[:place].count(name)) for place, name in enumerate(names)]


def tables(lines):
    """The tables among lines: the number of the first row, the names of the columns, and how many of them name a row."""
    for number, line in enumerate(lines[1:], 1):
        if re.fullmatch(r"\|(-+\|)+(-+:\|)+", line):
            yield number + 1, numbered(cells(lines[number - 1])), line.count("-|")


def rows(lines, first, count):
    """The rows of a table by their names, each with its number and its cells."""
    found = {}
    for number in range(first, len(lines)):
        row = cells(lines[number])
        if not row:
            break
        found.setdefault(tuple(row[:count]), (number, row))
    return found


def renewed(page, printed):
    """The lines of the page with the printed figures, and the names of rows for which nothing was printed."""
    lines, lacking = list(page), []
    for of_printed, printed_names, count in tables(printed):
        new = rows(printed, of_printed, count)
        for first, names, count_here in tables(page):
            if names[:count_here] != printed_names[:count] or not set(names) <= set(printed_names):
                continue
            places = [printed_names.index(name) for name in names]
            for name, (number, _) in rows(page, first, count).items():
                if name in new:
                    figures = new[name][1]
                    lines[number] = f"| {' | '.join(figures[place] if place < len(figures) else '' for place in places)} |"
                else:
                    lacking.append(" ".join(name))
    return lines, lacking


def main():
    parser = argparse.ArgumentParser(description=__doc__, formatter_class=argparse.RawDescriptionHelpFormatter)
    parser.add_argument("page")
    path = parser.parse_args().page
    with open(path, encoding="utf-8") as file:
        page = file.read().split("\n")
    lines, lacking = renewed(page, sys.stdin.read().split("\n"))
    if lines == page:
        sys.exit("no row of the page got another figure")
    with open(path, "w", encoding="utf-8") as file:
        file.write("\n".join(lines))
    for name in lacking:
        print(f"no figure for: {name}")


if __name__ == "__main__":
    main()
