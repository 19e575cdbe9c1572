#!/usr/bin/env python3
"""How long the way in takes: rows of one table from SQLite, CSV and PostgreSQL into a store, beside the program's own load of the same rows.

    bench/take.py [--rows N] [--from sqlite,csv,postgresql]

For each it prints the time by the clock, and the processor time of all its processes (of PostgreSQL's server not), and whether the store
has the same rows. From PostgreSQL the rows go back by `cigrelk give` too. CIGRELK names the program, or else it is that of ./serve.
"""
import argparse
import csv
import itertools
import json
import os
import resource
import sqlite3
import subprocess
import sys
import tempfile
import time

TOP = os.path.dirname(os.path.dirname(os.path.abspath(__file__)))
sys.path[:0] = [f"{TOP}/clients", f"{TOP}/clients/tests"]
from cigrelk import Server
from postgres_servers import Servers

COLUMNS = {"id": "int", "track": "text", "date": "int", "rating": "int", "album": "text"}
BATCH = 10_000


def rows(count):
    """The rows of a table of tracks. The names of tracks are not in the order of the key."""
    return ((number, f"track {number * 7919 % count}", 1950 + number % 70, number % 5, f"album {number % (count // 10)}") for number in range(count))


def used(words, **settings):
    """Runs a command, and returns its time by the clock and its processor time."""
    before, begin = resource.getrusage(resource.RUSAGE_CHILDREN), time.perf_counter()
    subprocess.run(words, check=True, stdout=subprocess.DEVNULL, stderr=subprocess.DEVNULL, **settings)
    seconds, after = time.perf_counter() - begin, resource.getrusage(resource.RUSAGE_CHILDREN)
    return seconds, after.ru_utime + after.ru_stime - before.ru_utime - before.ru_stime


def own_load(room, count):
    """The program's own load of requests that are there."""
    names = ", ".join(f"{name} {kind}" for name, kind in COLUMNS.items())
    with open(f"{room}/requests", "w", encoding="ascii") as file:
        file.write(json.dumps({"do": "define", "text": f"table tracks ({names}) with id -> track date rating album"}) + "\n")
        left = rows(count)
        while batch := list(itertools.islice(left, BATCH)):
            file.write(json.dumps({"do": "edit", "view": "tracks", "remove": [], "add": [dict(zip(COLUMNS, row)) for row in batch]}) + "\n")
    program = os.environ.get("CIGRELK") or subprocess.run([f"{TOP}/serve", "--path"], stdout=subprocess.PIPE, text=True, check=True).stdout.strip()
    with open(f"{room}/requests", "rb") as file:
        return used([program, "--store", f"{room}/own.db"], stdin=file)


def make_sqlite(room, count):
    path = f"{room}/old.sqlite"
    with sqlite3.connect(path) as connection:
        connection.execute("CREATE TABLE tracks (id INTEGER PRIMARY KEY, track TEXT NOT NULL, date INTEGER NOT NULL, rating INTEGER NOT NULL, album TEXT NOT NULL)")
        connection.executemany("INSERT INTO tracks VALUES (?, ?, ?, ?, ?)", rows(count))
    connection.close()
    return path


def make_csv(room, count):
    os.mkdir(f"{room}/csv")
    with open(f"{room}/csv/tracks.csv", "w", newline="", encoding="ascii") as file:
        writer = csv.writer(file)
        writer.writerow(COLUMNS)
        writer.writerows(rows(count))
    return f"{room}/csv"


def make_postgresql(address, count):
    lines = "".join("\t".join(map(str, row)) + "\n" for row in rows(count))
    subprocess.run(["psql", "-q", "-d", address, "-c", "CREATE TABLE tracks (id bigint PRIMARY KEY, track text NOT NULL, date bigint NOT NULL, rating bigint NOT NULL, album text NOT NULL)",
                    "-c", "COPY tracks FROM STDIN"], input=lines, text=True, check=True)
    return address


def is_same(store, count):
    with Server(store) as server:
        found = sorted(server["tracks"].read(), key=lambda row: row["id"])
    return [tuple(row[name] for name in COLUMNS) for row in found] == list(rows(count))


def main():
    parser = argparse.ArgumentParser(description=__doc__, formatter_class=argparse.RawDescriptionHelpFormatter)
    parser.add_argument("--rows", type=int, default=1_000_000)
    parser.add_argument("--from", dest="sources", default="sqlite,csv,postgresql")
    options = parser.parse_args()
    count, status = options.rows, 0
    servers = Servers("base", settings="synchronous_commit = off") if "postgresql" in options.sources else None
    try:
        with tempfile.TemporaryDirectory() as room:
            own = own_load(room, count)
            print(f"| {count:,} rows from | by the clock, s | processor time, s | beside the program's own load | store |\n|---|---|---|---|---|", flush=True)
            print(f"| requests (own load) | {own[0]:.1f} | {own[1]:.1f} | | |", flush=True)
            address = servers and servers.address("base")
            for name in options.sources.split(","):
                source = make_postgresql(address, count) if name == "postgresql" else {"sqlite": make_sqlite, "csv": make_csv}[name](room, count)
                store = f"{room}/{name}.db"
                took = used([f"{TOP}/cigrelk", "take", source, "--into", store])
                same = is_same(store, count)
                print(f"| {name} | {took[0]:.1f} | {took[1]:.1f} | {took[0] / own[0]:.2f} by the clock, {took[1] / own[1]:.2f} in processor time | {'the same rows' if same else 'OTHER ROWS'} |", flush=True)
                status |= not same
            if servers:
                servers.sql(address, "CREATE SCHEMA new")
                took = used([f"{TOP}/cigrelk", "give", f"{room}/postgresql.db", address, "--schema", "new"])
                (differ,) = servers.sql(address, "SELECT count(*) FROM (TABLE tracks EXCEPT TABLE new.tracks UNION ALL TABLE new.tracks EXCEPT TABLE tracks) x")
                print(f"| back to postgresql | {took[0]:.1f} | {took[1]:.1f} | {took[0] / own[0]:.2f} by the clock, {took[1] / own[1]:.2f} in processor time | {differ} rows differ |", flush=True)
                status |= differ != "0"
    finally:
        if servers:
            servers.close()
    return int(status)


if __name__ == "__main__":
    sys.exit(main())
