#!/usr/bin/python3
"""Requests a second at the hub, their latency, and the processor time that each costs, beside the program alone over a pipe.

    bench/hub_load.py [--seconds N] [--folder FOLDER] [CASE ..]

`wrk` makes the requests (Debian's package wrk). Run it by `taskset -c 0`, and load generator, hub and program share one processor.
--folder says where the stores lie: the disk by itself, /dev/shm for figures without a disk. CIGRELK names the program. On a busy machine take the
microseconds of processor time: they change least.
"""
import argparse
import json
import os
import re
import shutil
import subprocess
import sys
import tempfile
import time

TOP = os.path.dirname(os.path.dirname(os.path.realpath(__file__)))
sys.path.insert(0, f"{TOP}/clients/tests")
from hubs import PROGRAM, HubAt

TRACKS = 10000
SHOP = [
    {"do": "define", "text": "table tracks (track text, date int, rating int, album text) with track -> date rating"},
    {"do": "define", "text": "table albums (album text, quantity int) with album -> quantity"},
    {"do": "define", "text": "view stock = select from (drop date determined by (track, 2018) from (join_dl tracks with albums)) where quantity > 2"},
    {"do": "put", "view": "albums", "rows": [{"album": f"a{it}", "quantity": it % 7} for it in range(TRACKS // 10)]},
    {"do": "put", "view": "tracks", "rows": [{"track": f"t{it}", "date": 1980 + it % 40, "rating": it % 5, "album": f"a{it % (TRACKS // 10)}"} for it in range(TRACKS)]},
]
HEAD = 'wrk.headers["Authorization"] = "Bearer %s"\nwrk.headers["Content-Type"] = "application/json"\nlocal n = 0\n'
ROW = '{\\"track\\":\\"n" .. n .. "%s\\",\\"rating\\":1,\\"album\\":\\"a" .. (n %% 142 * 7 + 3) .. "\\",\\"quantity\\":3}'
SCRIPTS = {
    "read by key": 'function request() n = n + 1; return wrk.format("GET", "/views/stock?track=t" .. (n * 7919 % 10000)) end',
    "view": 'function request() return wrk.format("GET", "/views/stock") end',
    "not changed": 'function request() wrk.headers["If-None-Match"] = ETAG; return wrk.format("GET", "/views/stock") end',
    "preview": 'function request() n = n + 1; return wrk.format("POST", "/views/stock/preview", nil, "{\\"add\\":[ROW]}") end',
    "edit": 'function request() n = n + 1; return wrk.format("POST", "/views/stock/edit", nil, "{\\"add\\":[ROW]}") end',
}
# Each case: the script, who asks, and the numbers of connections.
CASES = [("read by key", "open", (1, 10, 100, 1000)), ("view", "open", (10,)), ("not changed", "open", (10,)), ("preview", "open", (1, 10, 100, 1000)),
         ("edit", "open", (1, 10, 100, 1000)), ("preview", "window", (1, 100)), ("edit", "window", (1, 100))]


def processor_time(process):
    with open(f"/proc/{process}/stat") as file:
        words = file.read().rpartition(")")[2].split()
    return (int(words[11]) + int(words[12])) / os.sysconf("SC_CLK_TCK")


def used(processes, before, count):
    """Microseconds of processor time a request, by process."""
    return [(processor_time(it) - was) / max(count, 1) * 1e6 for it, was in zip(processes, before)]


def row(count, mark):
    return {"track": f"{mark}{count}", "rating": 1, "album": f"a{count % 142 * 7 + 3}", "quantity": 3}


def print_line(name, connections, rate, median, most, microseconds, wrong=""):
    print(f"| {name} | {connections} | {rate:,.0f} | {median} | {most} | {' | '.join(f'{it:.0f}' for it in microseconds)} |{wrong}", flush=True)


def by_wrk(hub, who, name, connections, seconds):
    """Requests of one kind over so many connections."""
    mark, etag = f"{name[0]}{who[0]}{connections}", hub.ask(who, "GET", "/views/stock")[1]["ETag"]
    script = HEAD % hub.tokens[who] + SCRIPTS[name].replace("ROW", ROW % mark).replace("ETAG", f"'{etag}'")
    with tempfile.NamedTemporaryFile("w", suffix=".lua") as file:
        file.write(script)
        file.flush()
        processes = (hub.process.pid, hub.program())
        before = list(map(processor_time, processes))
        told = subprocess.run(["wrk", "-t1", f"-c{connections}", f"-d{seconds}s", "--timeout", "10s", "--latency", "-s", file.name, f"http://127.0.0.1:{hub.port}"],
                              capture_output=True, text=True, check=True).stdout
    count, wrong = int(re.search(r"(\d+) requests in", told)[1]), re.search(r"Non-2xx or 3xx responses: (\d+)", told)
    at = {share: re.search(rf"{share}%\s+(\S+)", told)[1] for share in ("50", "99")}
    # (what the clients that went away had sent is still done)
    hub.ask(who, "GET", "/views/stock?track=t3")
    print_line(f"{name}, {who}", connections, float(re.search(r"Requests/sec:\s+(\S+)", told)[1]), at["50"], at["99"], used(processes, before, count),
               f" WRONG {wrong[1]}" if wrong else "")


def by_lines(hub, who, name, request, at_once, seconds):
    """Series of lines: so many a request of HTTP."""
    connection, count, processes = hub.connect(), 0, (hub.process.pid, hub.program())
    before, began = list(map(processor_time, processes)), time.monotonic()
    while time.monotonic() < began + seconds:
        body = "".join(json.dumps(request(count + it)) + "\n" for it in range(at_once))
        told = hub.ask(who, "POST", "/lines", body, connection, Content_Type="application/x-ndjson")[2]
        assert told.count('"ok":true') == at_once, told[:300]
        count += at_once
    took = time.monotonic() - began
    print_line(f"{name}, {at_once} lines at once, {who}", 1, count / took, f"{took / (count / at_once) * 1e3:.1f}ms", "", used(processes, before, count))


def alone(folder, name, request, at_once, seconds):
    """The program alone over a pipe, so many lines under way."""
    room = tempfile.mkdtemp(dir=folder)
    process = subprocess.Popen([PROGRAM, f"--store={room}/s.db"], stdin=subprocess.PIPE, stdout=subprocess.PIPE)
    for it in SHOP:
        process.stdin.write(json.dumps(it).encode() + b"\n")
        process.stdin.flush()
        process.stdout.readline()
    count, began, before = 0, time.monotonic(), [processor_time(process.pid)]
    while time.monotonic() < began + seconds:
        process.stdin.write(b"".join(json.dumps(request(count + it)).encode() + b"\n" for it in range(at_once)))
        process.stdin.flush()
        for _ in range(at_once):
            process.stdout.readline()
        count += at_once
    took = time.monotonic() - began
    print_line(f"program alone: {name}, {at_once} at once", "", count / took, f"{took / (count / at_once) * 1e3:.2f}ms", "", [0, *used([process.pid], before, count)])
    process.stdin.close()
    process.wait()
    process.stdout.close()
    shutil.rmtree(room)


def main():
    parser = argparse.ArgumentParser(description=__doc__, formatter_class=argparse.RawDescriptionHelpFormatter)
    parser.add_argument("cases", nargs="*", metavar="CASE", help=f"{', '.join(SCRIPTS)}, alone or lines; without one all of them")
    parser.add_argument("--seconds", type=int, default=3, metavar="N")
    parser.add_argument("--folder", default=tempfile.gettempdir(), metavar="FOLDER")
    options = parser.parse_args()
    wanted = options.cases or [*SCRIPTS, "alone", "lines"]
    find = lambda count: {"do": "find", "view": "stock", "column": "track", "value": f"t{count * 7919 % TRACKS}"}
    edit = lambda do, mark: lambda count: {"do": do, "view": "stock", "remove": [], "add": [row(count, mark)]}
    print("| What | Connections | Requests/s | Median | 99 in 100 | Hub, µs a request | Program, µs a request |\n|---|---|---|---|---|---|---|")
    for at_once in (1, 64) if "alone" in wanted else ():
        alone(options.folder, "find", find, at_once, options.seconds)
        alone(options.folder, "preview", edit("preview", "p"), at_once, options.seconds)
        alone(options.folder, "edit", edit("edit", "e"), at_once, options.seconds)
    with HubAt({"open": ["*=read,preview,edit"], "window": ["stock=read,preview,edit"]}, SHOP, folder=options.folder) as hub:
        for name, who, counts in CASES:
            for connections in counts if name in wanted else ():
                by_wrk(hub, who, name, connections, options.seconds)
        for at_once in (1, 64) if "lines" in wanted else ():
            by_lines(hub, "open", "find", find, at_once, options.seconds)
            by_lines(hub, "open", "preview", edit("preview", "lp"), at_once, options.seconds)
            by_lines(hub, "open", "edit", edit("edit", f"le{at_once}x"), at_once, options.seconds)
            by_lines(hub, "window", "edit", edit("edit", f"lw{at_once}x"), at_once, options.seconds)


if __name__ == "__main__":
    main()
