"""How long one edit after another takes, beside a loop that only writes a line and reads a line. Run it by hand:

    CIGRELK=/path/of/view_program python3 clients/tests/speed.py

All ways take turns, a request each, so that other work on the machine falls on all alike. It prints medians in microseconds, and
how many times the bare loop each way takes.
"""
import io
import json
import os
import statistics
import subprocess
import sys
import time

HERE = os.path.dirname(os.path.abspath(__file__))
sys.path.insert(0, os.path.dirname(HERE))
from cigrelk import TOP, Server

TABLE = "table goods (name text, quantity int) with name -> quantity"
EDITS = 5000


class Bare:
    """A loop over the pipe, with JSON or with lines that are made beforehand."""

    def __init__(self, with_json):
        program = os.environ.get("CIGRELK") or f"{TOP}/serve"
        self.process = subprocess.Popen([program], stdin=subprocess.PIPE, stdout=subprocess.PIPE, bufsize=0)
        self.replies, self.with_json = io.BufferedReader(self.process.stdout), with_json
        self.edit(self.prepared({"do": "define", "text": TABLE}))

    def prepared(self, request):
        return request if self.with_json else json.dumps(request).encode() + b"\n"

    def edit(self, request):
        line = json.dumps(request).encode() + b"\n" if self.with_json else request
        self.process.stdin.write(line)
        reply = self.replies.readline()
        return json.loads(reply) if self.with_json else reply

    def close(self):
        self.process.stdin.close()
        self.process.wait()


class Client:
    """The client, one `edit` of a View after another."""

    def __init__(self):
        self.server = Server()
        self.view = self.server.define(TABLE)

    def prepared(self, request):
        return request["add"]

    def edit(self, rows):
        return self.view.edit(add=rows)

    def close(self):
        self.server.close()


def main():
    ways = {"write a line, read a line": Bare(False), "the same with JSON": Bare(True), "View.edit": Client()}
    times = {name: [] for name in ways}
    for number in range(EDITS):
        request = {"do": "edit", "view": "goods", "remove": [], "add": [{"name": f"thing {number}", "quantity": number}]}
        for name, way in ways.items():
            prepared = way.prepared(request)
            began = time.perf_counter()
            way.edit(prepared)
            times[name].append(time.perf_counter() - began)
    for way in ways.values():
        way.close()
    least = statistics.median(times["write a line, read a line"])
    for name, found in times.items():
        median = statistics.median(found)
        print(f"{name}: {median * 1e6:.0f} microseconds, {median / least:.2f} times")


if __name__ == "__main__":
    main()
