#!/usr/bin/env python3
"""Kills the program at random moments of a stream of changes to a store in a file, and tests that no change whose reply came is lost."""
import json
import os
import random
import subprocess
import tempfile
import threading
import time

from program import arguments, options

DEFINE = '{"do":"define","text":"table counts (key int)"}\n'
READ = '{"do":"read","view":"counts"}\n'
LONGEST = 0.5


def added(key):
    return f'{{"do":"edit","view":"counts","remove":[],"add":[{{"key":{key}}}]}}\n'


def started(program, path):
    return subprocess.Popen([program, "--store", path], stdin=subprocess.PIPE, stdout=subprocess.PIPE, text=True)


def killed(program, path, first):
    """The keys whose changes were sent, and those of them that were answered, until the kill."""
    server = started(program, path)
    timer = threading.Timer(random.random() * LONGEST, server.kill)
    timer.start()
    sent, answered = [], []
    try:
        while True:
            key = first + len(sent)
            sent.append(key)
            server.stdin.write(added(key))
            server.stdin.flush()
            reply = server.stdout.readline()
            if not reply.endswith("\n"):
                break
            if not json.loads(reply)["ok"]:
                raise SystemExit(f"not taken: {reply}")
            answered.append(key)
    except BrokenPipeError:
        pass
    timer.join()
    server.wait()
    return sent, answered


def found(program, path):
    """The keys that the store has, as the program reads them."""
    done = subprocess.run([program, "--store", path], input=READ, capture_output=True, text=True, check=True)
    return {row["key"] for row in json.loads(done.stdout)["rows"]}


def main():
    parser = arguments(__doc__)
    parser.add_argument("--times", type=int, default=100, help="how often the program is killed (100)")
    given = options(parser)
    program, times = given.program, given.times
    begin = time.perf_counter()
    with tempfile.TemporaryDirectory(dir=os.path.dirname(program)) as folder:
        path = os.path.join(folder, "kills.db")
        subprocess.run([program, "--store", path], input=DEFINE, capture_output=True, text=True, check=True)
        kept, total, unanswered, first = set(), 0, 0, 0
        for _ in range(times):
            sent, answered = killed(program, path, first)
            now = found(program, path)
            if not kept | set(answered) <= now:
                raise SystemExit(f"lost: {sorted((kept | set(answered)) - now)}")
            if not now <= kept | set(sent):
                raise SystemExit(f"never sent: {sorted(now - kept - set(sent))}")
            total += len(answered)
            unanswered += len(now - kept - set(answered))
            kept, first = now, first + len(sent)
    print(f"{times} kills, {total:,} changes answered, none lost; {unanswered} made and not answered; {time.perf_counter() - begin:.0f} s")


if __name__ == "__main__":
    main()
