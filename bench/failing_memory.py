#!/usr/bin/env python3
"""Lets each allocation of a run fail in turn, and tests that the program then ends with status 3 before it replies, or says of
one line that memory ran out and goes on as if that line had not been sent.

The allocations are those of malloc, calloc and realloc, counted by a small library that is loaded before the C library. A
first run counts them; then there is one run for each.
"""
import os
import subprocess
import tempfile

from program import TOP, arguments, options

MEMORY = '{"error":1,"ok":false}\n'
LIBRARY = r"""
#define _GNU_SOURCE
#include <stdio.h>
#include <stdlib.h>

extern void *__libc_malloc(size_t);
extern void *__libc_calloc(size_t, size_t);
extern void *__libc_realloc(void *, size_t);

static unsigned long made, failing;

__attribute__((constructor)) static void begin(void) {
    const char *words = getenv("FAILING");
    failing = words ? strtoul(words, NULL, 10) : 0;
    made = 0;
}

__attribute__((destructor)) static void end(void) {
    if (getenv("COUNTED")) fprintf(stderr, "made %lu\n", made);
}

static int fails(void) { return ++made == failing; }

void *malloc(size_t n) { return fails() ? NULL : __libc_malloc(n); }
void *calloc(size_t n, size_t m) { return fails() ? NULL : __libc_calloc(n, m); }
void *realloc(void *p, size_t n) { return fails() ? NULL : __libc_realloc(p, n); }
"""


def run(program, words, lines, library=None, **settings):
    environment = dict(os.environ, **settings)
    if library:
        environment["LD_PRELOAD"] = library
    with tempfile.TemporaryDirectory() as folder:
        return subprocess.run([program, *words], input="".join(lines), capture_output=True, text=True, env=environment, cwd=folder)


def is_right(done, lines, whole, without):
    """Whether the run is as it has to be, with the cause where it is not."""
    replies = done.stdout.splitlines(keepends=True)
    if done.returncode == 3:
        return not replies
    if done.returncode != 0 or len(replies) != len(lines):
        return False
    refused = [place for place, reply in enumerate(replies) if reply == MEMORY]
    if not refused:
        return replies == whole
    return len(refused) == 1 and replies[: refused[0]] + replies[refused[0] + 1 :] == without(refused[0])


def main():
    parser = arguments(__doc__)
    parser.add_argument("--step", type=int, default=1, help="only each N-th allocation fails (1)")
    parser.add_argument("--requests", default=f"{TOP}/crates/view_program/stdin", help="a file of requests (the stored run)")
    parser.add_argument("--word", action="append", default=[], help="an argument for the program, as --word=--rehearse")
    found = options(parser)
    program, step, given = found.program, found.step, found.word
    with open(found.requests) as file:
        lines = file.readlines()
    whole = run(program, given, lines).stdout.splitlines(keepends=True)
    shorter = {}

    def without(place):
        if place not in shorter:
            shorter[place] = run(program, given, lines[:place] + lines[place + 1 :]).stdout.splitlines(keepends=True)
        return shorter[place]

    with tempfile.TemporaryDirectory() as folder:
        with open(f"{folder}/failing.c", "w") as file:
            file.write(LIBRARY)
        library = f"{folder}/failing.so"
        subprocess.run(["cc", "-O2", "-shared", "-fPIC", "-o", library, f"{folder}/failing.c"], check=True)
        counted = run(program, given, lines, library, COUNTED="1")
        made = int(counted.stderr.split("made ")[-1])
        ends = {"status 3": 0, "one line": 0, "no trace": 0}
        for number in range(1, made + 1, step):
            done = run(program, given, lines, library, FAILING=str(number))
            if not is_right(done, lines, whole, without):
                raise SystemExit(f"allocation {number}: status {done.returncode}\n{done.stdout}{done.stderr}")
            ends["status 3" if done.returncode == 3 else "one line" if MEMORY in done.stdout else "no trace"] += 1
    print(f"{made} allocations, each {step}. failed in turn: {', '.join(f'{number} {how}' for how, number in ends.items())}")


if __name__ == "__main__":
    main()
