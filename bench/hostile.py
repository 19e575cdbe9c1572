#!/usr/bin/env python3
"""Sends the program lines of up to 16 MiB that are costly to read, and prints for each its reply, its time and the peak memory; then
the same lines under a limit of the address space. After each line a request for the definitions must be answered.
"""
import resource
import string

from bench import LONGEST
from program import Server, arguments, define, must_begin, options, print_head

LIST = b'{"do":"list"}\n'
LIMIT = 128 << 20
LONGEST_TIME = 3.0
DIGITS = string.digits + string.ascii_lowercase


def short_names(count):
    """So many distinct names of four letters and digits."""
    for number in range(count):
        letters = []
        for _ in range(4):
            number, digit = divmod(number, len(DIGITS))
            letters.append(DIGITS[digit])
        yield "".join(letters)


def filled(front, member, between, back):
    """A line that is filled with as many equal members as it holds."""
    count = (LONGEST - len(front) - len(back) + len(between)) // (len(member) + len(between))
    return (front + between.join([member] * count) + back + "\n").encode()


def numbered(count):
    """A batch of so many edits, each of which adds a row of its own."""
    edits = ",".join(f'{{"view":"t","remove":[],"add":[{{"a":{number}}}]}}' for number in range(count))
    return f'{{"do":"batch","edits":[{edits}]}}\n'.encode()


def in_turn(count):
    """A batch that adds and removes one row so many times."""
    both = '{"view":"t","remove":[],"add":[{"a":1}]},{"view":"t","remove":[{"a":1}],"add":[]}'
    return f'{{"do":"batch","edits":[{",".join([both] * count)}]}}\n'.encode()


def lines():
    """What each line is, and the line."""
    members = ",".join(f'"{name}":0' for name in short_names(1_600_000))
    return [
        ("an object of 1,600,000 distinct members", ("{" + members + "}\n").encode()),
        ("an array of empty objects", filled("[", "{}", ",", "]")),
        ("a put of rows that are empty objects", filled('{"do":"put","view":"t","rows":[', "{}", ",", "]}")),
        ("a put of numbers for rows", filled('{"do":"put","view":"t","rows":[', "0", ",", "]}")),
        ("a put of rows that are equal", filled('{"do":"put","view":"t","rows":[', '{"a":1}', ",", "]}")),
        ("an array of arrays, each 126 levels deep", filled("[", "[" * 126 + "]" * 126, ",", "]")),
        ("brackets that are never closed", ("[" * LONGEST + "\n").encode()),
        ("one string", ('{"do":"list","on":"' + "a" * (LONGEST - 21) + '"}\n').encode()),
        ("a string of escapes alone", filled('{"do":"list","on":"', "\\u0041", "", '"}')),
        ("digits alone", ("1" * LONGEST + "\n").encode()),
        ("blanks alone", (" " * LONGEST + "\n").encode()),
        ("a batch of edits without rows", filled('{"do":"batch","edits":[', '{"view":"t","remove":[],"add":[]}', ",", "]}")),
        ("a batch that adds and removes one row 100,000 times", in_turn(100_000)),
        ("a batch of 100,000 edits of one row each", numbered(100_000)),
        ("an import of commas alone", filled('{"do":"import","view":"t","csv":"', ",", "", '"}')),
        ("an import of quotation marks alone", filled('{"do":"import","view":"t","csv":"', '\\"', "", '"}')),
        ("an import of ends of lines alone", filled('{"do":"import","view":"t","csv":"', "\\n", "", '"}')),
        ("an import of rows that are equal", filled('{"do":"import","view":"t","csv":"a', "\\n1", "", '"}')),
        ("an import of one field that is never closed", filled('{"do":"import","view":"t","csv":"a\\n\\"', "1", "", '"}')),
    ]


class Limited(Server):
    """The program under a limit of its address space."""

    def __init__(self, program):
        super().__init__(program, preexec_fn=lambda: resource.setrlimit(resource.RLIMIT_AS, (LIMIT, LIMIT)))


def asked(make, program, line):
    """What a program of its own replies to the line, how long that takes, and its peak memory. The next line must be served."""
    server = make(program)
    reply, _ = server.ask(define("table t (a int)"))
    must_begin(reply, b'{"ok":true')
    reply, seconds = server.ask(line)
    served, _ = server.ask(LIST)
    must_begin(served, b'{"definitions":["table t (a int)"]')
    peak = server.peak()
    server.end()
    return reply.decode().rstrip("\n")[:60], seconds, peak


def main():
    program = options(arguments(__doc__)).program
    slow = []
    print_head(["Request of up to 16 MiB"], ["Bytes", "Time", "Peak memory", "Reply", f"Reply under {LIMIT >> 20} MB"])
    for name, line in lines():
        reply, seconds, peak = asked(Server, program, line)
        limited, _, _ = asked(Limited, program, line)
        print(f"| {name} | {len(line):,} | {seconds:.2f} s | {peak:,.0f} MB | `{reply}` | `{limited}` |", flush=True)
        if seconds > LONGEST_TIME:
            slow.append(name)
    if slow:
        raise SystemExit(f"slower than {LONGEST_TIME} s: {', '.join(slow)}")


if __name__ == "__main__":
    main()
