"""The program that the benches measure, and the lines that they send to it.

Without a path on the command line a bench takes the program that ./serve serves: the proved one, if there is one and no source
is newer, and else the one that is compiled without proofs.
"""
import argparse
import os
import subprocess
import time

TOP = os.path.dirname(os.path.dirname(os.path.abspath(__file__)))
# ./serve starts the program with these settings of the C library.
AS_SERVED = {"GLIBC_TUNABLES": "glibc.malloc.hugetlb=1:glibc.malloc.tcache_count=1000", **os.environ}
UNDO = b'{"do":"undo"}\n'


def served():
    """The path of the program that ./serve serves, which compiles it first if there is none."""
    asked = subprocess.run([f"{TOP}/serve", "--path"], stdin=subprocess.DEVNULL, stdout=subprocess.PIPE, text=True, check=True)
    return asked.stdout.strip()


def arguments(documentation):
    """A parser of a bench's command line, whose first argument is the program's path."""
    parser = argparse.ArgumentParser(description=documentation, formatter_class=argparse.RawDescriptionHelpFormatter)
    parser.add_argument("program", nargs="?", help="the program's path; without it, the program that ./serve serves")
    return parser


def options(parser):
    """What the command line says, with the path of a program in any case."""
    found = parser.parse_args()
    found.program = os.path.abspath(found.program) if found.program else served()
    return found


class Server:
    """The program, asked a line at a time."""

    def __init__(self, program, *words, under=(), **how):
        """Starts the program with these arguments, under another command if one is given."""
        self.process = subprocess.Popen([*under, program, *words], stdin=subprocess.PIPE, stdout=subprocess.PIPE, bufsize=0, env=AS_SERVED, **how)

    def ask(self, line):
        """The reply to a line, and how long it took, in seconds."""
        begin = time.perf_counter()
        view = memoryview(line)
        sink = self.process.stdin.fileno()
        source = self.process.stdout.fileno()
        while view:
            view = view[os.write(sink, view):]
        pieces = []
        while not pieces or not pieces[-1].endswith(b"\n"):
            piece = os.read(source, 1 << 20)
            if not piece:
                raise SystemExit("the program ended")
            pieces.append(piece)
        return b"".join(pieces), time.perf_counter() - begin

    def stream(self, lines):
        """The replies to lines that are sent at once. They have to fit the pipe, as some hundred short ones do."""
        os.write(self.process.stdin.fileno(), b"".join(lines))
        replies = b""
        while replies.count(b"\n") < len(lines):
            piece = os.read(self.process.stdout.fileno(), 1 << 20)
            if not piece:
                raise SystemExit("the program ended")
            replies += piece
        return replies.splitlines()

    def peak(self):
        """The most memory that the program held so far, in MB."""
        with open(f"/proc/{self.process.pid}/status", encoding="ascii") as status:
            for line in status:
                if line.startswith("VmHWM:"):
                    return int(line.split()[1]) / 1024
        return 0.0

    def end(self):
        self.process.stdin.close()
        if self.process.wait() != 0:
            raise SystemExit(f"the program ended with status {self.process.returncode}")


def put(rows, view="tracks"):
    return (f'{{"do":"put","view":"{view}","rows":[' + ",".join(rows) + "]}\n").encode()


def edit(view, remove, add, do="edit", on=None):
    rests = "" if on is None else f',"on":{on}'
    return (f'{{"do":"{do}","view":"{view}","remove":[' + ",".join(remove) + '],"add":[' + ",".join(add) + f"]{rests}}}\n").encode()


def batch(edits):
    """A batch of edits, each a view, rows to remove and rows to add."""
    members = (f'{{"view":"{view}","remove":[{",".join(remove)}],"add":[{",".join(add)}]}}' for view, remove, add in edits)
    return (f'{{"do":"batch","edits":[{",".join(members)}]}}\n').encode()


def find(view, column, value):
    return f'{{"do":"find","view":"{view}","column":"{column}","value":{value}}}\n'.encode()


def must_begin(reply, start):
    if not reply.startswith(start):
        raise SystemExit(f"not what was expected: {reply[:200]!r}")


def define(text):
    return ('{"do":"define","text":"' + text + '"}\n').encode()


def print_head(names, figures):
    """Prints the head of a table: what its rows are named by, and their figures, which stand on the right."""
    print(f"| {' | '.join([*names, *figures])} |")
    print(f"|{'---|' * len(names)}{'--:|' * len(figures)}")
