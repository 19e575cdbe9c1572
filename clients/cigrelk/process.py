"""The program as a process: the pipes to it, and how it ends."""
import collections
import json
import os
import select
import subprocess
import threading
import uuid

from .kinds import cure_for
from .texts import words_of

# The folder that a clone of the repository is in, whose `serve` starts the program.
TOP = os.environ.get("CIGRELK_TOP") or os.path.dirname(os.path.dirname(os.path.dirname(os.path.abspath(__file__))))
# How many bytes a program may read in all: a client that lives for weeks sends more than the program's own limit of 4 GiB.
MOST_INPUT = 2**40
# How many bytes one read of the pipe takes at most: more would be fetched from the system anew for each reply.
MOST_READ = 1 << 16


class Ended(Exception):
    """The program ended with `status`. A request under way got no reply; it may have been done or not. `damage` has what is wrong
    with a store that is damaged. `cause` is the sentence for people, where more is known than the status tells."""

    causes = {
        1: "it could not be started, or failed, as it told on standard error",
        2: "the words of the command line are refused",
        3: "memory ran out at the start",
        4: "its input failed",
        5: "its output failed",
        6: "the store cannot be opened: its folder is not there, it is no store, or another program has it open",
        7: "the store is damaged",
        8: "more input came than it was started for",
    }

    def __init__(self, status, damage=None, cause=None):
        self.status, self.damage = status, damage
        if cause:
            super().__init__(cause)
            return
        unknown = "it was stopped" if status < 0 else "it was closed" if status == 0 else "the cause is not known"
        told = "" if damage is None else f": {damage_text(damage)}"
        super().__init__(f"the program ended with status {status}: {self.causes.get(status, unknown)}{told}")


class NotStarted(Ended):
    """The program cannot be started."""

    def __init__(self, sentence):
        self.status, self.damage = 127, None
        Exception.__init__(self, sentence)


def default_program():
    """The path of the program: the one that CIGRELK names in the environment, or else `serve` of the clone that this package lies in.
    Raises NotStarted if there is neither."""
    named, of_clone = os.environ.get("CIGRELK"), f"{TOP}/serve"
    if not named and not os.path.exists(of_clone):
        raise NotStarted("there is no program: set CIGRELK to the path of one, since this package lies in no clone that has `serve`")
    return named or of_clone


def damage_text(damage):
    """What is wrong with a store, in words."""
    if "definition" in damage:
        return f"its definition number {damage['definition'] + 1} is refused"
    if "missing" in damage:
        return f"the table {damage['missing']} is defined and not there"
    if "strange" in damage:
        return f"the table {damage['strange']} is there and not defined"
    if "row" in damage:
        return f"the table {damage['table']} has a row that its definition refuses: {words_of(damage['row'])}"
    if "rows" in damage:
        return f"the table {damage['table']} has two rows that break a dependency: {' / '.join(map(words_of, damage['rows']))}"
    return json.dumps(damage)


class ReplyLost(Exception):
    """An interrupt broke off the reading of replies, and the reply to this request was dropped. Whether the request was done, a
    read tells."""


class Reply:
    """Where the reply to one request comes."""

    __slots__ = ("line", "lost")

    def __init__(self):
        self.line, self.lost = None, False


class Program:
    """The program and the pipes to it. Any thread may use it.

    No thread is started here: whoever waits for a reply reads the pipe, and hands replies to earlier requests to those who wait
    for them. While a request is written, replies are read, so neither side stands still where both pipes are full.

    An interrupt (Ctrl-C) can break off any step. While a step moves bytes, the pipes are not `sure`. Where one was broken off, it
    is not known what was sent or read; then the next request sends a marker ahead of itself, and all replies before the marker's
    are dropped. So no reply goes to another request than its own.
    """

    OUT_OF_MEMORY = b'{"error":1,"ok":false}'

    def __init__(self, words):
        # In a session of its own, since Ctrl-C at a terminal is for the client. The program ends where its input ends.
        self.process = subprocess.Popen(words, stdin=subprocess.PIPE, stdout=subprocess.PIPE, bufsize=0, start_new_session=True)
        self.input, self.output = self.process.stdin.fileno(), self.process.stdout.fileno()
        os.set_blocking(self.input, False)
        self.replies, self.both = select.poll(), select.poll()
        self.replies.register(self.output, select.POLLIN)
        self.both.register(self.output, select.POLLIN)
        self.both.register(self.input, select.POLLOUT)
        self.turn, self.sure, self.marker = threading.Lock(), True, None
        self.unsent, self.waiting, self.pieces = b"", collections.deque(), []
        self.end, self.damage, self.told = None, None, False

    def ask(self, line):
        """The reply to one line of bytes, as bytes. Raises Ended where the program ended."""
        reply = Reply()
        with self.turn:
            self.write(line + b"\n", [reply])
            self.read_until(reply)
        return reply.line

    def send(self, lines):
        """Sends lines of bytes, and gives a Reply for each."""
        replies = [Reply() for _ in lines]
        with self.turn:
            self.write(b"".join(line + b"\n" for line in lines), replies)
        return replies

    def wait(self, reply):
        """The line that came for a Reply. Raises Ended where the program ended before, and ReplyLost where an interrupt lost it."""
        if reply.line is None:
            with self.turn:
                self.read_until(reply)
        return reply.line

    def write(self, data, replies):
        if not self.sure:
            self.mark()
        if self.end:
            raise self.ended()
        self.sure = False
        self.waiting.extend(replies)
        self.unsent = b"".join([self.unsent, data]) if self.unsent else data
        self.sure = True
        while self.unsent:
            if not self.write_some():
                self.step()

    def read_until(self, reply):
        if not self.sure:
            self.mark()
        while reply.line is None:
            if reply.lost:
                raise ReplyLost("an interrupt lost the reply to this request: read, to see whether it was done")
            if self.end:
                raise self.ended()
            if self.unsent or len(self.waiting) > 1:
                self.step()
            else:
                # An interrupt while this waits loses no reply but the one that was waited for.
                self.read_some()

    def step(self):
        """Waits until a pipe is ready, and moves what can be moved. An interrupt while it waits loses nothing."""
        for pipe, _ in (self.both if self.unsent else self.replies).poll():
            if pipe == self.input:
                self.write_some()
            else:
                self.read_some()

    def write_some(self):
        """Writes what the pipe takes now, and tells how much it was."""
        self.sure = False
        try:
            count = os.write(self.input, self.unsent)
        except BlockingIOError:
            count = 0
        except OSError:
            # The program ended. What it replied before that is still read, and its end is found there.
            count = len(self.unsent)
        self.unsent = memoryview(self.unsent)[count:] if count < len(self.unsent) else b""
        self.sure = True
        return count

    def read_some(self):
        """Reads what came, and hands each whole line to its request."""
        self.sure = False
        read = os.read(self.output, MOST_READ)
        *lines, rest = read.split(b"\n")
        if lines and self.pieces:
            lines[0] = b"".join([*self.pieces, lines[0]])
            self.pieces = []
        for line in lines:
            self.take(line)
        if rest:
            self.pieces.append(rest)
        if not read:
            self.finish()
        self.sure = True

    def take(self, line):
        if self.marker:
            if self.marker in line:
                self.marker = None
            elif line == self.OUT_OF_MEMORY:
                # This may be the reply to the marker.
                self.mark()
        elif line.startswith(b'{"damaged"'):
            self.damage = json.loads(line)["damaged"]
        elif self.waiting and line.startswith(b"{"):
            self.waiting[0].line = line
            self.waiting.popleft()
        else:
            # This is another program.
            self.process.kill()

    def mark(self):
        """Has all replies dropped before the reply to a line that nobody else sends."""
        for reply in self.waiting:
            reply.lost = True
        self.waiting.clear()
        self.pieces = []
        # The newline ends a request that was sent in part, which is then no JSON.
        self.marker = b"marker-" + uuid.uuid4().hex.encode()
        self.unsent = b'\n{"do":"list","%b":0}\n' % self.marker
        self.sure = True

    def finish(self):
        """Notes the end of the program."""
        try:
            status = self.process.wait(10)
        except subprocess.TimeoutExpired:
            self.process.kill()
            status = self.process.wait()
        self.end = (status, self.damage)

    def ended(self):
        self.told = True
        return Ended(*self.end)

    def close(self):
        """Ends the program's input, reads to the end of its output, and waits for its end."""
        with self.turn:
            if not self.sure:
                self.mark()
            self.process.stdin.close()
            while not self.end:
                self.read_some()
            self.process.stdout.close()


# A float that is no number is no JSON; it is told before anything is sent.
encoded = json.JSONEncoder(ensure_ascii=False, allow_nan=False, separators=(",", ":")).encode


def line_of(request):
    """A request as a line of bytes. Raises ValueError or TypeError for what is no JSON or no text, with the column that has it."""
    try:
        return encoded(request).encode()
    except UnicodeEncodeError:
        raise
    except (TypeError, ValueError) as error:
        raise type(error)(why_no_value(request) or str(error)) from None


def why_no_value(request):
    """What is told of the first value in the rows of a request that is none of any kind, or None."""
    for edit in [request, *request.get("edits", ())]:
        for member in ("rows", "remove", "add"):
            for number, row in enumerate(edit.get(member, ()), 1):
                for name, value in row.items() if isinstance(row, dict) else ():
                    if not isinstance(value, (str, int, bool, type(None))) or value != value:
                        return f"row {number}: '{name}' is {value!r}, of the type {type(value).__name__}, and not an int, a str, a bool or None{cure_for(value)}"
    return None
