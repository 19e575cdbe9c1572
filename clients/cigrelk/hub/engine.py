"""The one program behind the hub: its pipes, whose turn it is, and what happens when it ends.

The program answers one line after another, so the n-th reply belongs to the n-th line. A job (one line, or several that nothing may
come between) has its place in that order from the moment it is sent. Nothing takes it out again: if its client went away, its replies
are read and dropped. So no reply can go to another job than its own.

Questions are jobs that many users have under way at once. Changes are made one turn after another, so while a change looks at the
tables before it is made, no other change comes between. Edits that wait may share a turn.
"""
import asyncio
import collections
import heapq
import time
import uuid
from typing import Awaitable, Callable, Iterator, List, Optional, Sequence, Union

# What may be under way in the program at once: so many jobs, of so many bytes, which are expected to take so long (in seconds). More
# would not be faster, and would stand before the next user's turn.
MOST_JOBS, MOST_BYTES, MOST_TIME = 16, 1 << 18, 0.005
# How many jobs of one user may wait, and how many bytes of replies his clients may leave unread.
MOST_WAITING, MOST_HELD = 4096, 64 << 20
# How many edits may share one turn, and how many bytes their lines may have.
MOST_SHARED, MOST_SHARED_BYTES = 128, 1 << 18
# How long (in seconds) a turn waits for changes of those who had one in the last turn: they ask again when they have their replies.
MOMENT = 0.001
# A program that ends so often within a minute is not started again.
MOST_STARTS = 5
# How long (in seconds) a start waits for a store that an older program still lets go of, and the status of a store that is held.
MOST_HELD_UP, STORE_IS_HELD = 5, 6


class Busy(Exception):
    """This user has too many requests waiting."""


class Unknown(Exception):
    """The program ended while the request was under way: it was done, or not."""


class Closing(Exception):
    """The hub is being shut down, or the program cannot be started again."""


class Stale(Exception):
    """The request rests on another run of the program."""


class Job:
    """Lines for the program, without newlines, and where their replies come.

    `lines` may be made as late as when the job is sent. `then` is called when the replies are there, before any later reply is looked
    at. `session` is the run that the job rests on, and `on` the version, if it rests on one."""

    __slots__ = ("lines", "then", "session", "on", "replies", "done", "lane", "cost", "took", "sent", "stamped", "size")
    is_change = False

    def __init__(self, lines: Union[List[bytes], Callable[[], List[bytes]]], then: Optional[Callable] = None, session: Optional[str] = None,
                 on: Optional[int] = None):
        self.lines, self.then, self.session, self.on = lines, then, session, on
        self.replies: List[bytes] = []
        self.done = asyncio.get_running_loop().create_future()
        self.lane: Optional[Lane] = None
        self.cost = self.took = 0.0
        self.sent, self.stamped, self.size = False, None, 0

    def settle(self) -> None:
        if not self.done.done():
            self.done.set_result(self.replies)

    def fail(self, error: Exception) -> None:
        fail(self.done, error)


def fail(done: asyncio.Future, error: Exception) -> None:
    """Ends a future that is not ended yet by an exception."""
    if not done.done():
        done.set_exception(error)
        # Whoever waits may be gone. Then nobody is to be told that nobody looked at it.
        done.exception()


class Change:
    """A change, which is made in a turn of its own or with others. `record` is what the journal is to hold of it, and `size` the bytes
    of its line. `may_share` says whether it is an edit that may share a turn."""

    is_change = True

    def __init__(self, record, session: Optional[str], size: int, may_share: bool):
        self.record, self.session, self.size, self.may_share = record, session, size, may_share
        self.done = asyncio.get_running_loop().create_future()
        self.lane: Optional[Lane] = None
        self.cost = 0.0

    def settle(self) -> None:
        if not self.done.done():
            self.done.set_result(None)

    def fail(self, error: Exception) -> None:
        fail(self.done, error)


class Gathered:
    """The changes that are gathered for one turn."""

    def __init__(self):
        self.changes: List[Change] = []
        self.size = 0

    def has_room(self, change: Change) -> bool:
        """Whether a change may be made in the same turn."""
        if not self.changes:
            return True
        return (change.may_share and self.changes[0].may_share and len(self.changes) < MOST_SHARED
                and self.size + change.size <= MOST_SHARED_BYTES)

    def add(self, change: Change) -> None:
        self.changes.append(change)
        self.size += change.size


class Lane:
    """The jobs and changes of one user that wait, how long the program has worked for him, and how many bytes of replies he has not
    taken. A lane is held while a change of it is in its turn: what waits behind it comes after it."""

    def __init__(self):
        self.jobs: collections.deque = collections.deque()
        self.spent, self.usual, self.unread, self.is_listed, self.is_held = 0.0, 0.0001, 0, False, False


class Lanes:
    """Whose turn it is: of those who wait, who has had least of the program's time. Who comes back after a pause begins where the
    others are, so a pause is no credit. `changes` is how many changes wait."""

    def __init__(self):
        self.lanes, self.heap, self.clock, self.number, self.changes = collections.defaultdict(Lane), [], 0.0, 0, 0

    def add(self, user: str, job) -> None:
        lane = job.lane = self.lanes[user]
        if len(lane.jobs) >= MOST_WAITING:
            raise Busy
        lane.jobs.append(job)
        self.changes += job.is_change
        self.enlist(lane)

    def may_pass(self, user: str, job: Job) -> bool:
        """Whether nobody waits, and a question of a user need not wait either. Then it is charged at once."""
        lane = self.lanes[user]
        if self.heap or lane.jobs or lane.is_held or lane.unread > MOST_HELD:
            return False
        job.lane, job.cost = lane, lane.usual
        lane.spent = max(lane.spent, self.clock) + job.cost
        return True

    def enlist(self, lane: Lane) -> None:
        if lane.jobs and not lane.is_listed and lane.unread <= MOST_HELD:
            lane.spent, lane.is_listed = max(lane.spent, self.clock), True
            self.number += 1
            heapq.heappush(self.heap, (lane.spent, self.number, lane))

    def take(self, accepts: Callable):
        """The next job that is accepted, which is charged with what the last ones of its user took on average; or None. A lane whose
        first job is not accepted stays where it was."""
        passed, found = [], None
        while self.heap and found is None:
            place = heapq.heappop(self.heap)
            lane = place[2]
            if not lane.jobs or lane.unread > MOST_HELD:
                lane.is_listed = False
            elif accepts(lane.jobs[0], lane):
                lane.is_listed, self.clock, found = False, max(self.clock, lane.spent), lane.jobs.popleft()
                found.cost = lane.usual
                lane.spent += found.cost
                self.changes -= found.is_change
                self.enlist(lane)
            else:
                passed.append(place)
        for place in passed:
            heapq.heappush(self.heap, place)
        return found

    def put_back(self, jobs: Sequence) -> None:
        """Gives jobs their place at the front again."""
        for job in reversed(jobs):
            job.lane.jobs.appendleft(job)
            self.changes += job.is_change
            self.enlist(job.lane)

    def charge(self, lane: Optional[Lane], expected: float, took: float) -> None:
        """Charges what a job really took."""
        if lane:
            lane.spent += took - expected
            lane.usual += (took - lane.usual) / 4

    def hold(self, lane: Lane, size: int) -> None:
        lane.unread += size
        self.enlist(lane)

    def all(self) -> Iterator:
        """All jobs that wait, which are taken out."""
        for lane in self.lanes.values():
            while lane.jobs:
                yield lane.jobs.popleft()
        self.changes = 0


class Program(asyncio.SubprocessProtocol):
    """One run of the program. `reply` is called with each job whose replies are whole, in order, and `end` once at the end."""

    def __init__(self, reply: Callable, end: Callable):
        self.reply, self.end, self.session = reply, end, uuid.uuid4().hex[:12]
        self.sent: collections.deque = collections.deque()
        # What goes to the program with the next write: jobs that come together share it.
        self.unsent: List[bytes] = []
        self.pieces, self.size, self.cost, self.since, self.damage, self.is_open = [], 0, 0.0, 0.0, None, True

    async def start(self, words: List[str]) -> None:
        # In a session of its own, since Ctrl-C at a terminal is for the hub. It ends when its input ends.
        loop = self.loop = asyncio.get_running_loop()
        self.ended = loop.create_future()
        self.process, _ = await loop.subprocess_exec(lambda: self, *words, stderr=None, start_new_session=True)
        self.input = self.process.get_pipe_transport(0)

    def has_room(self) -> bool:
        return self.is_open and (not self.sent or len(self.sent) < MOST_JOBS and self.size < MOST_BYTES and self.cost < MOST_TIME)

    def send(self, job: Job) -> None:
        if not self.sent:
            self.since = time.monotonic()
        if callable(job.lines):
            job.lines = job.lines()
        if not self.unsent:
            self.loop.call_soon(self.write)
        data = b"%b\n" % b"\n".join(job.lines)
        self.unsent.append(data)
        job.sent, job.size = True, len(data)
        self.sent.append(job)
        self.size += job.size
        self.cost += job.cost

    def write(self) -> None:
        """Writes what was sent."""
        data, self.unsent = b"".join(self.unsent), []
        try:
            self.input.write(data)
        except RuntimeError:
            # The program has ended, and its end is told soon.
            self.is_open = False

    def pipe_connection_lost(self, fd, _) -> None:
        self.is_open = False

    def pipe_data_received(self, fd, data) -> None:
        *lines, rest = data.split(b"\n")
        if lines and self.pieces:
            lines[0] = b"".join([*self.pieces, lines[0]])
            self.pieces = []
        if rest:
            self.pieces.append(rest)
        if lines:
            now = time.monotonic()
            each, self.since = (now - self.since) / len(lines), now
            for line in lines:
                self.take(line, each)

    def take(self, line: bytes, seconds: float) -> None:
        if line.startswith(b'{"damaged"') or not self.sent:
            # What is damaged is told before any reply. A reply too many is another program's, and no reply after it is sure.
            self.damage = line
            return None if line.startswith(b'{"damaged"') else self.process.kill()
        job = self.sent[0]
        job.replies.append(line)
        job.took += seconds
        if len(job.replies) == len(job.lines):
            self.sent.popleft()
            self.size -= job.size
            self.cost = max(0.0, self.cost - job.cost) if self.sent else 0.0
            self.reply(job)

    def connection_lost(self, _) -> None:
        """(This comes when the program has ended and all that it wrote is read.)"""
        self.ended.set_result(self.process.get_returncode())
        self.process.close()
        self.end(self)

    def close(self) -> None:
        self.input.close()


class Engine:
    """Starts the program, hands it jobs in fair order, and starts it again over its store.

    `conduct` makes changes in a turn, and gives those back that have to wait for the next. `restarted` is called with each new run,
    before any job reaches it."""

    def __init__(self, words: List[str], restarts: bool, conduct: Callable[[List[Change]], Awaitable[List[Change]]],
                 restarted: Callable[[Program, bytes], Awaitable[None]], knows: Callable[[int], bool]):
        self.words, self.restarts, self.conduct, self.restarted, self.knows = words, restarts, conduct, restarted, knows
        self.lanes, self.program, self.starts, self.is_closing, self.failed = Lanes(), None, collections.deque(), False, None
        # The turn of changes that is under way, what waits beside it for its end, and its time in the program.
        self.turn, self.turn_took, self.idle = None, 0.0, asyncio.Event()
        # How many changes the last two turns had, and the moment that the next one waits for as many: its timer, and whether it is over.
        self.last_turns, self.moment, self.is_moment_over = (0, 0), None, False

    @property
    def session(self) -> str:
        return self.program.session if self.program else ""

    async def start(self) -> None:
        """Starts the program. Raises Closing if it ends at once."""
        deadline = time.monotonic() + MOST_HELD_UP
        while not await self.started(deadline):
            await asyncio.sleep(0.05)
        self.pump()

    async def started(self, deadline: float) -> bool:
        """Whether the program runs. A store that is held is tried again until the deadline."""
        program = Program(self.reply, self.end)
        await program.start(self.words)
        first = Job([b'{"do":"list"}'])
        program.send(first)
        try:
            listed = (await first.done)[0]
        except Unknown:
            status = await program.ended
            if status == STORE_IS_HELD and time.monotonic() < deadline:
                return False
            if status < 0 and len(self.starts) < MOST_STARTS:
                # A signal ended it while it started, which may spare the next one. It counts as a start.
                self.starts.append(time.monotonic())
                return False
            damage = f": {program.damage.decode(errors='replace')}" if program.damage else ""
            raise Closing(f"the program ended with status {status}{damage}") from None
        self.starts.append(time.monotonic())
        try:
            await self.restarted(program, listed)
        except Unknown:
            if len(self.starts) < MOST_STARTS:
                return False
            raise Closing("the program ended at its start") from None
        self.program = program
        return True

    def submit(self, user: str, job: Union[Job, Change]) -> asyncio.Future:
        """Gives a job or a change its place, and a future of its replies. Raises Busy and Closing. The future raises Unknown, Closing
        and Stale, and OSError if the journal cannot be written."""
        if self.is_closing or self.failed:
            raise Closing(self.failed or "the hub is being shut down")
        if not job.is_change and job.session is None and self.program and self.program.has_room() and self.lanes.may_pass(user, job):
            self.program.send(job)
        else:
            self.lanes.add(user, job)
            self.pump()
        return job.done

    def exchange(self, job: Job) -> asyncio.Future:
        """Sends a job of a turn, which waits for nobody."""
        if self.program is None or not self.program.is_open:
            job.fail(Unknown())
        else:
            self.program.send(job)
        return job.done

    def pump(self) -> None:
        """Sends what there is room for, and begins the next turn of changes."""
        gathered = Gathered()
        while self.program and self.program.has_room():
            job = self.lanes.take(lambda job, lane: self.accepts(job, lane, gathered))
            if job is None:
                break
            if job.session is not None and job.session != self.session:
                job.fail(Stale())
            elif not job.is_change:
                self.program.send(job)
            else:
                job.lane.is_held = True
                gathered.add(job)
        if gathered.changes:
            self.last_turns, self.is_moment_over = (len(gathered.changes), self.last_turns[0]), False
            self.moment = self.moment and self.moment.cancel()
            self.turn = asyncio.ensure_future(self.make(gathered.changes))

    def accepts(self, job: Union[Job, Change], lane: Lane, gathered: Gathered) -> bool:
        """Whether a job may be sent now, beside the changes that are gathered for the next turn."""
        if job.is_change:
            return not self.turn and not self.waits_for_more(gathered) and gathered.has_room(job)
        if lane.is_held:
            return False
        # A version that is not there yet may come with the turn that is under way.
        return job.on is None or not (self.turn or gathered.changes) or self.knows(job.on)

    def waits_for_more(self, gathered: Gathered) -> bool:
        """Whether the next turn waits a moment for more changes."""
        expected = max(self.last_turns)
        if gathered.changes or self.is_moment_over or self.lanes.changes >= expected or expected < 2:
            return False
        self.moment = self.moment or asyncio.get_running_loop().call_later(MOMENT, self.end_moment)
        return True

    def end_moment(self) -> None:
        self.moment, self.is_moment_over = None, True
        self.pump()

    async def make(self, changes: List[Change]) -> None:
        """A turn. What has to wait for the next one keeps its place."""
        left, self.turn_took = changes, 0.0
        try:
            left = await self.conduct(changes)
        finally:
            each = self.turn_took / len(changes)
            for change in changes:
                change.lane.is_held = False
                self.lanes.charge(change.lane, change.cost, each)
            self.turn = None
            self.lanes.put_back(left)
            if self.is_closing:
                for job in self.lanes.all():
                    job.fail(Closing("the hub is being shut down"))
            self.pump()
            self.rest()

    def reply(self, job: Job) -> None:
        if job.lane:
            self.lanes.charge(job.lane, job.cost, job.took)
        else:
            self.turn_took += job.took
        if job.then:
            job.then(job)
        job.settle()
        self.pump()
        self.rest()

    def rest(self) -> None:
        """Tells who waits for the end that nothing is under way."""
        if self.is_closing and not self.turn and not (self.program and self.program.sent):
            self.idle.set()

    def end(self, program: Program) -> None:
        """All that was under way is unknown. What waits is sent to the next run, unless it rests on this one."""
        for job in program.sent:
            job.fail(Unknown())
        program.sent.clear()
        if program is not self.program:
            return
        self.program = None
        self.rest()
        if not self.is_closing:
            asyncio.ensure_future(self.start_again())

    async def start_again(self) -> None:
        while self.starts and self.starts[0] < time.monotonic() - 60:
            self.starts.popleft()
        if not self.restarts or len(self.starts) >= MOST_STARTS:
            return self.give_up("the program ended, and is not started again")
        try:
            await self.start()
        except (Closing, OSError) as error:
            self.give_up(str(error))

    def give_up(self, why: str) -> None:
        self.failed = why
        for job in self.lanes.all():
            job.fail(Closing(why))

    def hold(self, user: str, size: int) -> None:
        """Notes that clients of a user hold so many more bytes of replies that they have not taken, or fewer."""
        self.lanes.hold(self.lanes.lanes[user], size)
        if size < 0:
            self.pump()

    async def close(self) -> int:
        """Takes no more jobs, answers those that are under way, tells those that wait that they are not done, and ends the program.
        Gives its status."""
        self.is_closing = True
        for job in self.lanes.all():
            job.fail(Closing("the hub is being shut down"))
        self.rest()
        await self.idle.wait()
        if self.program:
            self.program.close()
            return await self.program.ended
        return 1
