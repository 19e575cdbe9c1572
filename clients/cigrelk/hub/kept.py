"""Replies that are kept: the same question need not be asked twice while the tables under its view stay."""
import collections
from typing import NamedTuple, Optional

from .engine import Job

# How many bytes of replies are kept.
MOST_KEPT = 64 << 20


class Stamp(NamedTuple):
    """When a reply was given: the session, the version that its user is told, and the last change under the view that was read."""

    session: str
    version: int
    at: int


class Kept:
    """The replies to questions that were asked before, each as long as the tables under its view stay.

    A reply that is under way may be joined: replies come in order, so each change that was answered by now stands before it."""

    def __init__(self):
        self.jobs: "collections.OrderedDict[bytes, Job]" = collections.OrderedDict()
        self.size = 0

    def find(self, line: bytes, at: int) -> Optional[Job]:
        """The job with the reply to a question whose view was changed last at a version."""
        job = self.jobs.get(line)
        if job is None or not (job.stamped.at == at if job.stamped else job.sent and not job.done.done()):
            return None
        self.jobs.move_to_end(line)
        return job

    def begin(self, line: bytes, job: Job) -> None:
        self.drop(line)
        self.jobs[line] = job
        job.done.add_done_callback(lambda done: self.finish(line, job))

    def finish(self, line: bytes, job: Job) -> None:
        if self.jobs.get(line) is not job:
            return
        if not job.replies or not job.stamped:
            return self.drop(line)
        self.size += len(job.replies[0])
        while self.size > MOST_KEPT and self.jobs:
            self.drop(next(iter(self.jobs)))

    def drop(self, line: bytes) -> None:
        job = self.jobs.pop(line, None)
        if job and job.done.done() and job.replies:
            self.size -= len(job.replies[0])

    def clear(self) -> None:
        self.jobs.clear()
        self.size = 0
