"""Sessions of PostgreSQL by psql for the tests of compiled views."""
import subprocess

from cigrelk.postgres import Connection


class Session(Connection):
    """A session that says nothing on standard error. Statements that fail raise Failed, whose `state` is the SQLSTATE."""

    def __init__(self, address):
        super().__init__(address, subprocess.DEVNULL)
        self.ask("SET synchronous_commit = off")
