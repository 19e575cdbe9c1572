"""Makes a store of a source: all rows, in batches, each checked by the program."""
import json
import os
import re
import sys
import tempfile

from ..errors import CommandError
from ..progress import Progress
from ..refusals import refusal
from ..server import Server
from ..texts import counted

# The end of a reply to an edit that was accepted. The reply has all rows again, which nobody reads here: each has a key of its own.
ACCEPTED = re.compile(rb'"ok":true,"version":[0-9]+\}$')


def problems(source, definitions):
    """Raises CommandError if values do not fit."""
    found = [f"{described.name}.{column}: {counted(number, 'value')} {what}" for described in definitions.described.values() for column, number, what in source.problems(described.table, described.columns)]
    if found:
        raise CommandError("the store cannot take all values: " + "; ".join(found))


def load(source, definitions, store):
    """Makes the store, which gets its name once it is whole. Raises CommandError, and leaves none then."""
    if os.path.lexists(store):
        raise CommandError(f"{store} is there already")
    problems(source, definitions)
    with tempfile.TemporaryDirectory(prefix=".take-", dir=os.path.dirname(os.path.abspath(store))) as room:
        made = f"{room}/new.db"
        with Server(made) as program:
            for text in definitions.texts:
                program.define(text)
            for described in definitions.described.values():
                fill(program, source, described)
        os.link(made, store)


def fill(program, source, described):
    """Fills a table. Rows go to the program as the texts that came, since to read and write them anew would take longer than all else."""
    total, done = source.count(described.table), 0
    with Progress(described.name) as progress:
        for rows in source.batches(described.table, described.columns, described.surrogate):
            line = f'{{"do":"edit","view":"{described.name}","remove":[],"add":[{",".join(rows)}]}}'
            reply = program.pass_on(line.encode())
            if not ACCEPTED.search(reply, len(reply) - 64):
                raise CommandError(f"{described.name}, in the rows from {done + 1:,} on: {refusal(json.loads(reply), json.loads(line))}")
            done += len(rows)
            progress.to(done, total)
    if done != total:
        raise CommandError(f"{described.name} has {total:,} rows, and {done:,} came")
    print(f"{described.name}: {counted(done, 'row')}", file=sys.stderr)
