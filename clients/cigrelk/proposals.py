"""Proposals: edits in a file, with what they would change, for others to review."""
import json

from .refusals import Refused
from .rows import tables_of


class NotProposal(ValueError):
    """A text that is no proposal, with the line that is wrong."""


class Proposal:
    """An edit that someone proposes, with what its preview changed when it was proposed."""

    def __init__(self, view, remove, add, tables):
        self.view, self.remove, self.add, self.tables = view, remove, add, tables

    def review(self, server) -> "Review":
        """The Review of this edit over the rows of now."""
        try:
            return Review(self, server, server[self.view].preview(self.remove, self.add), None)
        except Refused as error:
            return Review(self, server, None, error)


class Review:
    """A proposal over the rows of now. `change` is what it changes, or None where it is `refused`. `differs` has, for each table
    that changes in another way than was proposed, ('remove' or 'add', the row, 'now' or 'proposed') for each row that stands in
    one of the two alone."""

    def __init__(self, proposal, server, change, refused):
        self.proposal, self.server, self.change, self.refused = proposal, server, change, refused
        now = change.tables if change else {}
        tables = [*now, *(name for name in proposal.tables if name not in now)]
        found = {name: table_difference(now.get(name, ([], [])), proposal.tables.get(name, ([], []))) for name in tables}
        self.differs = {name: rows for name, rows in found.items() if rows}

    def accept(self):
        """Sends the edit on the version of this review. Raises Stale where a table was changed since, and the refusal where the
        preview was refused."""
        if self.refused:
            raise self.refused
        return self.server[self.proposal.view].edit(self.proposal.remove, self.proposal.add, on=self.change)


def table_difference(now, proposed):
    found = []
    for side, rows, others in zip(("remove", "add"), now, proposed):
        found += [(side, row, "now") for row in rows if row not in others]
        found += [(side, row, "proposed") for row in others if row not in rows]
    return found


def proposals(text: str) -> "list[Proposal]":
    """The proposals of a text that `propose` made. Raises NotProposal."""
    found, edit = [], None
    for number, line in enumerate(text.split("\n"), 1):
        if line.strip():
            if edit is None:
                edit = read_edit(line, number)
            else:
                found.append(Proposal(edit["view"], edit["remove"], edit["add"], read_changed(line, number)))
                edit = None
    if edit is not None:
        raise NotProposal("the last edit has no line behind it with what its preview changed")
    return found


def read_edit(line, number):
    edit = read_object(line, number)
    right = set(edit) == {"do", "view", "remove", "add"} and edit["do"] == "edit" and isinstance(edit["view"], str)
    if not right or not is_rows(edit["remove"]) or not is_rows(edit["add"]):
        raise NotProposal(f"line {number} is no edit with view, remove and add")
    return edit


def read_changed(line, number):
    changed = read_object(line, number).get("changed")
    if not isinstance(changed, list) or not all(is_changed(one) for one in changed):
        raise NotProposal(f"line {number} does not tell what the preview of the edit before it changed")
    return tables_of(changed)


def read_object(line, number):
    try:
        found = json.loads(line)
    except (ValueError, RecursionError):
        found = None
    if not isinstance(found, dict):
        raise NotProposal(f"line {number} is no JSON object")
    return found


def is_rows(rows):
    return isinstance(rows, list) and all(isinstance(row, dict) for row in rows)


def is_changed(one):
    return isinstance(one, dict) and isinstance(one.get("table"), str) and is_rows(one.get("remove")) and is_rows(one.get("add"))
