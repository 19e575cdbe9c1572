"""Refusals of the hub, before they are replies."""
from typing import Any, Dict

# The numbers of refusals that the program does not give. The package has their sentences.
NO_RIGHT, NO_TOKEN, BUSY, UNKNOWN, CLOSING, CHANGED_SINCE, NO_JOURNAL, NOT_THROUGH = 100, 101, 102, 103, 104, 105, 106, 107


class No(Exception):
    """A refusal: its number, and the members of its reply."""

    def __init__(self, error: int, **members: Any):
        self.reply: Dict[str, Any] = {**members, "error": error, "ok": False}

    def of_edit(self, place: int) -> "No":
        """The same refusal for an edit of a batch."""
        members = {name: it for name, it in self.reply.items() if name not in ("ok", "error")}
        return No(self.reply["error"], **members, edit=place)
