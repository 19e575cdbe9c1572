"""Refusals as problems of HTTP (RFC 9457): a status, a name, and a sentence."""
import http
from typing import Any, Dict, Optional, Tuple

from ..refusals import refusal
from .refusing import BUSY, CHANGED_SINCE, CLOSING, NO_JOURNAL, NO_RIGHT, NO_TOKEN, NOT_THROUGH, UNKNOWN

# The status of each refusal. Those of definitions, and all others, are 422.
STATUS = {1: 503, 10: 413, 11: 400, 12: 400, 21: 409, 22: 404, 41: 412, 43: 409, 44: 409, 90: 507, NO_RIGHT: 403, NO_TOKEN: 401, BUSY: 429,
          UNKNOWN: 503, CLOSING: 503, CHANGED_SINCE: 409, NO_JOURNAL: 507, NOT_THROUGH: 403}
# What a problem has beside the members of the refusal.
OWN = ("ok", "error", "name")


class Problem(Exception):
    """What is wrong with a request of HTTP itself."""

    def __init__(self, status: int, detail: str, **headers: str):
        self.status, self.detail, self.headers = status, detail, {name.replace("_", "-"): value for name, value in headers.items()}

    def told(self) -> Dict[str, Any]:
        return {"type": "about:blank", "title": http.HTTPStatus(self.status).phrase, "status": self.status, "detail": self.detail}


def problem_of(reply: dict, request: Optional[dict]) -> Tuple[int, Dict[str, Any]]:
    """A refusal of the program or of the hub as a problem: its status, and its members."""
    found = refusal(reply, request)
    name, status = type(found).__name__, STATUS.get(reply["error"], 422)
    members = {member: it for member, it in reply.items() if member not in OWN}
    # (the program's own `name` is that of a column or a table)
    about = {"about": reply["name"]} if "name" in reply else {}
    return status, {"type": f"urn:cigrelk:{name}", "title": name, "status": status, "detail": str(found), "error": reply["error"], "name": name,
                    **about, **members}
