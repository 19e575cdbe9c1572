"""Users, their tokens, and what each may do.

A file of JSON has them:

    {"ann": {"tokens": ["<SHA-256 of the token>"], "may": ["undo"], "rights": {"stock": ["edit", "preview", "read"]},
             "through": {"stock": ["tracks"]}}}

A right on `*` is one on every table and view, also on those to come. `may` has `define`, `undo` and `admin`; an admin may do all.
`through` has the tables that an edit of a view may change; without it an edit may change every table under the view. Tokens are 256
random bits, so a plain hash of one cannot be turned back, and no slow hash is needed.
"""
import contextlib
import fcntl
import hashlib
import hmac
import json
import os
import secrets
from typing import Dict, FrozenSet, Iterator, List, Optional, Tuple

RIGHTS, POWERS = ("read", "preview", "edit"), ("define", "undo", "admin")
ALL = "*"


class User:
    """A person or a program: its name, the hashes of its tokens, and its rights."""

    def __init__(self, name: str, told: dict):
        self.name, self.tokens = name, list(told["tokens"])
        self.may = frozenset(told.get("may", ()))
        self.rights = {view: frozenset(rights) for view, rights in told.get("rights", {}).items()}
        self.through = {view: frozenset(tables) for view, tables in told.get("through", {}).items()}
        unknown = (self.may - set(POWERS)).union(*self.rights.values()) - set(RIGHTS)
        if unknown:
            raise ValueError(f"{min(unknown)} is no right: rights on a table or a view are {', '.join(RIGHTS)}, and powers are {', '.join(POWERS)}")

    @property
    def is_admin(self) -> bool:
        return "admin" in self.may

    def on(self, view: str) -> FrozenSet[str]:
        """The rights on a table or a view."""
        if self.is_admin:
            return frozenset(RIGHTS)
        return self.rights.get(view, frozenset()) | self.rights.get(ALL, frozenset())

    def can(self, power: str) -> bool:
        return self.is_admin or power in self.may

    def limit(self, view: str) -> Optional[FrozenSet[str]]:
        """The tables that an edit of a view may change, or None if it may change all."""
        return None if self.is_admin else self.through.get(view, self.through.get(ALL))

    def told(self) -> dict:
        """The user as the file has it."""
        listed = lambda sets: {view: sorted(it) for view, it in sets.items()}
        return {"tokens": self.tokens, "may": sorted(self.may), "rights": listed(self.rights), "through": listed(self.through)}


def digest(token: str) -> str:
    return hashlib.sha256(token.encode(errors="replace")).hexdigest()


class Users:
    """The users of a file. Commands that change the file take turns by a lock beside it."""

    def __init__(self, path: str):
        self.path, self.users, self.by_hash = path, {}, {}
        if os.path.exists(path):
            self.load()

    def load(self) -> None:
        """Reads the file. If it is wrong, all stays as it was."""
        with open(self.path, encoding="utf-8") as file:
            told = json.load(file)
        self.take({name: User(name, it) for name, it in told.items()})

    def take(self, users: Dict[str, User]) -> None:
        self.users, self.by_hash = users, {token: user for user in users.values() for token in user.tokens}

    def save(self) -> None:
        draft = f"{self.path}.draft"
        with open(os.open(draft, os.O_WRONLY | os.O_CREAT | os.O_TRUNC, 0o600), "w", encoding="utf-8") as file:
            json.dump({name: user.told() for name, user in self.users.items()}, file, indent=1, ensure_ascii=False)
            file.flush()
            os.fsync(file.fileno())
        os.replace(draft, self.path)

    def with_token(self, token: str) -> Tuple[Optional[User], str]:
        """The user whose token this is, or None, and the hash of the token. A token is looked up by its hash, so the time that this
        takes says nothing about the tokens that are kept."""
        found = digest(token)
        user = self.by_hash.get(found)
        return (user if user and any(hmac.compare_digest(found, it) for it in user.tokens) else None), found

    @contextlib.contextmanager
    def alone(self) -> Iterator[None]:
        """Others who change the file wait. What they wrote before is read."""
        with open(os.open(f"{self.path}.lock", os.O_WRONLY | os.O_CREAT, 0o600), "w") as lock:
            fcntl.flock(lock, fcntl.LOCK_EX)
            if os.path.exists(self.path):
                self.load()
            yield

    def grant(self, name: str, words: List[str]) -> Optional[str]:
        """Gives rights by words: `stock=read,edit`, `*=read`, `stock:through=tracks` or `undo`. `stock=` takes all rights on stock
        away, and `stock:through=*` lets its edits change all tables. Gives the token of a new user, and else None."""
        with self.alone():
            user, token = self.users.get(name), None
            if user is None:
                token = secrets.token_urlsafe(32)
                user = User(name, {"tokens": [digest(token)]})
            self.replace(with_words(user, words))
            return token

    def new_token(self, name: str) -> str:
        """A new token in place of all that a user has. Raises KeyError if there is no such user."""
        with self.alone():
            token = secrets.token_urlsafe(32)
            self.replace(User(name, {**self.users[name].told(), "tokens": [digest(token)]}))
            return token

    def revoke(self, name: str) -> None:
        """Takes a user away, with tokens and rights. Raises KeyError if there is no such user."""
        with self.alone():
            self.take({other: user for other, user in self.users.items() if user is not self.users[name]})
            self.save()

    def replace(self, user: User) -> None:
        self.take({**self.users, user.name: user})
        self.save()


def with_words(user: User, words: List[str]) -> User:
    """A user with the rights that words give beside his own. Raises ValueError for a word that gives none."""
    told = user.told()
    for word in words:
        name, gives, listed = word.partition("=")
        given = [it for it in listed.split(",") if it]
        if not gives:
            told["may"].append(name)
        elif name.endswith(":through"):
            view = name[: -len(":through")]
            told["through"].pop(view, None)
            if given != [ALL]:
                told["through"][view] = given
        else:
            told["rights"][name] = given
    return User(user.name, told)
