"""Conditions that a person types: comparisons as COLUMN=VALUE, or a predicate as in a view."""
import re
import shlex
from typing import List, NamedTuple, Optional

from .errors import CommandError
from .kinds import base, fits, value_of, wants
from .language import COMPARISONS, All, Among, Any, Column, Compare, IsNull, Not, Reader, UnknownForm, columns_compared

COMPARISON = re.compile("([a-z_][a-z0-9_]*)(!=|<=|>=|=|<|>)(.*)", re.S)
# A word of a line, with its quotes.
WORD = re.compile(r"""(?:[^\s"']|"(?:\\.|[^"\\])*"|'[^']*')+""")


class Words(NamedTuple):
    """The words of a line without their quotes, and the same with them."""

    plain: List[str]
    quoted: List[str]

    def split(self, word: str) -> "tuple":
        """The words before a word and those behind it, or None if it is not there."""
        if word not in self.plain:
            return None
        at = self.plain.index(word)
        return Words(self.plain[:at], self.quoted[:at]), Words(self.plain[at + 1 :], self.quoted[at + 1 :])

    def behind(self, count: int) -> "Words":
        """The words without the first few."""
        return Words(self.plain[count:], self.quoted[count:])


def words_of_line(line: str) -> Words:
    """Raises ValueError for a quote that is not closed."""
    return Words(shlex.split(line), WORD.findall(line))


def condition_of_words(words: Words, view) -> Optional[tuple]:
    """The condition that words say for rows of a view, as a predicate, or None if there are none. Raises CommandError."""
    if not words.plain:
        return None
    kinds, found = view.columns(), [COMPARISON.fullmatch(word) for word in words.plain]
    if all(found):
        return All([comparison(view, kinds, *one.groups()) for one in found])
    return whole_predicate(" ".join(words.quoted), view, kinds)


def comparison(view, kinds, name, sign, text):
    if name not in kinds:
        raise CommandError(f"there is no column {name} in {view.name}, which has {', '.join(kinds)}")
    value = value_of(text, name, kinds[name])
    if value is not None:
        return Compare(name, sign, value)
    if sign not in ("=", "!="):
        raise CommandError(f"{name}{sign}null holds for no row: = and != compare with null")
    return IsNull(name) if sign == "=" else Not(IsNull(name))


def whole_predicate(text, view, kinds):
    """A predicate of the language. Raises CommandError if it is none, or none of this view."""
    try:
        reader = Reader(text)
        found = reader.whole(reader.predicate)
    except UnknownForm:
        signs = " ".join(COMPARISONS)
        raise CommandError(f"this is no condition: {text}; write COLUMN=VALUE .. with {signs}, or one as in a view: price > 100 and city = 'Berlin'") from None
    for name in sorted(columns_compared(found)):
        if name not in kinds:
            raise CommandError(f"there is no column {name} in {view.name}, which has {', '.join(kinds)}")
    check_kinds(found, kinds)
    return found


def check_kinds(part, kinds):
    """Raises CommandError if a column is compared with something of another kind."""
    if isinstance(part, (All, Any)):
        for one in part.parts:
            check_kinds(one, kinds)
    elif isinstance(part, Not):
        check_kinds(part.part, kinds)
    elif isinstance(part, Compare) and isinstance(part.right, Column):
        if base(kinds[part.column]) != base(kinds[part.right.name]):
            raise CommandError(f"{part.column} and {part.right.name} are of two kinds, {kinds[part.column]} and {kinds[part.right.name]}")
    elif isinstance(part, (Compare, Among)):
        for value in part.literals if isinstance(part, Among) else [part.right]:
            if not fits(value, kinds[part.column]):
                raise CommandError(f"{wants(part.column, kinds[part.column])}, and not {value!r}")


def equations(part) -> dict:
    """The values that some columns have in each row for which a condition holds."""
    if isinstance(part, All):
        return {name: value for one in part.parts for name, value in equations(one).items()}
    if isinstance(part, IsNull):
        return {part.column: None}
    return {part.column: part.right} if isinstance(part, Compare) and part.sign == "=" and not isinstance(part.right, Column) else {}
