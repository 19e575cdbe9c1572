#!/usr/bin/env python3
"""Sends the same random definitions to two versions of the program, and compares their replies byte for byte.

Half of the texts are broken at random: a token is left out, doubled, moved or replaced, a byte is changed, or the text is cut.
Some nest about as deep as may be. A `type` line follows each definition that was taken. At the first difference the script prints
the lines of its stream up to there, and ends with status 1. A stream depends on the seed and its number alone.
"""
import os
import re

from program import arguments, options
from versions import Pair, Stream

TOKEN = re.compile(r"'(?:[^']|'')*'|[a-z_0-9]+|-?[0-9]+|->|!=|<=|>=|\S")
OTHERS = (
    *"( ) , = < > <= >= != -> - ! ' table view select from where drop determined by with int text bool and or not in true false".split(),
    *"rename to null is join_dl join_dr join_both as a b zz t0 v0 0 -1 9223372036854775807 9223372036854775808 'x' 'it''s' A ; é".split(),
)
BLANKS = (" ", " ", " ", "", "  ", "\t", "\n", "\r\n")


class Texts(Stream):
    """The random texts of one run."""

    def text(self):
        """A definition, its name, and the shape that it has if it is taken."""
        request, name, shape = self.definition()
        text = request["text"]
        if self.random.random() < 0.1:
            text = self.nested(text)
        return text, name, shape

    def nested(self, text):
        """The text with a deep predicate at its end."""
        depth = self.random.randint(28, 36)
        openings = [self.random.choice(("(", "not ", "not (")) for _ in range(depth)]
        closings = ")" * sum(opening.count("(") for opening in openings)
        word = self.random.choice((" where ", " and ", " or "))
        return f"{text}{word}{''.join(openings)}{self.random.choice(('a = 1', 'true', 'b is null'))}{closings}"

    def broken(self, text):
        """The text with one to three faults."""
        for _ in range(self.random.choice((1, 1, 1, 2, 3))):
            text = self.with_fault(text)
        return text

    def with_fault(self, text):
        tokens = TOKEN.findall(text) or [""]
        place = self.random.randrange(len(tokens))
        fault = self.random.randrange(7)
        if fault == 0:
            del tokens[place]
        elif fault == 1:
            tokens.insert(place, tokens[place])
        elif fault == 2:
            tokens.insert(self.random.randrange(len(tokens)), tokens.pop(place))
        elif fault == 3:
            tokens[place] = self.random.choice(OTHERS)
        elif fault == 4:
            tokens.insert(place, self.random.choice(OTHERS))
        else:
            at = self.random.randint(0, len(text))
            return text[:at] + (text[at + 1:] if fault == 5 and self.random.random() < 0.5 else self.random.choice(OTHERS) + text[at + 1:] if fault == 5 else "")
        return "".join(token + self.random.choice(BLANKS) for token in tokens)


def played(texts, pair, lines):
    """Sends so many texts, and gives how many were taken."""
    taken = 0
    pair.start()
    for _ in range(lines):
        text, name, shape = texts.text()
        is_broken = texts.random.random() < 0.5
        reply = pair.ask({"do": "define", "text": texts.broken(text) if is_broken else text})
        if reply["ok"]:
            taken += 1
            pair.ask({"do": "list"} if is_broken else {"do": "type", "view": name})
            if not is_broken:
                texts.shapes[name] = shape
    pair.end()
    return taken


def main():
    parser = arguments(__doc__)
    parser.add_argument("--other", required=True, help="the path of the other version of the program")
    parser.add_argument("--streams", type=int, default=500, help="how many streams are played (500)")
    parser.add_argument("--first", type=int, default=0, help="the number of the first stream (0)")
    parser.add_argument("--lines", type=int, default=200, help="how many texts a stream has (200)")
    parser.add_argument("--seed", default="1", help="what the random texts depend on (1)")
    given = options(parser)
    taken = 0
    for number in range(given.first, given.first + given.streams):
        pair = Pair([given.program, os.path.abspath(given.other)], [None, None])
        taken += played(Texts(given.seed, number), pair, given.lines)
    print(f"{given.streams} streams, {given.streams * given.lines:,} texts, {taken:,} of them taken: no difference")


if __name__ == "__main__":
    main()
