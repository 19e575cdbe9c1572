"""CHECKs as predicates of the language: comparisons of a column with a constant or a column, IN, IS NULL, BETWEEN, AND, OR, NOT.

A CHECK lets null pass, and a comparison of the language does not, so a column that may be null gets `or it is null`.
"""
import re

TOKEN = re.compile(r"""\s*('(?:[^']|'')*'|"(?:[^"]|"")*"|<=|>=|<>|!=|::|[()\[\],=<>]|-?[0-9]+(?![0-9.])|[A-Za-z_][A-Za-z0-9_]*)""")
SIGNS = ("=", "<>", "!=", "<", "<=", ">", ">=")
CASTS = ("text", "integer", "bigint", "character", "smallint", "bpchar", "varchar", "numeric")


class Unknown(Exception):
    """A CHECK that the language does not have."""


class Check:
    """The text of a CHECK. `names` has the name in the definition of each column, `rules` its rule, `nullable` those that may be null."""

    def __init__(self, text, names, rules, nullable):
        self.tokens, self.names, self.rules, self.nullable, place = [], names, rules, nullable, 0
        while place < len(text.rstrip()):
            found = TOKEN.match(text, place)
            if not found:
                raise Unknown
            self.tokens.append(found[1])
            place = found.end()

    def condition(self):
        """The predicate. Raises Unknown."""
        found = self.any()
        if self.tokens:
            raise Unknown
        return found

    def next(self):
        return self.tokens[0].upper() if self.tokens else None

    def take(self, *wanted):
        if not self.tokens or (wanted and self.next() not in wanted):
            raise Unknown
        return self.tokens.pop(0)

    def any(self):
        parts = [self.all()]
        while self.next() == "OR":
            self.take()
            parts.append(self.all())
        return f"({' or '.join(parts)})" if len(parts) > 1 else parts[0]

    def all(self):
        parts = [self.part()]
        while self.next() == "AND":
            self.take()
            parts.append(self.part())
        return f"({' and '.join(parts)})" if len(parts) > 1 else parts[0]

    def part(self):
        if self.next() == "(":
            # A condition, or an operand with a cast in parentheses.
            before = list(self.tokens)
            self.take()
            try:
                inside = self.any()
                self.take(")")
                if self.next() in (None, ")", "AND", "OR"):
                    return inside
            except Unknown:
                pass
            self.tokens = before
        column = self.column(self.operand())
        self.could_be_null = [column] if column in self.nullable else []
        if self.next() == "IS":
            self.take()
            is_not = self.next() == "NOT" and self.take()
            self.take("NULL")
            return f"not {self.names[column]} is null" if is_not else f"{self.names[column]} is null"
        if self.next() == "IN":
            self.take()
            text = self.among(column, "(", ")")
        elif self.next() == "BETWEEN":
            self.take()
            low = self.compared(column, ">=", self.operand())
            self.take("AND")
            text = f"({low} and {self.compared(column, '<=', self.operand())})"
        else:
            sign = self.take(*SIGNS)
            if self.next() == "ANY" and sign == "=":
                text = self.any_of(column)
            else:
                text = self.compared(column, "!=" if sign == "<>" else sign, self.operand())
        return f"({text} or {' or '.join(f'{self.names[name]} is null' for name in self.could_be_null)})" if self.could_be_null else text

    def column(self, token):
        name = token[1:-1].replace('""', '"') if token.startswith('"') else token
        if name not in self.names:
            raise Unknown
        return name

    def compared(self, column, sign, right):
        rule = self.rules[column]
        if sign not in ("=", "!=") and not rule.ordered:
            raise Unknown
        if right.lower() in ("true", "false") and rule.kind == "bool":
            return f"{self.names[column]} {sign} {right.lower()}"
        if right.startswith("'") or re.fullmatch("-?[0-9]+", right):
            return f"{self.names[column]} {sign} {self.constant(rule, right)}"
        other = self.column(right)
        if self.rules[other] != rule:
            raise Unknown
        self.could_be_null += [other] if other in self.nullable else []
        return f"{self.names[column]} {sign} {self.names[other]}"

    def constant(self, rule, text):
        if rule.name in ("int", "scaled") and re.fullmatch("'?-?[0-9]+'?", text):
            return str(int(text.strip("'")) * 10 ** (rule.scale or 0))
        if rule.name == "text" or (rule.name == "plain" and rule.native == "enum"):
            if text.startswith("'"):
                return text
        raise Unknown

    def among(self, column, opens, closes):
        self.take(opens)
        values = [self.operand()]
        while self.take(",", closes) == ",":
            values.append(self.operand())
        return f"{self.names[column]} in ({', '.join(self.constant(self.rules[column], value) for value in values)})"

    def any_of(self, column):
        self.take()
        opened = 0
        while self.next() == "(":
            opened += self.take() == "("
        self.take("ARRAY")
        text = self.among(column, "[", "]")
        for _ in range(opened):
            self.take(")")
            self.cast()
        return text

    def cast(self):
        while self.next() == "::":
            self.take()
            if self.take().lower() not in CASTS:
                raise Unknown
            if self.next() == "VARYING":
                self.take()
            if self.next() == "[":
                self.take()
                self.take("]")

    def operand(self):
        if self.next() == "(":
            self.take()
            found = self.operand()
            self.take(")")
        else:
            found = self.take()
        self.cast()
        return found
