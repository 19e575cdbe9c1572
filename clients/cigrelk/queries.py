"""Views as queries of SQL."""
import itertools

from .language import Drop, Join, Named, Rename, Select
from .postgres import names_of, quoted
from .sql.words import holds, same


class Query:
    """The expression of a view as a query, `text`. `kinds` has the columns of each name with their kinds, and `named` writes a
    name."""

    def __init__(self, expression, kinds, named):
        self.kinds, self.named, self.aliases = kinds, named, 0
        self.text, _ = self.query(expression)

    def query(self, node):
        """A query, and the kinds of its columns."""
        if isinstance(node, Join):
            return self.joined(self.operand(node.left), self.operand(node.right))
        source, alias, kinds = self.operand(node if isinstance(node, Named) else node.operand)
        if isinstance(node, Select):
            source += " WHERE " + holds(node.predicate, kinds, alias, collation="")
        if isinstance(node, Drop):
            kinds = {name: kind for name, kind in kinds.items() if name != node.column}
        if isinstance(node, Rename):
            columns = ", ".join(f"{quoted(name)} AS {quoted(node.to)}" if name == node.column else quoted(name) for name in kinds)
            return f"SELECT {columns} FROM {source}", {node.to if name == node.column else name: kind for name, kind in kinds.items()}
        return f"SELECT {'DISTINCT ' if isinstance(node, Drop) else ''}{names_of(kinds)} FROM {source}", kinds

    def operand(self, node):
        """What stands behind FROM for an operand, the name that it has there, and the kinds of its columns."""
        if isinstance(node, Named):
            text, kinds = self.named(node.name), self.kinds[node.name]
        else:
            text, kinds = self.query(node)
            text = f"({text})"
        self.aliases += 1
        # Names of tables and views have no capitals.
        alias = f'"IT{self.aliases}"'
        return f"{text} AS {alias}", alias, kinds

    def joined(self, left, right):
        """A natural join in which NULL equals NULL."""
        (source, one, kinds), (others_source, other, others) = left, right
        pairs = [(kinds[name], f"{one}.{quoted(name)}", f"{other}.{quoted(name)}") for name in kinds if name in others]
        columns = [f"{one}.{quoted(name)}" for name in kinds] + [f"{other}.{quoted(name)}" for name in others if name not in kinds]
        on = " AND ".join(itertools.starmap(same, pairs)) or "true"
        return f"SELECT {', '.join(columns)} FROM {source} JOIN {others_source} ON {on}", {**kinds, **others}
