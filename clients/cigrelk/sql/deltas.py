"""What an edit of a view changes in its tables, as statements of PL/pgSQL.

Each node has two variables, arrays of its rows: "Remove.." has what goes and "Add.." what comes. They are exact: what goes is there,
what comes is not. The statements of a node make the two of each node below out of its own, as the lens of the node does. An array of
no rows may be null too, since to give a variable a first value costs as much as any expression.

Rows are found by key alone. A look into a table stands in a LATERAL of its own behind OFFSET or LIMIT, so that the planner has no
choice but to go from row to row by an index. Arrays are joined with arrays by hashes. So the functions take nested loops and scans
from the planner (edits.LOOKING), whatever it knows of the sizes.

Most edits are of one row. For an array of one row each statement has a second form, which is an expression without a query where it
can be, and else a query without the array: to start a query costs more than what most of them find.
"""
from typing import NamedTuple

from ..kinds import is_nullable
from ..language import Drop, Join, Rename, Select
from ..postgres import quoted
from .nodes import Edge, Leaf
from .words import agree, columns_at, differ, fails, row_order, same, text_literal, value_literal

N, A, K, O, S, M, P, L, R = (f'"{letter}"' for letter in "NAKOSMPLR")
CHANGED_SINCE = "RAISE EXCEPTION USING ERRCODE = '40001', MESSAGE = 'a row was changed by another transaction since it was read', HINT = 'try the transaction again';"


class Each(str):
    """What stands for a row, or for one row after another, as an alias does. `rows` stands behind FROM for all of them."""

    def __new__(cls, alias, rows):
        made = super().__new__(cls, alias)
        made.rows = rows
        return made


def each(alias, variable):
    """An alias for the rows of an array."""
    return Each(alias, f"unnest({variable}) {alias}")


def array(query):
    return f"ARRAY({query})"


def unnested(variable, alias=A):
    return f"unnest({variable}) {alias}"


def some(*variables):
    """Whether one of the arrays has a row."""
    return " OR ".join(f"cardinality({variable}) > 0" for variable in variables)


def is_one(*variables):
    """Whether each of the arrays has one row."""
    return " AND ".join(f"cardinality({variable}) = 1" for variable in variables)


class One(NamedTuple):
    """The row of an array that has one. `alias` stands where an alias stands."""

    variable: str

    @property
    def row(self):
        return f"{self.variable}[1]"

    @property
    def alias(self):
        return Each(f"({self.variable}[1])", '(SELECT) "One"')

    def beside(self, shown, lateral, alias, where=None):
        """What is shown of the row beside each row of a LATERAL."""
        return f"SELECT {shown} FROM {lateral} {alias}{f' WHERE {where}' if where else ''}"

    def perhaps_beside(self, shown, lateral, alias):
        """The same, once with nulls if the LATERAL has no row."""
        return f'SELECT {shown} FROM (SELECT) "One" LEFT JOIN LATERAL {lateral} {alias} ON true'

    def shown(self, row):
        """An array of an expression over the row."""
        return f"ARRAY[{row}]"


class Many(NamedTuple):
    """The rows of an array."""

    variable: str

    @property
    def row(self):
        return A

    @property
    def alias(self):
        return each(A, self.variable)

    def beside(self, shown, lateral, alias, where=None):
        return f"SELECT {shown} FROM {unnested(self.variable)} CROSS JOIN LATERAL {lateral} {alias}{f' WHERE {where}' if where else ''}"

    def perhaps_beside(self, shown, lateral, alias):
        return f"SELECT {shown} FROM {unnested(self.variable)} LEFT JOIN LATERAL {lateral} {alias} ON true"

    def shown(self, row):
        return array(f"SELECT {row} FROM {unnested(self.variable)}")


class Body:
    """The statements of a function, and the variables that they need."""

    def __init__(self):
        self.lines, self.types, self.depth, self.numbers = [], {}, 1, {}
        # For each edge whether the added rows say anything new along it: an expression, and the nodes of which it tells.
        self.news = {}

    def say(self, line):
        self.lines.append("  " * self.depth + line)

    def note(self, text):
        self.say(f"-- {text}")

    def variable(self, word, node):
        """The variable of a node by its word. The two of a table are results of the function."""
        if isinstance(node, Leaf) and word in ("Remove", "Add"):
            return quoted(f"{node.name}_{word.lower()}")
        number = self.numbers.setdefault(id(node), len(self.numbers))
        name = f'"{word}{number}"'
        self.types[name] = f"{node.row_type}[]"
        return name

    def flag(self, word):
        """A new variable that is true or not."""
        name = f'"{word}{len(self.types)}"'
        self.types[name] = "boolean"
        return name

    def set(self, variable, expression):
        self.say(f"{variable} := {expression};")

    def let(self, variable, query):
        self.set(variable, array(query))

    def when(self, condition):
        self.say(f"IF {condition} THEN")
        self.depth += 1

    def otherwise(self, condition=None):
        self.depth -= 1
        self.say(f"ELSIF {condition} THEN" if condition else "ELSE")
        self.depth += 1

    def end(self):
        self.depth -= 1
        self.say("END IF;")

    def by_number(self, variable, say):
        """Statements for an array of one row, and for one of more: `say` gets One and Many. An empty array gets none."""
        self.when(is_one(variable))
        say(One(variable))
        self.otherwise(f"cardinality({variable}) > 1")
        say(Many(variable))
        self.end()

    def minus(self, variable, other):
        """Takes the rows of one array from another."""
        self.when(is_one(other))
        self.set(variable, f"array_remove({variable}, {other}[1])")
        self.otherwise(f"cardinality({other}) > 1 AND cardinality({variable}) > 0")
        self.let(variable, f"SELECT unnest({variable}) EXCEPT SELECT unnest({other})")
        self.end()

    def plus(self, variable, other):
        """Adds the rows of one array to another that it has not."""
        self.when(f"cardinality({variable}) > 0 IS NOT TRUE")
        self.set(variable, other)
        self.otherwise(f"cardinality({other}) > 0 AND {variable} <> {other}")
        self.let(variable, f"SELECT unnest({variable}) UNION SELECT unnest({other})")
        self.end()

    def distinct(self, variable):
        self.when(f"cardinality({variable}) > 1")
        self.let(variable, f"SELECT DISTINCT {A} FROM {unnested(variable)}")
        self.end()

    def news_of(self, edge, node):
        """Whether the added rows say anything new along an edge of a node, as far as it is known: an expression or None."""
        known, nodes = self.news.get(edge, (None, ()))
        return known if any(node is other for other in nodes) else None


class Looks:
    """Queries that find rows of nodes by key. `wanted` gets the columns by which tables are asked. If tables are on other servers, each
    trip costs more than what it finds: `fetches` says that what is found for all rows of an array is fetched from each table at once."""

    def __init__(self, fetches=False):
        self.wanted, self.aliases, self.fetches, self.fetched = set(), 0, fetches, []

    def alias(self):
        self.aliases += 1
        return f'"N{self.aliases}"'

    def rows(self, node, columns, values, source=None):
        """The rows of a node with these values, expressions by the names of columns. A join asks one side by its part of the columns,
        and then the other side by the shared columns, row by row. `source` is what stands behind FROM for all rows that the values
        are of, if they are to be fetched at once."""
        alias = self.alias()
        if isinstance(node, Leaf):
            self.wanted.add((node.place, frozenset(columns)))
            place = self.fetch(node, columns, values, source) if source else node.place
            return f"SELECT {node.columns_as_named(alias)} FROM {place} {alias} WHERE {node.agrees(columns, alias, values)}"
        if isinstance(node.what, Join):
            return self.joined_rows(node, columns, values, source)
        (child,) = node.below
        back = {node.renamed(name): name for name in child.kinds}
        below = self.rows(child, [back[name] for name in columns], {back[name]: values[name] for name in columns}, source)
        shown = ", ".join(f"{alias}.{quoted(back[name])}{'' if back[name] == name else f' AS {quoted(name)}'}" for name in node.kinds)
        where = f" WHERE {node.selects(alias)}" if isinstance(node.what, Select) else ""
        return f"SELECT {shown} FROM ({below}) {alias}{where}"

    def joined_rows(self, node, columns, values, source):
        left, right = node.below
        first, second = (left, right) if set(columns) & set(left.kinds) else (right, left)
        one, two = self.alias(), self.alias()
        begin = self.rows(first, [name for name in columns if name in first.kinds], values, source)
        then = self.rows(second, node.shared, {name: f"{one}.{quoted(name)}" for name in node.shared}, source and f"{first.source()} {one}")
        rest = [name for name in columns if name not in first.kinds]
        where = " AND ".join(same(second.kinds[name], f"{two}.{quoted(name)}", values[name]) for name in rest)
        shown = ", ".join(f"{one if name in first.kinds else two}.{quoted(name)}" for name in node.kinds)
        return f"SELECT {shown} FROM ({begin} OFFSET 0) {one} CROSS JOIN LATERAL ({then} OFFSET 0) {two}{f' WHERE {where}' if where else ''}"

    def fetch(self, leaf, columns, values, source):
        """The name under which a WITH has the rows of a table that may be asked for: one query of the table finds them. They may be more
        than those wanted, since each column is asked by itself."""
        name, parts = f'"T{len(self.fetched)}"', []
        for column in columns:
            place = f"{N}.{leaf.column(column)}"
            among = f"{place} = ANY (ARRAY(SELECT {values[column]} FROM {source}))"
            parts.append(f"({among} OR {place} IS NULL)" if is_nullable(leaf.kinds[column]) else among)
        self.fetched.append(f"{name} AS MATERIALIZED (SELECT {N}.* FROM {leaf.place} {N} WHERE {' AND '.join(parts)})")
        leaf.fetched = f"(SELECT {leaf.columns_as_named(N)} FROM {name} {N})"
        return name

    def asked(self, node, values, alias):
        """The rows of a node with these values, which are of an alias, and the WITH that they need before them."""
        source = getattr(alias, "rows", None) if self.fetches else None
        rows = self.rows(node, list(values), values, source)
        for leaf in node.leaves():
            leaf.fetched = None
        begin, self.fetched = f"WITH {', '.join(self.fetched)} " if self.fetched else "", []
        return begin, rows

    def found(self, node, columns, alias, shown, also=None, end="OFFSET 0"):
        """What rows of a node show that agree with an alias on columns. A whole row is {N}.{N}."""
        begin, rows = self.asked(node, {name: f"{alias}.{quoted(name)}" for name in columns}, alias)
        whole = f"SELECT {N}.*, {node.row(N)} AS {N} FROM ({rows}) {N}"
        source = whole if f"{N}.{N}" in f"{shown} {also}" else rows
        return f"({begin}SELECT {shown} FROM ({source}) {N}{f' WHERE {also}' if also else ''} {end})"

    def there(self, node, alias):
        """A row of one column if a node has the row of an alias."""
        return self.found(node, node.key, alias, 'true AS "There"', agree(node.kinds, node.rest, N, alias), "LIMIT 1")

    def is_there(self, node, alias):
        return f"EXISTS {self.there(node, alias)}"

    def those_there(self, node, rows):
        return Many(rows).beside(A, self.there(node, each(A, rows)), O)

    def those_new(self, node, rows):
        return f'{Many(rows).perhaps_beside(A, self.there(node, each(A, rows)), O)} WHERE {O}."There" IS NULL'

    def one(self, node, columns, alias, shown):
        """What one row of a node shows that agrees with an alias on columns, if there is one."""
        return self.found(node, columns, alias, shown, end="LIMIT 1")

    def all(self, node, columns, alias, also=None):
        """All rows of a node that agree with an alias on columns, as {N}."""
        return self.found(node, columns, alias, f"{N}.{N}", also)

    def any(self, node, columns, alias, also, shown="true"):
        """A row if one agrees with an alias on columns, and a condition holds on it."""
        return self.found(node, columns, alias, shown, also, "LIMIT 1")

    def any_news(self, node, edge, given):
        """Whether rows say another right side than the node has. This is asked of the lowest node that has the dependency, with
        all rows that are hidden above it. It has one right side for each key."""
        path, names = lowest(node, edge)
        begin, found = self.asked(path[-1], {names[name]: f"{given.alias}.{quoted(name)}" for name in edge.left}, given.alias)
        shown = ", ".join(f"{N}.{quoted(names[name])} AS {quoted(name)}" for name in edge.right)
        return f"EXISTS ({given.beside('', f'({begin}SELECT {shown} FROM ({found}) {N} LIMIT 1)', O, differ(edge.right, given.alias, O))})"

    def new_keys(self, node, edge, rows):
        """The keys of an edge for which rows say another right side than the node has."""
        sent = f"SELECT DISTINCT {columns_at(A, edge.left + edge.right)} FROM {unnested(rows)}"
        has = self.one(node, edge.left, each(K, rows), columns_at(N, edge.right))
        return f"SELECT {K}.* FROM ({sent}) {K} CROSS JOIN LATERAL {has} {O} WHERE {differ(edge.right, K, O)} OFFSET 0"

    def revised_by(self, node, edge, given, also=None):
        """The rows of a node that rows revise to others along an edge."""
        if isinstance(given, One):
            changes = differ(edge.right, N, given.alias)
            return f"SELECT {S}.{N} FROM {self.all(node, edge.left, given.alias, f'{changes} AND {also}' if also else changes)} {S}"
        return f"SELECT {S}.{N} FROM ({self.new_keys(node, edge, given.variable)}) {K} CROSS JOIN LATERAL {self.all(node, edge.left, each(K, given.variable), also)} {S}"

    def before_revision(self, body, variable, node, rows, also=None):
        """Gives a variable the rows of a node that rows revise to others, edge by edge."""

        def say(given):
            for edge in node.tree:
                known = body.news_of(edge, node)
                if known == "false":
                    continue
                body.when(known or self.any_news(node, edge, given))
                found = self.revised_by(node, edge, given, also)
                body.let(variable, found if edge == node.tree[0] else f"SELECT unnest({variable}) UNION {found}")
                body.end()

        body.by_number(rows, say)


def lowest(node, edge):
    """The way down to the lowest node that has the dependency, perhaps with more columns at its right, and the names that its
    columns have there."""
    names, path = {name: name for name in edge.left + edge.right}, []
    while True:
        path.append(node)
        if isinstance(node, Leaf):
            break
        if isinstance(node.what, Join):
            sides = [side for side in node.below for one in side.tree
                     if set(one.left) == {names[name] for name in edge.left} and {names[name] for name in edge.right} <= set(one.right)]
            if not sides:
                break
            node = sides[0]
            continue
        (child,) = node.below
        back = {node.renamed(name): name for name in child.kinds}
        names, node = {name: back[below] for name, below in names.items()}, child
    return path, names


def revised(node, before, given):
    """The rows that the rows of `before` are revised to, as {N}, edge after edge."""
    query = f"SELECT {M}.* FROM unnest({before}) {M}"
    for edge in node.tree:
        if isinstance(given, One):
            is_sent, source = agree(node.kinds, edge.left, M, given.alias), given.alias
        else:
            is_sent, source = f'{S}."Sent"', S
        columns = ", ".join(f"CASE WHEN {is_sent} THEN {source}.{quoted(name)} ELSE {M}.{quoted(name)} END AS {quoted(name)}" if name in edge.right
                            else f"{M}.{quoted(name)}" for name in node.kinds)
        query = f"SELECT {columns} FROM ({query}) {M}"
        if isinstance(given, Many):
            sent = f'SELECT DISTINCT {columns_at(A, edge.left + edge.right)}, true AS "Sent" FROM {unnested(given.variable)}'
            query += f" LEFT JOIN ({sent}) {S} ON {agree(node.kinds, edge.left, M, S)}"
    return f"SELECT {node.row(M)} AS {N} FROM ({query}) {M}"


# ---- The nodes ----


def cast(body, node, child):
    """A node that shows the rows of the one below, perhaps by other names."""
    for word in ("Remove", "Add"):
        source, target = body.variable(word, node), body.variable(word, child)
        if node.row_type == child.row_type:
            body.set(target, source)
            continue

        def say(given):
            names = {name: f"{given.alias}.{quoted(node.renamed(name))}" for name in child.kinds}
            body.set(target, given.shown(child.row(given.alias, names)))

        body.by_number(source, say)
    if isinstance(node.what, Rename):
        back = lambda side: tuple(sorted(node.what.column if name == node.what.to else name for name in side))
        body.news = {Edge(back(edge.left), back(edge.right)): known for edge, known in body.news.items()}


def select(body, looks, node):
    (child,) = node.below
    cast(body, node, child)
    remove, add, hidden = (body.variable(word, child) for word in ("Remove", "Add", "Before"))
    if not child.tree:
        return
    body.note("hidden rows that the new ones revise; one that would then be selected is deleted, since it was not sent")
    body.when(some(add))
    looks.before_revision(body, hidden, child, add, fails(node.selects(N)))
    body.when(some(hidden))
    after = body.variable("After", child)

    def say(given):
        query = revised(child, hidden, given)
        body.let(after, f"SELECT {O}.{N} FROM ({query}) {O} CROSS JOIN LATERAL (SELECT ({O}.{N}).*) {S} WHERE {fails(node.selects(S))}")

    body.by_number(add, say)
    body.set(add, f"{add} || {after}")
    body.set(remove, f"{remove} || {hidden}")
    body.end()
    body.end()


def drop(body, looks, node):
    (child,) = node.below
    column, by = node.what.column, node.what.by
    remove, add = body.variable("Remove", node), body.variable("Add", node)
    child_remove, child_add = body.variable("Remove", child), body.variable("Add", child)
    dropped = quoted(column)
    known = lambda alias: looks.one(child, by, alias, f'{N}.{dropped}, true AS "Known"')
    body.note("the dropped column of a row is what is known beside its key, and else the default")

    def say_remove(given):
        body.let(child_remove, given.beside(child.row(given.alias, {column: f"{O}.{dropped}"}), known(given.alias), O))

    body.by_number(remove, say_remove)
    # The edge of the dropped column, with what else it determines.
    edge = next(edge for edge in child.tree if column in edge.right)
    shown = Edge(edge.left, tuple(name for name in edge.right if name != column))
    shown_news = body.news_of(shown, node) if shown.right else "false"
    news = body.flag("News")
    body.when(f"{is_one(remove, add)} AND {agree(node.kinds, by, One(remove).alias, One(add).alias)}")
    body.set(child_add, One(add).shown(child.row(One(add).alias, {column: f"{One(child_remove).alias}.{dropped}"})))
    if shown_news:
        body.set(news, shown_news)
    else:
        body.set(news, looks.any_news(child, edge, One(child_add)))
    body.otherwise()

    def say_add(given):
        value = f'CASE WHEN {O}."Known" THEN {O}.{dropped} ELSE {value_literal(node.what.default)} END'
        body.let(child_add, given.perhaps_beside(child.row(given.alias, {column: value}), known(given.alias), O))

    body.by_number(add, say_add)
    body.by_number(child_add, lambda given: body.set(news, looks.any_news(child, edge, given)))
    body.end()
    body.news = {**body.news, edge: (news, lowest(child, edge)[0])}


def merge(body, looks, node, side):
    """Merges a side of a join with its parts of the new rows: "Before" goes, "After" is what it becomes, and "Add" comes."""
    parts, before, after, remove, add = (body.variable(word, side) for word in ("Part", "Before", "After", "Remove", "Add"))
    gone, come = body.variable("Remove", node), body.variable("Add", node)
    one_gone, one_come = One(gone).alias, One(come).alias
    body.note(f"merge the {'left' if side is node.below[0] else 'right'} side with its parts of the new rows")
    # The part of a removed row is there. Another part with its key is not.
    body.when(f"{is_one(gone, come)} AND {agree(node.kinds, side.key, one_gone, one_come)}")
    if side.rest:
        body.when(differ(side.rest, one_gone, one_come))
        body.set(add, parts)
        body.end()
    else:
        body.say("NULL;")
    body.otherwise(is_one(parts))
    body.when(f"NOT {looks.is_there(side, One(parts).alias)}")
    body.set(add, parts)
    body.end()
    body.otherwise()
    body.let(add, looks.those_new(side, parts))
    body.end()
    if not side.tree:
        return
    body.when(some(add))
    looks.before_revision(body, before, side, parts)
    body.when(some(before))
    body.by_number(parts, lambda given: body.let(after, revised(side, before, given)))
    body.plus(add, after)
    body.set(remove, before)
    body.end()
    body.end()


def over(body, looks, node):
    """The rows that the merged sides join and that the edited view lacks, into "Over". Only left rows that stand in "Old" as they
    were, or in "New" as they became, can be parts of such rows."""
    left, right = node.below
    found, gone, come = (body.variable(word, node) for word in ("Over", "Remove", "Add"))
    was, become, parts, come_right = body.variable("Before", left), body.variable("After", left), body.variable("Part", left), body.variable("Add", right)
    old, new, near = body.variable("Old", left), body.variable("New", left), body.variable("Near", left)
    body.by_number(gone, lambda given: body.set(old, given.shown(left.row(given.alias))))
    body.minus(old, was)
    body.set(new, become)
    body.minus(new, parts)

    def say_near(given):
        if isinstance(given, One):
            body.let(near, f"SELECT {S}.{N} FROM {looks.all(left, node.shared, given.alias)} {S}")
        else:
            keys = f"SELECT DISTINCT {columns_at(A, node.shared)} FROM {unnested(come_right)}"
            body.let(near, f"SELECT {S}.{N} FROM ({keys}) {K} CROSS JOIN LATERAL {looks.all(left, node.shared, each(K, come_right))} {S}")

    body.by_number(come_right, say_near)
    body.minus(near, was)
    body.plus(old, near)
    body.when(some(old, new))
    lefts = f'SELECT {L}.*, true AS "Old" FROM unnest({old}) {L} UNION ALL SELECT {L}.*, false FROM unnest({new}) {L}'
    either = Each(L, f"(SELECT {L}.* FROM unnest({old}) {L} UNION ALL SELECT {L}.* FROM unnest({new}) {L}) {L}")
    beside = looks.found(right, node.shared, either, f"{N}.{N}, {columns_at(N, right.kinds)}")
    row = node.row(L, {name: f"{R}.{quoted(name)}" for name in right.kinds if name not in left.kinds})
    joined = (f'SELECT {row} AS {O}, {L}."Old" FROM ({lefts}) {L} CROSS JOIN LATERAL {beside} {R} '
              f"WHERE {R}.{N} NOT IN (SELECT unnest({body.variable('Before', right)}))")
    body.let(found, f'SELECT {O}.{O} FROM ({joined}) {O} WHERE (NOT {O}."Old" OR {O}.{O} IN (SELECT unnest({gone}))) AND {O}.{O} NOT IN (SELECT unnest({come}))')
    joined = f"SELECT {row} AS {O} FROM ({lefts}) {L} JOIN unnest({come_right}) {R} ON {agree(left.kinds, node.shared, L, R)}"
    body.when(some(come_right))
    body.set(found, f"{found} || {array(f'SELECT {O}.{O} FROM ({joined}) {O} WHERE {O}.{O} NOT IN (SELECT unnest({come}))')}")
    body.end()
    body.end()


def delete_over(body, looks, node):
    """Takes a side of each row of "Over" away, by the kind of the join."""
    left, right = node.below
    found, gone, doomed = body.variable("Over", node), body.variable("Remove", node), body.variable("Doomed", left)
    if node.what.kind == "join_dl":
        body.by_number(found, lambda given: body.set(doomed, given.shown(left.row(given.alias))))
        delete(body, left)
        return
    shown, parts, doomed_right = body.variable("Shown", right), body.variable("Part", right), body.variable("Doomed", right)
    names = {name: f"{P}.{quoted(name)}" for name in right.kinds if name not in left.kinds}
    body.note("right parts that the edited view still shows")
    joined = looks.found(left, node.shared, each(P, found), f"{node.row(N, names)} AS {O}")
    beside = f'(SELECT true AS "Shown" FROM {joined} {O} WHERE {O}.{O} NOT IN (SELECT unnest({gone})) LIMIT 1)'
    rights = f"SELECT DISTINCT {right.row(O)} AS {S} FROM unnest({found}) {O}"
    body.let(shown, f'SELECT {P}.{S} FROM ({rights}) {R} CROSS JOIN LATERAL (SELECT {R}.{S}, ({R}.{S}).*) {P} LEFT JOIN LATERAL {beside} {K} ON true '
                    f'WHERE {P}.{S} IN (SELECT unnest({parts})) OR ({K}."Shown" AND {P}.{S} NOT IN (SELECT unnest({body.variable("Add", right)})))')
    body.let(doomed_right, f"SELECT {right.row(O)} FROM unnest({found}) {O} EXCEPT SELECT unnest({shown})")
    delete(body, right)
    kept = "" if node.what.kind == "join_both" else f" WHERE {O}.{S} IN (SELECT unnest({shown}))"
    body.let(doomed, f"SELECT {left.row(O)} FROM (SELECT {O}.*, {right.row(O)} AS {S} FROM unnest({found}) {O}) {O}{kept}")
    delete(body, left)


def delete(body, side):
    """Takes the rows of "Doomed" from a merged side of a join."""
    doomed, there, remove, add = (body.variable(word, side) for word in ("Doomed", "There", "Remove", "Add"))
    body.when(some(doomed))
    body.set(there, doomed)
    body.minus(there, add)
    body.set(remove, f"{remove} || {there}")
    body.minus(add, doomed)
    body.end()


def join(body, looks, node):
    left, right = node.below
    gone, come, found = (body.variable(word, node) for word in ("Remove", "Add", "Over"))
    body.when(some(come))
    for side in (left, right):
        parts = body.variable("Part", side)
        body.by_number(come, lambda given: body.set(parts, given.shown(side.row(given.alias))))
        if side is right:
            body.distinct(parts)
        merge(body, looks, node, side)
    body.end()
    body.note("rows that would be joined too much: what was removed, and what the merges brought together")
    body.when(some(body.variable("Before", left), body.variable("Add", right)))
    over(body, looks, node)
    body.otherwise()
    body.set(found, gone)
    body.end()
    body.when(some(found))
    delete_over(body, looks, node)
    body.end()


def down(body, looks, node):
    """The statements that bring the change of a node to its tables, each in its variables "Remove" and "Add"."""
    if isinstance(node, Leaf):
        return
    body.note(described(node))
    if isinstance(node.what, Join):
        join(body, looks, node)
    elif isinstance(node.what, Drop):
        drop(body, looks, node)
    elif isinstance(node.what, Select):
        select(body, looks, node)
    else:
        cast(body, node, node.below[0])
    news = body.news
    for child in node.below:
        if isinstance(child, Leaf):
            continue
        body.when(some(body.variable("Remove", child), body.variable("Add", child)))
        down(body, looks, child)
        body.end()
        # What is below one side gave the edges names or news of its own.
        body.news = news


def described(node):
    columns = " ".join(node.kinds)
    return f"{node.what.kind if isinstance(node.what, Join) else type(node.what).__name__.lower()} ({columns})"


# ---- What is asked of the new view ----


def exact(body, looks, node):
    """What the edit of $1 and $2 removes and adds."""
    remove, add = body.variable("Remove", node), body.variable("Add", node)
    body.when(is_one("$1"))
    body.when(looks.is_there(node, One("$1").alias))
    body.set(remove, "$1")
    body.end()
    body.otherwise("cardinality($1) > 1")
    body.let(remove, looks.those_there(node, "$1"))
    body.end()
    body.when(f"$3 AND coalesce(cardinality({remove}), 0) < cardinality($1)")
    body.say(CHANGED_SINCE)
    body.end()
    body.when(is_one(remove, "$2"))
    body.when(f"{remove}[1] = $2[1]")
    body.set(remove, "NULL")
    body.end()
    body.otherwise(f"cardinality({remove}) > 1 OR (cardinality({remove}) = 1 AND cardinality($2) > 1)")
    body.let(remove, f"SELECT unnest({remove}) EXCEPT SELECT unnest($2)")
    body.end()
    body.when(is_one("$2"))
    there = f"NOT {looks.is_there(node, One('$2').alias)}"
    if node.rest:
        # The removed row is there, so another one with its key is not.
        body.when(f"cardinality({remove}) = 1 AND {agree(node.kinds, node.key, One(remove).alias, One('$2').alias)}")
        body.set(add, "$2")
        body.otherwise(there)
    else:
        body.when(there)
    body.set(add, "$2")
    body.end()
    body.otherwise("cardinality($2) > 1")
    body.let(add, looks.those_new(node, "$2"))
    body.distinct(add)
    body.end()


def check(body, looks, node, shown):
    """Rejects the new view as 42 or 43."""
    add, remove = body.variable("Add", node), body.variable("Remove", node)
    if not node.conditions and not node.tree:
        return
    broken = body.flag("Broken")
    body.when(some(add))
    if node.conditions:
        body.by_number(add, lambda given: body.set(broken, off_predicate(node, given)))
        body.when(broken)
        row = f"SELECT to_jsonb({A}) FROM {unnested(add)} WHERE {fails(node.condition(A))} ORDER BY {row_order(node.kinds, A)} LIMIT 1"
        body.say(f"""RAISE EXCEPTION USING ERRCODE = '44000', MESSAGE = {text_literal(f'{shown} does not show such a row')}, """
                 f"""DETAIL = jsonb_build_object('ok', false, 'error', 42, 'row', ({row}));""")
        body.end()
    for edge in node.tree:
        clash(body, looks, node, edge, shown, add, remove, broken)
    body.end()


def off_predicate(node, given):
    if isinstance(given, One):
        return fails(node.condition(given.alias))
    return f"EXISTS (SELECT FROM {unnested(given.variable)} WHERE {fails(node.condition(A))})"


def clash(body, looks, node, edge, shown, add, remove, broken):
    """Rejects rows that break a dependency, among themselves or with rows that stay."""
    # If nothing is new at the bottom, nothing is new on the way down to it, and so it is told of all these nodes.
    news = body.flag("News")
    one_gone, one_come = One(remove).alias, One(add).alias
    body.when(f"{is_one(remove, add)} AND {agree(node.kinds, edge.left, one_gone, one_come)}")
    # The removed row has the right side that all rows of its left side have.
    body.set(news, differ(edge.right, one_gone, one_come))
    body.otherwise()
    body.by_number(add, lambda given: body.set(news, looks.any_news(node, edge, given)))
    body.end()
    body.news[edge] = news, lowest(node, edge)[0]
    stays = f"{N}.{N} NOT IN (SELECT unnest({remove}))"
    both = edge.left + edge.right
    body.when(news)

    def say(given):
        if isinstance(given, One):
            others = f"EXISTS {looks.any(node, edge.left, given.alias, f'{differ(edge.right, N, given.alias)} AND {stays}')}"
        else:
            others = f"EXISTS (SELECT FROM ({looks.new_keys(node, edge, add)}) {K} CROSS JOIN LATERAL {looks.any(node, edge.left, each(K, add), stays)} {S})"
        body.set(broken, others)

    body.by_number(add, say)
    body.end()
    body.when(f"{broken} IS NOT TRUE AND cardinality({add}) > 1")
    body.set(broken, f"EXISTS (SELECT FROM (SELECT DISTINCT {columns_at(A, both)} FROM {unnested(add)}) {A} GROUP BY {columns_at(A, edge.left)} HAVING count(*) > 1)")
    body.end()
    body.when(broken)
    rows = body.variable("Clash", node)
    keys = f"SELECT DISTINCT {columns_at(A, edge.left)} FROM {unnested(add)}"
    body.let(rows, f"SELECT DISTINCT {A}.{N} FROM (SELECT unnest({add}) UNION ALL SELECT {S}.{N} FROM ({keys}) {K} CROSS JOIN LATERAL {looks.all(node, edge.left, each(K, add), stays)} {S}) {A}({N})")
    # The first row of the groups that are broken has a partner, and comes before it.
    keys = f"SELECT {columns_at(A, edge.left)} FROM (SELECT DISTINCT {columns_at(A, both)} FROM {unnested(rows)}) {A} GROUP BY {columns_at(A, edge.left)} HAVING count(*) > 1"
    first = f"SELECT {A}.* FROM {unnested(rows)} JOIN ({keys}) {K} ON {agree(node.kinds, edge.left, A, K)} ORDER BY {row_order(node.kinds, A)} LIMIT 1"
    partner = (f"SELECT to_jsonb({S}) FROM unnest({rows}) {S} WHERE {agree(node.kinds, edge.left, A, S)} AND {differ(edge.right, A, S)} "
               f"ORDER BY {row_order(node.kinds, S)} LIMIT 1")
    pair = f"SELECT jsonb_build_array(to_jsonb({node.row(A)}), ({partner})) FROM ({first}) {A}"
    reported = f"""'{{"left": {names_json(edge.left)}, "right": {names_json(edge.right)}}}'::jsonb"""
    body.say(f"RAISE EXCEPTION USING ERRCODE = '23P01', MESSAGE = {text_literal(broken_text(edge, shown))}, "
             f"DETAIL = jsonb_build_object('ok', false, 'error', 43, 'edge', {reported}, 'rows', ({pair}));")
    body.end()


def broken_text(edge, shown):
    """A dependency that rows break, in words."""
    return f"{' and '.join(edge.left)} determine{'s' if len(edge.left) == 1 else ''} {' and '.join(edge.right)} in {shown}"


def names_json(names):
    return "[" + ", ".join(f'"{name}"' for name in names) + "]"
