"""Edits of one row that revise no other row.

Most edits are of this form. The statements here find out whether one is, by a look for the removed row and a look for each dependency of
a table, and then change a row of each table that differs. If anything else is the case they leave their block before anything has
changed, and the statements of deltas.py make the edit. So an edit costs three or four queries where it would cost eight.

Why it is enough to look at the dependencies of the tables: a row that an edit revises, in a selection or in a side of a join, or that
breaks a dependency with a new row, stands over a row of a table that agrees with the new row on a left side, and not on the right side.
If no table has such a row, other than the removed one that the new row replaces, the nodes have nothing to revise or to reject. A row
of a right side stands under several rows of a join, so an edit that changes one is not plain. One that brings a new right row is plain
only if no left row waits for it.
"""
from ..language import Drop, Join, Select
from ..postgres import quoted
from .deltas import N
from .nodes import Leaf
from .words import agree, fails, same, value_literal

GONE, COME = '"Gone"', '"Come"'
BLOCK = '"Plain"'
NOT_PLAIN = f"EXIT {BLOCK}"
SAME = '"Same"'
DONE = '"Done"'


class Dropped:
    """A column that a drop hides: the node of the drop, what it is called there, and the sources of the columns that determine it."""

    def __init__(self, number, node, by):
        self.number, self.node, self.by = number, node, by
        self.leaf, self.column = None, None

    def variable(self, row):
        return f'"{row[1:-1]}Drop{self.number}"'


class Plain:
    """The plain edits of a table or a view. `sources` has, for each table, where each column comes from: the name of a column of the
    view, or a Dropped."""

    def __init__(self, root, looks):
        self.root, self.looks, self.sources, self.dropped, self.joins = root, looks, {}, [], []
        self.spread(root, {name: name for name in root.kinds})
        self.leaves = root.leaves()
        self.first = self.leaves[0]

    def spread(self, node, names):
        """Notes where the columns of the tables under a node come from."""
        if isinstance(node, Leaf):
            self.sources[node] = names
            for column, source in names.items():
                if isinstance(source, Dropped):
                    source.leaf, source.column = node, column
            return
        if isinstance(node.what, Join):
            self.joins.append((node, names))
            for side in node.below:
                self.spread(side, {name: names[name] for name in side.kinds})
            return
        (child,) = node.below
        below = {name: names[node.renamed(name)] for name in child.kinds if node.renamed(name) in names}
        if isinstance(node.what, Drop):
            column = Dropped(len(self.dropped), node, [names[name] for name in node.what.by])
            self.dropped.append(column)
            below[node.what.column] = column
        self.spread(child, below)

    def is_possible(self):
        """Whether each row of the view stands over one row of the first table by the same key, and each column is found by itself."""
        keys = {self.sources[self.first][name] for name in self.first.key}
        if keys != set(self.root.key) or any(isinstance(one, Dropped) for one in keys):
            return False
        for node, _ in self.joins:
            if set(node.shared) & node.below[1].outputs:
                return False
        return all(self.edge_of(column) for column in self.dropped)

    def edge_of(self, column):
        """The dependency of a table by which a dropped column is known, or None."""
        return next((edge for edge in column.leaf.tree if column.column in edge.right and {self.sources[column.leaf][name] for name in edge.left} == set(column.by)), None)

    def value(self, row, source):
        return source.variable(row) if isinstance(source, Dropped) else f"{row}.{quoted(source)}"

    def values(self, leaf, row, columns):
        return {name: self.value(row, self.sources[leaf][name]) for name in columns}

    def agree(self, leaf, columns, one=GONE, other=COME):
        """Whether two rows of the view have the same values in columns of a table."""
        here, there = self.values(leaf, one, columns), self.values(leaf, other, columns)
        return " AND ".join(same(leaf.kinds[name], here[name], there[name]) for name in columns) or "true"

    def shown(self, leaf, columns):
        """Those of the columns of a table that no drop hides."""
        return [name for name in columns if not isinstance(self.sources[leaf][name], Dropped)]

    def differ(self, leaf, columns, one, other):
        here, there = self.values(leaf, one, columns), self.values(leaf, other, columns)
        return " OR ".join(f"{here[name]} IS DISTINCT FROM {there[name]}" for name in columns) or "false"

    def row(self, leaf, row):
        values = self.values(leaf, row, leaf.kinds)
        return f"ROW({', '.join(values.values())})::{leaf.row_type}"

    # ---- What is looked at ----

    def with_dropped(self, node, columns, values):
        """The rows of a node with these values, and beside them the columns that drops below hide, as "Drop..". """
        alias = self.looks.alias()
        if isinstance(node, Leaf):
            return self.looks.rows(node, columns, values), []
        if isinstance(node.what, Join):
            return self.joined_with_dropped(node, columns, values)
        (child,) = node.below
        back = {node.renamed(name): name for name in child.kinds}
        below, hidden = self.with_dropped(child, [back[name] for name in columns], {back[name]: values[name] for name in columns})
        shown = [f"{alias}.{quoted(back[name])}{'' if back[name] == name else f' AS {quoted(name)}'}" for name in node.kinds] + [f"{alias}.{name}" for name in hidden]
        if isinstance(node.what, Drop):
            column = next(one for one in self.dropped if one.node is node)
            hidden = [*hidden, f'"Drop{column.number}"']
            shown.append(f"{alias}.{quoted(node.what.column)} AS {hidden[-1]}")
        where = f" WHERE {node.selects(alias)}" if isinstance(node.what, Select) else ""
        return f"SELECT {', '.join(shown)} FROM ({below}) {alias}{where}", hidden

    def joined_with_dropped(self, node, columns, values):
        left, right = node.below
        first, second = (left, right) if set(columns) & set(left.kinds) else (right, left)
        one, two = self.looks.alias(), self.looks.alias()
        begin, hidden = self.with_dropped(first, [name for name in columns if name in first.kinds], values)
        then, more = self.with_dropped(second, node.shared, {name: f"{one}.{quoted(name)}" for name in node.shared})
        rest = [name for name in columns if name not in first.kinds]
        where = " AND ".join(same(second.kinds[name], f"{two}.{quoted(name)}", values[name]) for name in rest)
        shown = [f"{one if name in first.kinds else two}.{quoted(name)}" for name in node.kinds] + [f"{one}.{name}" for name in hidden] + [f"{two}.{name}" for name in more]
        return f"SELECT {', '.join(shown)} FROM ({begin} OFFSET 0) {one} CROSS JOIN LATERAL ({then} OFFSET 0) {two}{f' WHERE {where}' if where else ''}", hidden + more

    def find_gone(self, body):
        """Finds the removed row, with what drops hide of it."""
        root = self.root
        found, _ = self.with_dropped(root, root.key, {name: f"{GONE}.{quoted(name)}" for name in root.key})
        shown = ["true", *(f'{N}."Drop{column.number}"' for column in self.dropped)]
        into = [self.flag(body, "There"), *(self.drop_variable(body, column, GONE) for column in self.dropped)]
        where = f" WHERE {agree(root.kinds, root.rest, N, GONE)}" if root.rest else ""
        body.say(f"SELECT {', '.join(shown)} INTO {', '.join(into)} FROM ({found}) {N}{where} LIMIT 1;")
        body.say(f"{NOT_PLAIN} WHEN {into[0]} IS NULL;")

    def flag(self, body, word):
        body.types[f'"{word}"'] = "boolean"
        return f'"{word}"'

    def drop_variable(self, body, column, row):
        name = column.variable(row)
        body.types[name] = f"{column.leaf.place}.{column.leaf.column(column.column)}%TYPE"
        return name

    def look_along(self, body, leaf, edge, number):
        """Looks for a row that the new row agrees with on a left side. If there is one, it has the same right side, or the edit is not
        plain. What a drop hides is what that row has, and else the default."""
        known = self.flag(body, f"Known{number}")
        hidden = [self.sources[leaf][name] for name in edge.right if isinstance(self.sources[leaf][name], Dropped)]
        shown = self.shown(leaf, edge.right)
        alias = self.looks.alias()
        self.looks.wanted.add((leaf.place, frozenset(edge.left)))
        right = self.values(leaf, COME, shown)
        changes = " OR ".join(f"{alias}.{leaf.column(name)} IS DISTINCT FROM {right[name]}" for name in shown) or "false"
        columns = ", ".join([changes, *(f"{alias}.{leaf.column(column.column)}" for column in hidden)])
        news = self.flag(body, "News")
        into = ", ".join([news, *(self.drop_variable(body, column, COME) for column in hidden)])
        body.say(f"SELECT {columns} INTO {into} FROM {leaf.place} {alias} WHERE {leaf.agrees(edge.left, alias, self.values(leaf, COME, edge.left))} LIMIT 1;")
        body.set(known, f"{news} IS NOT NULL")
        body.say(f"{NOT_PLAIN} WHEN {news};")
        if not hidden:
            return
        body.when(known)
        for column in hidden:
            (child,) = column.node.below
            if not is_whole(child):
                # The row may be hidden below the drop, which then takes the default.
                body.say(f"{NOT_PLAIN} WHEN NOT EXISTS {self.known_below(child, column)};")
        body.otherwise()
        for column in hidden:
            body.set(column.variable(COME), value_literal(column.node.what.default))
        body.end()

    def known_below(self, child, column):
        by = column.node.what.by
        values = {name: self.value(COME, source) for name, source in zip(by, column.by)}
        return f"({self.looks.rows(child, by, values)} LIMIT 1)"

    def new_row(self, body, leaf, place, numbers):
        """Whether the row of a table under the new row is not there. By now it agrees with the table along all dependencies."""
        new = self.flag(body, f"IsNew{place}")
        known = [f'"Known{number}"' for number in numbers]
        by_key = next((name for name, edge in zip(known, leaf.tree) if set(edge.left) == set(leaf.key)), None)
        if by_key:
            body.set(new, f"NOT {by_key}")
            return
        self.looks.wanted.add((leaf.place, frozenset(leaf.key)))
        there = f"EXISTS (SELECT FROM {leaf.place} {N} WHERE {leaf.agrees(leaf.key, N, self.values(leaf, COME, leaf.key))})"
        if known:
            body.set(new, "true")
            body.when(" AND ".join(known))
            body.set(new, f"NOT {there}")
            body.end()
        else:
            body.set(new, f"NOT {there}")

    def look_at(self, body, leaf, place):
        """Looks along all dependencies of a table."""
        numbers = [f"{place}_{number}" for number in range(len(leaf.tree))]
        for number, edge in zip(numbers, leaf.tree):
            self.look_along(body, leaf, edge, number)
        self.new_row(body, leaf, place, numbers)

    def look_beside_removed(self, body, leaf, place):
        """The same if the removed row tells the right side of some left sides."""
        numbers = [f"{place}_{number}" for number in range(len(leaf.tree))]
        for number, edge in zip(numbers, leaf.tree):
            known = self.flag(body, f"Known{number}")
            body.when(self.agree(leaf, edge.left))
            shown = self.shown(leaf, edge.right)
            if shown:
                changes = self.differ(leaf, shown, GONE, COME)
                if leaf is self.first and set(edge.left) != set(leaf.key):
                    body.when(changes)
                    body.say(f"{NOT_PLAIN} WHEN {SAME} IS NOT TRUE;")
                    self.looks.wanted.add((leaf.place, frozenset(edge.left)))
                    others = f"SELECT FROM {leaf.place} {N} WHERE {leaf.agrees(edge.left, N, self.values(leaf, COME, edge.left))} AND ({leaf.agrees(leaf.key, N, self.values(leaf, GONE, leaf.key))}) IS NOT TRUE"
                    body.say(f"{NOT_PLAIN} WHEN EXISTS ({others} LIMIT 1);")
                    body.end()
                elif leaf is not self.first:
                    body.say(f"{NOT_PLAIN} WHEN {changes};")
            for name in edge.right:
                column = self.sources[leaf][name]
                if isinstance(column, Dropped):
                    body.set(self.drop_variable(body, column, COME), column.variable(GONE))
            body.set(known, "true")
            body.otherwise()
            self.look_along(body, leaf, edge, number)
            body.end()
        if leaf is not self.first:
            return self.new_row(body, leaf, place, numbers)
        body.when(f"{SAME} IS NOT TRUE")
        self.new_row(body, leaf, place, numbers)
        body.end()

    def look_for_waiting(self, body, place):
        """A new right row is not plain if a left row waits for it."""
        leaf = self.leaves[place]
        for node, names in self.joins:
            left, right = node.below
            if leaf in right.leaves():
                values = {name: self.value(COME, names[name]) for name in node.shared}
                body.when(f'"IsNew{place}"')
                body.say(f"{NOT_PLAIN} WHEN EXISTS ({self.looks.rows(left, node.shared, values)} LIMIT 1);")
                body.end()

    def look_for_shown(self, body, node, with_come):
        """Which sides of the joins the removed row goes from: flags for what other rows show."""
        if isinstance(node, Leaf):
            return
        if not isinstance(node.what, Join):
            return self.look_for_shown(body, node.below[0], with_come)
        for side in node.below:
            self.look_for_shown(body, side, with_come)
        if node.what.kind == "join_dl":
            return
        names = next(found for other, found in self.joins if other is node)
        left, right = node.below
        shown = self.shown_flag(body, node)
        values = {name: self.value(GONE, names[name]) for name in node.kinds}
        alias = self.looks.alias()
        others = " AND ".join(same(node.kinds[name], f"{alias}.{quoted(name)}", values[name]) for name in node.key)
        rows = self.looks.rows(node, node.shared, {name: values[name] for name in node.shared})
        body.set(shown, f"EXISTS (SELECT FROM ({rows}) {alias} WHERE ({others}) IS NOT TRUE LIMIT 1)")
        if with_come:
            parts = " AND ".join(same(right.kinds[name], self.value(GONE, names[name]), self.value(COME, names[name])) for name in right.kinds)
            body.set(shown, f"{shown} OR ({parts})")

    def shown_flag(self, body, node):
        return self.flag(body, f"IsShown{[other for other, _ in self.joins].index(node)}")

    # ---- What is changed ----

    def delete(self, body, node):
        """Deletes the removed row from the tables under a node, by the kinds of the joins."""
        if isinstance(node, Leaf):
            body.say(f"DELETE FROM {node.place} {N} WHERE {node.agrees(node.key, N, self.values(node, GONE, node.key))};")
            self.report(body, node, "remove", GONE)
            return
        if not isinstance(node.what, Join):
            return self.delete(body, node.below[0])
        left, right = node.below
        if node.what.kind == "join_dl":
            return self.delete(body, left)
        shown = self.shown_flag(body, node)
        if node.what.kind == "join_both":
            self.delete(body, left)
            body.when(f"{shown} IS NOT TRUE")
            self.delete(body, right)
        else:
            body.when(shown)
            self.delete(body, left)
            body.otherwise()
            self.delete(body, right)
        body.end()

    def insert(self, body, leaf, place):
        body.when(f'"IsNew{place}"')
        values = self.values(leaf, COME, leaf.kinds)
        body.say(f"INSERT INTO {leaf.place} ({', '.join(map(leaf.column, values))}){leaf.overriding} VALUES ({', '.join(values.values())});")
        self.report(body, leaf, "add", COME)
        body.end()

    def update(self, body, leaf):
        values = self.values(leaf, COME, leaf.updated)
        body.say(f"UPDATE {leaf.place} {N} SET {', '.join(f'{leaf.column(name)} = {value}' for name, value in values.items())} "
                 f"WHERE {leaf.agrees(leaf.key, N, self.values(leaf, COME, leaf.key))};")
        self.report(body, leaf, "remove", GONE)
        self.report(body, leaf, "add", COME)

    def report(self, body, leaf, word, row):
        body.when("$4")
        body.set(body.variable(word.capitalize(), leaf), f"ARRAY[{self.row(leaf, row)}]")
        body.end()

    def insert_all(self, body):
        for place, leaf in reversed(list(enumerate(self.leaves))):
            self.insert(body, leaf, place)

    # ---- The three forms ----

    def forms(self):
        """The forms of plain edits: the word for each, when an edit has it, and what says its statements."""
        return (("insert", "cardinality($1) = 0 AND cardinality($2) = 1", self.say_insert),
                ("delete", "cardinality($1) = 1 AND cardinality($2) = 0", self.say_delete),
                ("update", "cardinality($1) = 1 AND cardinality($2) = 1", self.say_update))

    def say(self, body, say_form):
        """The block of one form."""
        body.types[GONE] = body.types[COME] = self.root.row_type
        body.say(f"<<{BLOCK}>>")
        body.say("BEGIN")
        body.depth += 1
        say_form(body)
        body.depth -= 1
        body.say(f"END {BLOCK};")

    def say_predicate(self, body):
        if self.root.conditions:
            body.say(f"{NOT_PLAIN} WHEN {fails(self.root.condition(COME))};")

    def say_insert(self, body):
        body.set(COME, "$2[1]")
        self.say_predicate(body)
        for place, leaf in enumerate(self.leaves):
            self.look_at(body, leaf, place)
        for place in range(1, len(self.leaves)):
            self.look_for_waiting(body, place)
        self.insert_all(body)
        body.set(DONE, "true")

    def say_delete(self, body):
        body.set(GONE, "$1[1]")
        self.find_gone(body)
        self.look_for_shown(body, self.root, False)
        self.delete(body, self.root)
        body.set(DONE, "true")

    def say_update(self, body):
        root = self.root
        body.set(GONE, "$1[1]")
        body.set(COME, "$2[1]")
        body.say(f"{NOT_PLAIN} WHEN {GONE} = {COME};")
        self.say_predicate(body)
        self.find_gone(body)
        fixed = [name for name in self.shown(self.first, self.first.rest) if name in self.first.fixed]
        if fixed:
            body.say(f"{NOT_PLAIN} WHEN {self.differ(self.first, fixed, GONE, COME)};")
        body.set(self.flag(body, SAME[1:-1]), self.agree(self.first, self.first.key))
        for place, leaf in enumerate(self.leaves):
            if leaf is not self.first and self.shown(leaf, leaf.kinds):
                # The same right row is there.
                body.when(self.agree(leaf, self.shown(leaf, leaf.kinds)))
                body.set(self.flag(body, f"IsNew{place}"), "false")
                for column in self.sources[leaf].values():
                    if isinstance(column, Dropped):
                        body.set(self.drop_variable(body, column, COME), column.variable(GONE))
                body.otherwise()
                self.look_beside_removed(body, leaf, place)
                body.end()
            else:
                self.look_beside_removed(body, leaf, place)
        for place in range(1, len(self.leaves)):
            self.look_for_waiting(body, place)
        body.when(f"{SAME} IS NOT TRUE")
        self.look_for_shown(body, root, True)
        body.end()

        body.when(SAME)
        if self.first.updated:
            body.when(self.differ(self.first, self.first.rest, GONE, COME))
            self.update(body, self.first)
            body.end()
        else:
            body.say("NULL;")
        body.set('"IsNew0"', "false")
        body.otherwise()
        self.delete(body, root)
        body.end()
        self.insert_all(body)
        body.set(DONE, "true")


def is_whole(node):
    """Whether a node shows all rows of its table."""
    return isinstance(node, Leaf) or (not isinstance(node.what, (Join, Select)) and is_whole(node.below[0]))
