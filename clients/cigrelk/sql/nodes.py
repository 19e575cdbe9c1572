"""The nodes of views, each with its columns, dependencies and predicate as the program reports them."""
import itertools
from typing import NamedTuple

from ..language import Drop, Join, Named, Rename, Select, Table, condition_of, defined, expanded, parsed
from ..postgres import quoted
from ..server import Server
from .words import agree, columns_at, expression_text, holds, name_within, same

LEFT, RIGHT, ONLY = '"L"', '"R"', '"N"'


class Edge(NamedTuple):
    """A dependency of a tree form."""

    left: tuple
    right: tuple


class Node:
    """A node of a view. `row_type` is the type that its rows have in functions."""

    def __init__(self, what, kinds, tree, conditions, below=()):
        self.what, self.kinds, self.tree, self.conditions, self.below = what, kinds, tree, conditions, below
        # Whether a view of SQL is made for the sake of the row type.
        self.row_type, self.makes_type = None, False

    @property
    def columns(self):
        return list(self.kinds)

    @property
    def outputs(self):
        return {name for edge in self.tree for name in edge.right}

    @property
    def key(self):
        """The columns that determine all others: those that none determines."""
        outputs = self.outputs
        return [name for name in self.kinds if name not in outputs]

    @property
    def rest(self):
        """The columns that the key determines."""
        outputs = self.outputs
        return [name for name in self.kinds if name in outputs]

    @property
    def shared(self):
        """The columns that the two sides of a join share."""
        left, right = self.below
        return [name for name in left.kinds if name in right.kinds]

    @property
    def signature(self):
        """Columns and kinds in order. Nodes of one signature share a row type."""
        return tuple(self.kinds.items())

    def condition(self, alias):
        """The whole predicate, or None if there is none."""
        return " AND ".join(f"({holds(part, self.kinds, alias)})" for part in self.conditions) or None

    def row(self, alias, names=None):
        """A row of this node, of the columns of an alias. `names` has the expressions of those that come from elsewhere."""
        parts = [(names or {}).get(name, f"{alias}.{quoted(name)}") for name in self.kinds]
        return f"ROW({', '.join(parts)})::{self.row_type}"

    def renamed(self, name):
        """What a column of the node below is called here."""
        return self.what.to if isinstance(self.what, Rename) and name == self.what.column else name

    def query(self):
        """A query that shows the rows of this node."""
        if isinstance(self.what, Join):
            left, right = self.below
            others = [name for name in right.kinds if name not in left.kinds]
            columns = ", ".join(filter(None, (columns_at(LEFT, left.kinds), columns_at(RIGHT, others))))
            return f"SELECT {columns} FROM {left.source()} {LEFT} JOIN {right.source()} {RIGHT} ON {agree(left.kinds, self.shared, LEFT, RIGHT)}"
        (child,) = self.below
        if isinstance(self.what, Rename):
            columns = ", ".join(f"{ONLY}.{quoted(name)} AS {quoted(self.renamed(name))}" for name in child.kinds)
            return f"SELECT {columns} FROM {child.source()} {ONLY}"
        # A drop needs no DISTINCT: what determines the dropped column stays.
        where = f" WHERE {self.selects(ONLY)}" if isinstance(self.what, Select) else ""
        return f"SELECT {columns_at(ONLY, self.kinds)} FROM {child.source()} {ONLY}{where}"

    def source(self):
        """What stands behind FROM for the rows of this node."""
        return f"({self.query()})"

    def flat_query(self):
        """The same rows by one SELECT over the tables. PostgreSQL plans it with each statement of a client, and would look up and take in
        each query that stands within another one."""
        columns, source, conditions = self.flat(itertools.count())
        where = f" WHERE {' AND '.join(f'({condition})' for condition in conditions)}" if conditions else ""
        return f"SELECT {', '.join(f'{columns[name]} AS {quoted(name)}' for name in self.kinds)} FROM {source}{where}"

    def flat(self, numbers):
        """For such a query the expression of each column, what stands behind FROM, and the conditions. `numbers` gives each table one."""
        below = [child.flat(numbers) for child in self.below]
        columns, source, conditions = below[0]
        if isinstance(self.what, Join):
            (left, right), (others, other_source, more) = self.below, below[1]
            on = " AND ".join(same(left.kinds[name], columns[name], others[name]) for name in self.shared)
            if len(right.leaves()) > 1:
                other_source = f"({other_source})"
            columns, source, conditions = {**others, **columns}, f"{source} JOIN {other_source} ON {on}", conditions + more
        # What a drop hides may be the name of another column above it.
        columns = {self.renamed(name): value for name, value in columns.items() if self.renamed(name) in self.kinds}
        if isinstance(self.what, Select):
            conditions = [*conditions, self.selects(columns)]
        return columns, source, conditions

    def selects(self, alias):
        return holds(self.what.predicate, self.kinds, alias)

    def with_kinds_below(self):
        """This node, its columns with the kinds that they have below: the program knows no types but its own."""
        for child in self.below:
            self.kinds.update({self.renamed(name): kind for name, kind in child.kinds.items() if self.renamed(name) in self.kinds})
        return self

    def origins(self):
        """For each column the table and the column that it comes from. A shared column comes from the left."""
        found = {}
        for child in reversed(self.below):
            found.update({self.renamed(name): origin for name, origin in child.origins().items()})
        return {name: found[name] for name in self.kinds}

    def leaves(self):
        """The tables under this node, from left to right."""
        return [leaf for child in self.below for leaf in child.leaves()]

    def nodes(self):
        """The nodes from here down to the tables, without them; those below come first."""
        return [node for child in self.below for node in child.nodes()] + [self]


class Leaf(Node):
    """A table. `place` is its name in SQL; `stored` has the names of its columns there, and `fixed` those that no UPDATE may name."""

    def __init__(self, name, place, kinds, tree, conditions, stored, fixed):
        super().__init__(None, kinds, tree, conditions)
        self.name, self.place, self.stored, self.fixed = name, place, stored, fixed
        # What stands behind FROM for the rows that a query has fetched, while it is made.
        self.fetched = None

    @property
    def updated(self):
        """The columns that an UPDATE sets."""
        return [name for name in self.rest if name not in self.fixed]

    @property
    def overriding(self):
        """What an INSERT says if it gives values of fixed columns."""
        return " OVERRIDING SYSTEM VALUE" if self.fixed else ""

    def column(self, name):
        """The name that a column has in the table, in SQL."""
        return quoted(self.stored.get(name, name))

    def columns_as_named(self, alias):
        """The columns of an alias of the table, by the names that they have in the definition."""
        return ", ".join(f"{alias}.{self.column(name)}{f' AS {quoted(name)}' if name in self.stored else ''}" for name in self.kinds)

    def key_agrees(self, alias, other):
        """Whether an alias of the table has the key of a row."""
        return self.agrees(self.key, alias, {name: f"{other}.{quoted(name)}" for name in self.key})

    def agrees(self, columns, alias, values):
        """Whether an alias of the table has these values in columns."""
        return " AND ".join(same(self.kinds[name], f"{alias}.{self.column(name)}", values[name]) for name in columns)

    def query(self):
        return f"SELECT {self.columns_as_named(ONLY)} FROM {self.place} {ONLY}"

    def source(self):
        return self.fetched or self.row_type

    def flat(self, numbers):
        alias = f'"T{next(numbers)}"'
        return {name: f"{alias}.{self.column(name)}" for name in self.kinds}, f"{self.place} {alias}", []

    def origins(self):
        return {name: (self, name) for name in self.kinds}

    def leaves(self):
        return [self]

    def nodes(self):
        return []


class Alias:
    """A view that shows a table under a name of its own."""


class TableTypes(NamedTuple):
    """What `cigrelk take` found of a table that is there: the name of the table and of columns in SQL, where they have others than
    in the definition, the native types of columns that the definition calls text, defaults, and the columns that are GENERATED ALWAYS AS
    IDENTITY, which no UPDATE may name."""

    table: str = None
    stored: dict = {}
    native: dict = {}
    defaults: dict = {}
    fixed: tuple = ()


class Catalogue:
    """The tables and views of definition texts. `schema` is where they are, `inside` the schema of what is made for them."""

    def __init__(self, texts, schema="public", types=None):
        self.schema, self.inside = schema, name_within(f"{schema}:cigrelk")
        self.texts = {defined(text)[1]: text for text in texts}
        self.types = types or {}
        with Server() as server:
            for text in texts:
                server.define(text)
            self.leaves = {name: self.leaf(server, name) for name, text in self.texts.items() if defined(text)[0] == "table"}
        self.views = {name: self.view(name) for name in self.texts if name not in self.leaves}

    def place(self, name):
        """The name of a table or a view in SQL."""
        return f"{quoted(self.schema)}.{quoted(name)}"

    def own(self, name):
        """The name in SQL of something that is made for the definitions."""
        return f"{quoted(self.inside)}.{quoted(name_within(name))}"

    def types_of(self, name):
        return self.types.get(name, TableTypes())

    def leaf(self, server, name):
        kinds, tree, conditions = sort_of(server, name, list(parsed(self.texts[name]).kinds))
        types = self.types_of(name)
        for column, native in types.native.items():
            kinds[column] = kinds[column].replace("text", f"text:{native}", 1)
        leaf = Leaf(name, self.place(types.table or name), kinds, tree, conditions, types.stored, types.fixed)
        leaf.row_type = self.own(name)
        return leaf

    def view(self, name):
        """The root of a view. Its nodes are asked of a program of their own, so that none of its limits is met."""
        used, count = set(self.texts), 0

        with Server() as server:
            for leaf in self.leaves:
                server.define(self.texts[leaf])

            def made(node):
                nonlocal count
                if isinstance(node, Table):
                    return self.leaves[node.name], node.name
                parts = (node.left, node.right) if isinstance(node, Join) else (node.operand,)
                below, names = zip(*map(made, parts))
                count += 1
                while f"node_{count}" in used:
                    count += 1
                short = f"node_{count}"
                used.add(short)
                server.define(f"view {short} = {expression_text(node, *names)}")
                return Node(node, *sort_of(server, short, shown(node, below)), below=below).with_kinds_below(), short

            tree = expanded(Named(name), self.texts)
            if isinstance(tree, Table):
                leaf = self.leaves[tree.name]
                root = Node(Alias(), dict(leaf.kinds), leaf.tree, leaf.conditions, below=(leaf,))
            else:
                root = made(tree)[0]
        self.give_types(name, root)
        return root

    def give_types(self, name, root):
        """Gives each node of a view its row type: that of a table or of the view where it has the same columns, or one of its own."""
        types = {leaf.signature: leaf.row_type for leaf in root.leaves()}
        types.setdefault(root.signature, self.place(name))
        for number, node in enumerate(root.nodes()):
            node.makes_type = node.signature not in types
            node.row_type = types.setdefault(node.signature, self.own(f"{name}:{number}"))


def shown(node, below):
    """The columns of a node in order, from those of the nodes below."""
    if isinstance(node, Join):
        left, right = below
        return left.columns + [name for name in right.kinds if name not in left.kinds]
    names = below[0].columns
    if isinstance(node, Drop):
        return [name for name in names if name != node.column]
    return [node.to if isinstance(node, Rename) and name == node.column else name for name in names]


def sort_of(server, name, columns):
    """The kinds, the tree form and the conjuncts of a name, as the program reports them."""
    reported = server[name].type()
    tree = [Edge(tuple(edge["left"]), tuple(edge["right"])) for edge in reported["dependencies"]]
    return {column: reported["columns"][column] for column in columns}, tree, [condition_of(text) for text in reported["predicate"]]

