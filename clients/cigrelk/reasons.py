"""Why a change changes what it changes."""
from .language import Drop, Join, path_to, shown_columns, tables_in
from .rows import values
from .texts import differing, listing, short, sides, words_of


def gives(edge, sent, row):
    """Whether a row that was sent has values of the right side of a dependency that another row has not."""
    return sent is not None and any(name not in row or row[name] != sent[name] for name in edge["right"])


def rows_of(tables):
    return f"{'the row' if len(tables) == 1 else 'the rows'} of {listing(tables)}"


class Reasons:
    """The reasons for the changed rows of one table under a view, where rows were sent to be removed and added.

    A row of the table was sent where one of the rows sent agrees with it on the columns that the view shows of the table. What
    was not sent is hidden in the view, since an accepted edit changes the view by what was sent and by nothing else.
    """

    def __init__(self, view, name, changed, remove, add):
        self.view, self.server, self.name = view, view.server, name
        self.path = path_to(self.server.tree(view.name), name)
        self.shown = shown_columns(self.path)
        self.sent_to_remove = {values(row, self.shown.values()) for row in remove}
        self.sent_to_add = {values(row, self.shown.values()) for row in add}
        edges = {below: self.server[below].type()["dependencies"] for below in tables_in(self.path[0])}
        self.edges = edges[name]
        determined = {column for edge in self.edges for column in edge["right"]}
        # A row that is removed and one that is added are one row that changes, where they differ in determined columns alone.
        self.undetermined = [column for column in self.path[-1].kinds if column not in determined]
        self.removed, self.added = changed
        self.before = {values(row, self.undetermined): row for row in self.removed} if determined else {}
        self.after = {values(row, self.undetermined): row for row in self.added} if determined else {}
        self.known = {}
        # For each dependency by which a row that was sent can give values to one of this table, in the names of the view, the rows
        # sent by its left side. (They agree on the right side, or the edit would be refused.)
        columns, found = set(self.shown.values()), [edge for below in edges for edge in self.shown_edges(below, edges[below])]
        self.giving = [(edge, {values(row, edge["left"]): row for row in add}) for edge in found if add and set(edge["left"]) <= columns]

    def shown_edges(self, table, edges):
        """The dependencies of a table, so far as the view shows their columns, in its names."""
        names = shown_columns(path_to(self.path[0], table))
        for edge in edges:
            right = [names[column] for column in edge["right"] if column in names]
            if right and set(edge["left"]) <= set(names):
                yield {"left": [names[column] for column in edge["left"]], "right": right}

    def of_removed(self, row):
        after = self.after.get(values(row, self.undetermined))
        if after and values(row, self.shown) in self.sent_to_remove and values(after, self.shown) in self.sent_to_add:
            return [f"changed in {self.view.name}"]
        if not after and values(row, self.shown) in self.sent_to_remove:
            return [f"removed from {self.view.name}{self.join_keeps()}"]
        if after:
            # (a row that the view hides may be named among those to remove, which does nothing)
            return [f"hidden in {self.view.name}; follows, since {self.determining(row, after)}"]
        return [self.deletion(row)]

    def of_added(self, row):
        before = self.before.get(values(row, self.undetermined))
        if values(row, self.shown) not in self.sent_to_add:
            return [f"hidden in {self.view.name}; follows, since {self.determining(before, row)}" if before else f"hidden in {self.view.name}"]
        if not before:
            reason = f"added to {self.view.name}"
        elif values(before, self.shown) in self.sent_to_remove:
            reason = f"changed in {self.view.name}"
        else:
            reason = f"added to {self.view.name}; {self.name} had this row already, hidden there, and {self.determining(before, row)}"
        drops = [place for place, node in enumerate(self.path) if isinstance(node, Drop)]
        return [reason, *filter(None, (self.origin(row, before, place) for place in drops))]

    def determining(self, before, after):
        """The dependencies by which a row takes other values."""
        return listing(sides(edge) for edge in (differing(edge, [before, after]) for edge in self.edges) if edge["right"])

    def joins_above(self):
        """The joins over the table, each with the side that the table is under and the other one."""
        pairs = ((node, below) for node, below in zip(self.path, self.path[1:]) if isinstance(node, Join))
        return [(node, below, node.right if node.left is below else node.left) for node, below in pairs]

    def join_keeps(self):
        """What is told of a row that is removed from the view: which side of each join it is deleted from."""
        kept, told = {"left": [], "right": []}, []
        for node, side, other in self.joins_above():
            if node.kind == "join_both":
                told.append("the join deletes from both sides what no other row of it shows")
            elif node.kind == "join_dr" and side is node.left:
                told.append(f"another row shows {rows_of(tables_in(other))}, so the join deletes from its left side, {self.name}")
            elif node.deletes_from(side):
                kept["left" if side is node.left else "right"] += tables_in(other)
        told += [f"the join deletes from its {side} side, {self.name}, and keeps {rows_of(tables)}" for side, tables in kept.items() if tables]
        return f": {listing(dict.fromkeys(told))}" if told else ""

    def deletion(self, row):
        """Why a row that was not sent is deleted: what was sent gives it, by a dependency, values with which it would be shown."""
        seen = {name: row[column] for column, name in self.shown.items()}
        since = listing(sides(edge) for edge, sent in self.giving if gives(edge, sent.get(values(seen, edge["left"])), seen))
        since = f", since {since}" if since else ""
        found = ["left" if side is node.left else "right" for node, side, _ in self.joins_above() if node.deletes_from(side)]
        deletes = f"the join deletes it from its {found[0]} side, {self.name}" if found else "it is deleted"
        return f"hidden in {self.view.name}; it would be shown now{since}, and was not sent: {deletes}"

    def origin(self, row, before, place):
        """Where the value of the column that this node of the path drops comes from, or None where it stays."""
        drop, columns = self.path[place], {name: column for column, name in shown_columns(self.path[place + 1 :]).items()}
        if not {drop.column, *drop.by} <= set(columns):
            return None
        dropped, by = columns[drop.column], [columns[name] for name in sorted(drop.by)]
        value = row[dropped]
        if before and before[dropped] == value:
            return None
        if value == drop.default and (values(row, by), value) not in self.known_beside(dropped, by):
            return f"{dropped} {short(value)}: the default of the drop"
        return f"{dropped} {short(value)}: {words_of({name: row[name] for name in by})} has it already"

    def known_beside(self, column, by):
        """The values that the table has in a column, each with those of the columns that determine it."""
        if column not in self.known:
            self.known[column] = {(values(row, by), row[column]) for row in self.server[self.name].current()}
        return self.known[column]
