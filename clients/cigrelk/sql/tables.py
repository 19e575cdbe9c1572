"""Tables, their keys and indexes, what is tested on them, and the views that show rows."""
from ..kinds import base, is_nullable
from ..postgres import TYPES, quoted
from . import objects
from .deltas import A, N, S, broken_text
from .edits import EDIT_PATH, PATH, lock_lines
from .words import NEUTRAL, column_type, columns_at, differ, dollar_quoted, fails, holds, name_within, text_literal


def key_order(leaf, wanted):
    """The key, the columns that are asked alone first, so that its index serves them too."""
    alone = {next(iter(columns)) for place, columns in wanted if place == leaf.place and len(columns) == 1}
    return sorted(leaf.key, key=lambda name: (name not in alone, name))


def table_statement(leaf, wanted=()):
    """The statement that makes a table with its key. The key takes each null once."""
    parts = [f"{quoted(name)} {column_type(kind)}" for name, kind in leaf.kinds.items()]
    key = key_order(leaf, wanted)
    word = "UNIQUE NULLS NOT DISTINCT" if any(is_nullable(leaf.kinds[name]) for name in key) else "PRIMARY KEY"
    parts.append(f"{word} ({', '.join(map(quoted, key))})")
    return f"CREATE TABLE IF NOT EXISTS {leaf.place} ({', '.join(parts)});"


def table_object(leaf, wanted):
    """A table. It stays, with its rows, when its definition goes."""
    return objects.Made(f"table {leaf.place}", table_statement(leaf, wanted), "", f"to_regclass({text_literal(leaf.place)}) IS NOT NULL")


def comment(catalogue, leaf, what):
    return f"{what}; made by cigrelk compile for: {catalogue.texts[leaf.name]}"


def check_objects(catalogue, leaf):
    """The predicate of a table."""
    for number, condition in enumerate(leaf.conditions):
        text = holds(condition, leaf.kinds, quoted(leaf.name))
        yield objects.constraint(f"cigrelk:{number}", leaf.place, f"CHECK (({text}) IS TRUE)", comment(catalogue, leaf, "a condition"), (f"table {leaf.place}",))


def index_objects(catalogue, leaf, wanted):
    """An index for each list of columns by which rows are found, if none begins with them."""
    key = key_order(leaf, wanted)
    has = [] if any(is_nullable(leaf.kinds[name]) for name in key) else [key]
    for columns in sorted((sorted(columns) for place, columns in wanted if place == leaf.place), key=lambda names: (-len(names), names)):
        if any(set(columns) == set(other[: len(columns)]) for other in has):
            continue
        has.append(columns)
        parts = []
        for name in columns:
            column, kind = leaf.column(name), leaf.kinds[name]
            parts += [f"(coalesce({column}, {NEUTRAL[base(kind)]}))", f"(({column} IS NULL))"] if is_nullable(kind) else [column]
        name = name_within(f"cigrelk:{leaf.name}:{'+'.join(columns)}")
        yield objects.index(name, catalogue.place(name), leaf.place, f"({', '.join(parts)})", comment(catalogue, leaf, "finds rows"), (f"table {leaf.place}",))


def row_view(catalogue, leaf):
    """The view that shows a table by the names of its definition. Its row type is that of rows in functions."""
    return objects.view(leaf.row_type, leaf.query(), comment(catalogue, leaf, "rows of a table"), (f"table {leaf.place}",))


def edges_to_test(leaf):
    """The dependencies that the key does not imply by itself."""
    return [edge for edge in leaf.tree if set(edge.left) != set(leaf.key)]


IS_EDIT = f"pg_catalog.current_setting('search_path') OPERATOR(pg_catalog.=) '{EDIT_PATH}'"
GUARDED = f"WHEN (current_setting('search_path') <> '{EDIT_PATH}') "
EXCLUDE_MESSAGE = "--exclude needs the extension btree_gist: CREATE EXTENSION btree_gist"


def guard_objects(compiling, leaf):
    """A direct change of a table stands in line with the edits. At the end of its statement it is tested for the dependencies that the
    key does not keep."""
    catalogue = compiling.catalogue
    lock, test, place = catalogue.own(f"lock:{leaf.name}"), catalogue.own(f"test:{leaf.name}"), leaf.place
    # It asks for itself whether an edit changes the table: a WHEN would be read and planned with each statement.
    lines = [f"  IF {IS_EDIT} THEN RETURN NULL; END IF;", *(f"  {line}" for line in lock_lines(compiling, [leaf])), "  RETURN NULL;"]
    yield objects.function(lock, "", "RETURNS trigger ", lines, "", "", (), comment(catalogue, leaf, "locks a table"))
    text = f"BEFORE INSERT OR UPDATE OR DELETE ON {place} FOR EACH STATEMENT EXECUTE FUNCTION {lock}()"
    yield objects.trigger("cigrelk:1", place, text, comment(catalogue, leaf, "locks a table"), (f"function {lock}()", f"table {place}"))
    edges = edges_to_test(leaf)
    if not edges:
        return
    if compiling.foreign:
        # PostgreSQL gives no transition tables of foreign partitions, so what is written there directly cannot be tested.
        closed = [f"  RAISE EXCEPTION USING ERRCODE = '42501', MESSAGE = 'write {leaf.name} by edit_{leaf.name}', HINT = 'its dependencies could not be tested';"]
        yield objects.function(test, "", "RETURNS trigger ", closed, "", PATH, (), comment(catalogue, leaf, "rejects direct changes"))
        text = f"BEFORE INSERT OR UPDATE ON {place} FOR EACH STATEMENT {GUARDED}EXECUTE FUNCTION {test}()"
        yield objects.trigger("cigrelk:2", place, text, comment(catalogue, leaf, "rejects direct changes"), (f"function {test}()", f"table {place}"))
        return
    if compiling.exclude and not any(is_nullable(leaf.kinds[name]) for edge in edges for name in edge.left + edge.right):
        yield from exclude_objects(catalogue, leaf, edges)
        return
    lines = []
    for edge in edges:
        new = ", ".join(f"{A}.{leaf.column(name)} AS {quoted(name)}" for name in edge.left + edge.right)
        other = compiling.looks.any(leaf, edge.left, A, differ(edge.right, N, A))
        lines += [f'  IF EXISTS (SELECT FROM (SELECT {new} FROM "New" {A} OFFSET 0) {A} CROSS JOIN LATERAL {other} {S}) THEN',
                  f"    RAISE EXCEPTION USING ERRCODE = '23P01', MESSAGE = {text_literal(broken_text(edge, leaf.name))};", "  END IF;"]
    yield objects.function(test, "", "RETURNS trigger ", [*lines, "  RETURN NULL;"], "", f"{PATH} SET enable_seqscan = off", (), comment(catalogue, leaf, "tests direct changes"), (f"table {place}",))
    for event in ("INSERT", "UPDATE"):
        text = f'AFTER {event} ON {place} REFERENCING NEW TABLE AS "New" FOR EACH STATEMENT {GUARDED}EXECUTE FUNCTION {test}()'
        yield objects.trigger(f"cigrelk:2 {event}", place, text, comment(catalogue, leaf, "tests direct changes"), (f"function {test}()", f"table {place}"))


def exclude_objects(catalogue, leaf, edges):
    """Each dependency X -> Y as constraints that keep it from all writers: rows with the same X have no other Y."""
    for number, edge in enumerate(edges):
        for right in edge.right:
            parts = [f"{leaf.column(name)} WITH =" for name in edge.left] + [f"{leaf.column(right)} WITH <>"]
            name = name_within(f"cigrelk:{leaf.name}:{'+'.join(edge.left)}->{right}")
            text = f"EXCLUDE USING gist ({', '.join(parts)}) DEFERRABLE INITIALLY IMMEDIATE"
            yield objects.constraint(name, leaf.place, text, comment(catalogue, leaf, f"dependency {number}"), (f"table {leaf.place}",))


def holds_now_statements(leaf):
    """Tests of the rows that are there already."""
    for condition in leaf.conditions:
        found = f"SELECT FROM {leaf.row_type} {N} WHERE {fails(holds(condition, leaf.kinds, N))}"
        yield f"IF EXISTS ({found}) THEN RAISE EXCEPTION USING ERRCODE = '23514', MESSAGE = {text_literal(f'rows of {leaf.name} do not satisfy its condition')}; END IF;"
    for edge in edges_to_test(leaf):
        both = columns_at(N, edge.left + edge.right)
        broken = f"SELECT FROM (SELECT DISTINCT {both} FROM {leaf.row_type} {N}) {N} GROUP BY {columns_at(N, edge.left)} HAVING count(*) > 1"
        words = f"rows of {leaf.name} break a dependency: {' '.join(edge.left)} -> {' '.join(edge.right)}"
        yield f"IF EXISTS ({broken}) THEN RAISE EXCEPTION USING ERRCODE = '23P01', MESSAGE = {text_literal(words)}; END IF;"


def columns_statement(leaf, existing):
    """Rejects a table whose columns are not those of its definition."""
    problems = []
    for name, kind in leaf.kinds.items():
        column = leaf.stored.get(name, name)
        problems.append((column, None if existing else TYPES[base(kind)], not is_nullable(kind)))
    rows = ", ".join(f"({text_literal(column)}, {text_literal(type_) if type_ else 'NULL'}, {str(required).lower()})" for column, type_, required in problems)
    fault = (f"SELECT W.name, W.type, A.attname IS NULL AS missing, W.required AND NOT A.attnotnull AS takes_null FROM (VALUES {rows}) AS W(name, type, required) "
             f"LEFT JOIN pg_catalog.pg_attribute A ON A.attrelid = {text_literal(leaf.place)}::regclass AND A.attnum > 0 AND NOT A.attisdropped AND A.attname = W.name "
             "WHERE A.attname IS NULL OR W.type <> pg_catalog.format_type(A.atttypid, NULL) OR (W.required AND NOT A.attnotnull) LIMIT 1")
    extra = "" if existing else (
        f'FOR "F" IN SELECT attname FROM pg_catalog.pg_attribute WHERE attrelid = {text_literal(leaf.place)}::regclass AND attnum > 0 AND NOT attisdropped '
        f"AND attname <> ALL ({text_literal('{' + ','.join(leaf.kinds) + '}')}::text[]) LOOP RAISE EXCEPTION USING ERRCODE = '42701', MESSAGE = "
        f"format('the table %s has a column %s that its definition has not', {text_literal(leaf.name)}, \"F\".attname), "
        f"HINT = format('ALTER TABLE %s DROP COLUMN %I; or compile with --existing', {text_literal(leaf.place)}, \"F\".attname); END LOOP; ")
    text = (f'DECLARE "F" record; BEGIN FOR "F" IN {fault} LOOP RAISE EXCEPTION USING ERRCODE = \'42703\', MESSAGE = format(CASE WHEN "F".missing THEN '
            f"'the table %s has no column %s' WHEN \"F\".takes_null THEN 'in the table %s the column %s may be null, and in its definition it may not' "
            f"ELSE 'in the table %s the column %s is of another type than ' || \"F\".type END, {text_literal(leaf.name)}, \"F\".name), "
            f"HINT = 'ALTER TABLE makes it so, and then run this script again: nothing was changed'; END LOOP; {extra}END ")
    return f"DO {dollar_quoted(text)};"
