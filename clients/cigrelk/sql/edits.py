"""The functions and triggers by which a table or a view is edited.

preview_NAME(remove, add, seen)   what the edit would change in each table, or its refusal. If `seen` is true, a row to remove that is
                                  not there is rejected as changed since it was read (40001)
edit_NAME(remove, add, seen)      makes the edit, and returns what it changed
json_edit_NAME(remove, add)       the same with rows as JSON, and the reply of the program
triggers                          INSERT, UPDATE and DELETE of a view: all rows of a statement are one edit

These run with the rights of who ran the script, with a fixed search_path or with all names in full. Who edits needs rights on the view, or on the function.
"""
from ..kinds import base, is_nullable
from ..postgres import quoted
from . import objects
from .deltas import A, CHANGED_SINCE, K, N, R, Body, Looks, Many, One, check, down, each, exact, some, unnested
from .plain import DONE, Plain
from .words import NEUTRAL, columns_at, differ, same, text_literal

# The triggers of tables know by this search_path that an edit changes them. Nobody can make a schema whose name begins with pg_.
EDIT_PATH = "pg_catalog, pg_cigrelk, pg_temp"
PATH = f"SET search_path = {EDIT_PATH}"
COMMON = "SET plan_cache_mode = force_generic_plan SET jit = off SET enable_seqscan = off"
# An edit of one row joins nothing, but asks one table after another.
ASKING = f"{PATH} {COMMON}"
# By these the planner finds by key alone, and joins arrays by hashes: it would take each array for one of 10 rows. (Without jit, since
# the cost of a LATERAL seems high with nested loops off.)
LOOKING = f"{PATH} {COMMON} SET enable_nestloop = off SET enable_hashjoin = on"
# A table that is changed is joined with an array by nested loops.
CHANGING = f"{PATH} {COMMON} SET enable_nestloop = on SET enable_hashjoin = off SET enable_mergejoin = off"
OWNER = "SECURITY DEFINER"
RESULT = '"Result"'
# How many rows one statement for other servers names at most.
MOST_NAMED = 500


class Compiling:
    """What the definitions are compiled to: for which writers, over which tables."""

    def __init__(self, catalogue, isolation="locks", existing=False, foreign=False, exclude=False):
        self.catalogue, self.isolation = catalogue, isolation
        self.existing, self.foreign, self.exclude = existing or foreign, foreign, exclude
        self.looks = Looks(foreign)


class Subject:
    """A table or a view by its name."""

    def __init__(self, compiling, name):
        self.compiling, self.catalogue, self.name = compiling, compiling.catalogue, name
        self.is_table = name in self.catalogue.leaves
        self.root = self.catalogue.leaves[name] if self.is_table else self.catalogue.views[name]
        self.leaves, self.looks = self.root.leaves(), compiling.looks
        self.text = self.catalogue.texts[name]

    @property
    def place(self):
        return self.root.row_type if self.is_table else self.catalogue.place(self.name)

    def public(self, word):
        return self.catalogue.place(f"{word}_{self.name}")

    def inner(self, word):
        return self.catalogue.own(f"{word}:{self.name}")

    def based_on(self):
        """The objects that functions are based on: all row types, and the functions that change tables."""
        types = {self.place, self.root.row_type, *(node.row_type for node in self.root.nodes()), *(leaf.row_type for leaf in self.leaves)}
        return tuple(f"view {name}" for name in sorted(types))

    def comment(self, what):
        return f"{what}; made by cigrelk compile for: {self.text}"

    def outs(self):
        """The results of preview and edit: two arrays for each table."""
        return [(quoted(f"{leaf.name}_{word}"), leaf) for leaf in sorted(self.leaves, key=lambda leaf: leaf.name) for word in ("remove", "add")]

    def out_list(self):
        return ", ".join(f"OUT {name} {leaf.row_type}[]" for name, leaf in self.outs())


def changed_lines(subject, body):
    """The statements of PL/pgSQL that find what an edit changes in each table, or reject it."""
    root = subject.root
    exact(body, subject.looks, root)
    check(body, subject.looks, root, subject.name)
    if not subject.is_table:
        body.when(some(body.variable("Remove", root), body.variable("Add", root)))
        down(body, subject.looks, root)
        body.end()


def declared(body):
    return "DECLARE\n" + "".join(f"  {name} {kind};\n" for name, kind in body.types.items())


def inner_function(subject, word, body, settings, comment, more_outs=""):
    """A function over rows of the type that nodes have. It is called by functions that set what the planner is to do."""
    row_type = subject.root.row_type
    arguments = f"remove {row_type}[], add {row_type}[], seen boolean, report boolean, {subject.out_list()}{more_outs}"
    return objects.function(subject.inner(word), arguments, "", body.lines, declared(body), settings, (f"{row_type}[]", f"{row_type}[]", "boolean", "boolean"),
                            subject.comment(comment), subject.based_on() + change_functions(subject, word))


def change_functions(subject, word):
    """The functions that one of the inner functions calls."""
    if word == "edit":
        plain = Plain(subject.root, subject.looks)
        return tuple(inner_name(subject, called) for called in ("whole", *(form[0] for form in plain.forms() if plain.is_possible())))
    if word != "whole":
        return ()
    return tuple(f"function {change_name(subject, leaf, which)}({leaf.row_type}[], {leaf.row_type}[])" for leaf in subject.leaves for which in ("remove", "add"))


def inner_preview(subject):
    body = Body()
    changed_lines(subject, body)
    return inner_function(subject, "preview", body, "STABLE", "what an edit would change in each table")


def whole_edit(subject):
    """Makes any edit, once the tables are locked."""
    body = Body()
    changed_lines(subject, body)

    reject_new_values(body, subject)
    # What refers to rows goes first and comes last: a join's left side refers to its right side.
    for leaf in subject.leaves:
        remove_lines(body, subject, leaf)
    for leaf in reversed(subject.leaves):
        add_lines(body, subject, leaf)
    return inner_function(subject, "whole", body, LOOKING, "makes any edit")


def inner_edit(subject):
    """Locks the tables, and makes an edit. PL/pgSQL reads a function whole when a session first calls it, so each form of a plain edit
    has a function of its own."""
    body = Body()
    for line in lock_lines(subject.compiling, subject.leaves):
        body.say(line)
    plain = Plain(subject.root, subject.looks)
    if plain.is_possible():
        body.types[RESULT], body.types[DONE] = "record", "boolean"
        body.note("an edit of one row that revises no other")
        for number, (word, condition, _) in enumerate(plain.forms()):
            body.otherwise(condition) if number else body.when(condition)
            # An assignment calls a function without a query.
            body.set(RESULT, f"{subject.inner(word)}($1, $2, $3, $4)")
            body.set(DONE, f"{RESULT}.{DONE}")
        body.end()
        body.when(DONE)
        body.when("$4")
        for name, _ in subject.outs():
            body.set(name, f"{RESULT}.{name}")
        body.end()
        body.say("RETURN;")
        body.end()
    outs = ", ".join(name for name, _ in subject.outs())
    body.say(f"SELECT * INTO {outs} FROM {subject.inner('whole')}($1, $2, $3, $4);")
    return inner_function(subject, "edit", body, "", "makes an edit")


def plain_functions(subject):
    """A function for each form of a plain edit. "Done" is null if the edit is not plain."""
    plain = Plain(subject.root, subject.looks)
    if plain.is_possible():
        for word, _, say_form in plain.forms():
            body = Body()
            plain.say(body, say_form)
            yield inner_function(subject, word, body, "", f"makes a plain {word} of a row", f", OUT {DONE} boolean")


def change_name(subject, leaf, word):
    return subject.catalogue.own(f"{word}:rows:{leaf.name}")


def change_call(subject, leaf, word, remove, add):
    """The call of a function that changes any number of rows of a table. On other servers it changes one row too: they are sent the
    constants that it makes, and would else send all their rows."""
    return f"PERFORM {change_name(subject, leaf, word)}({remove}, {add});"


def key_of(leaf, one, other):
    """Whether two rows of a table have the same key."""
    return " AND ".join(same(leaf.kinds[name], f"{one}.{quoted(name)}", f"{other}.{quoted(name)}") for name in leaf.key)


def assignments(leaf, source):
    return ", ".join(f"{leaf.column(name)} = {source}.{quoted(name)}" for name in leaf.updated)


def reject_new_values(body, subject):
    """Rejects an edit that would change a fixed column of a row whose key stays."""
    for leaf in subject.leaves:
        fixed = [name for name in leaf.rest if name in leaf.fixed]
        if fixed:
            remove, add = body.variable("Remove", leaf), body.variable("Add", leaf)
            body.when(f"EXISTS (SELECT FROM unnest({remove}) {R} JOIN {unnested(add)} ON {key_of(leaf, R, A)} WHERE {differ(fixed, R, A)})")
            body.say(f"RAISE EXCEPTION USING ERRCODE = '428C9', MESSAGE = {text_literal(f'{fixed[0]} of {leaf.name} is given by the database, and does not change')};")
            body.end()


def remove_lines(body, subject, leaf):
    """Deletes the rows that go and whose key does not come."""
    remove, add = body.variable("Remove", leaf), body.variable("Add", leaf)
    one, other = One(remove).alias, One(add).alias
    if subject.compiling.foreign:
        body.when(some(remove))
        body.say(change_call(subject, leaf, "remove", remove, add))
        return body.end()
    body.when(f"cardinality({remove}) = 1 AND cardinality({add}) > 1 IS NOT TRUE")
    if leaf.rest:
        body.when(f"(cardinality({add}) = 1 AND {key_of(leaf, one, other)}) IS NOT TRUE")
    body.say(f"DELETE FROM {leaf.place} {N} WHERE {leaf.key_agrees(N, one)};")
    if leaf.rest:
        body.end()
    body.otherwise(some(remove))
    body.say(change_call(subject, leaf, "remove", remove, add))
    body.end()


def add_lines(body, subject, leaf):
    """Updates the rows whose key stays, so that what refers to them stays, and inserts the others."""
    remove, add = body.variable("Remove", leaf), body.variable("Add", leaf)
    one, other = One(remove).alias, One(add).alias
    columns = ", ".join(map(leaf.column, leaf.kinds))
    if subject.compiling.foreign:
        body.when(some(add))
        body.say(change_call(subject, leaf, "add", remove, add))
        return body.end()
    body.when(f"cardinality({add}) = 1 AND cardinality({remove}) > 1 IS NOT TRUE")
    if leaf.rest:
        body.when(f"cardinality({remove}) = 1 AND {key_of(leaf, one, other)}")
        body.say(f"UPDATE {leaf.place} {N} SET {assignments(leaf, other)} WHERE {leaf.key_agrees(N, other)};" if leaf.updated else "NULL;")
        body.otherwise()
    body.say(f"INSERT INTO {leaf.place} ({columns}){leaf.overriding} VALUES ({columns_at(other, leaf.kinds)});")
    if leaf.rest:
        body.end()
    body.otherwise(some(add))
    body.say(change_call(subject, leaf, "add", remove, add))
    body.end()


def key_values(leaf, alias):
    """The key of a row as values of which none is null."""
    parts = []
    for name in leaf.key:
        value, kind = f"{alias}.{quoted(name)}", leaf.kinds[name]
        parts += [f"coalesce({value}, {NEUTRAL[base(kind)]})", f"{value} IS NULL"] if is_nullable(kind) else [value]
    return ", ".join(parts)


def many_rows_functions(compiling, leaf):
    """The functions that make a change of more than one row in a table."""
    # By NOT IN, and by IN where IS TRUE stands behind: a hash of the array, and no join.
    stays = f"({key_values(leaf, R)}) NOT IN (SELECT {key_values(leaf, A)} FROM {unnested('$2')})"
    was = f"({key_values(leaf, A)}) IN (SELECT {key_values(leaf, R)} FROM unnest($1) {R})"
    gone, come, new = f"SELECT * FROM unnest($1) {R} WHERE {stays}", f"SELECT * FROM {unnested('$2')} WHERE ({was}) IS TRUE", f"SELECT * FROM {unnested('$2')} WHERE NOT ({was})"
    columns = ", ".join(map(leaf.column, leaf.kinds))
    if compiling.foreign:
        remove, add = deletes_by_constants(leaf, gone), updates_by_constants(leaf, come) if leaf.updated else []
    else:
        remove = [f"  DELETE FROM {leaf.place} {N} USING ({gone}) {K} WHERE {leaf.key_agrees(N, K)};"]
        add = [f"  UPDATE {leaf.place} {N} SET {assignments(leaf, K)} FROM ({come}) {K} WHERE {leaf.key_agrees(N, K)};"] if leaf.updated else []
    add += [f"  INSERT INTO {leaf.place} ({columns}){leaf.overriding} SELECT {columns_at(A, leaf.kinds)} FROM ({new}) {A};"]
    declares = 'DECLARE "Set" text; "Keys" text;\n' if compiling.foreign else ""
    for word, lines in (("remove", remove), ("add", add)):
        name = compiling.catalogue.own(f"{word}:rows:{leaf.name}")
        comment = f"{word}s rows of an edit; made by cigrelk compile for: {compiling.catalogue.texts[leaf.name]}"
        yield objects.function(name, f"remove {leaf.row_type}[], add {leaf.row_type}[]", "RETURNS void ", lines, declares, CHANGING, (f"{leaf.row_type}[]",) * 2, comment, (f"view {leaf.row_type}",))


def assigned(column, value):
    """The text of an equation of a column with a value as a constant. It is null if the value is."""
    return f"{text_literal(f'{column} = ')} || quote_literal({value})"


def named_rows(leaf, rows):
    """Rows, and for each the condition on its key by constants, as "Key": postgres_fdw sends a whole DELETE or UPDATE to the servers if
    its condition has nothing else. "Part" tells which rows stand in one statement."""
    parts = []
    for name in leaf.key:
        column, value = f"{N}.{leaf.column(name)}", f"{K}.{quoted(name)}"
        text = assigned(column, value)
        parts.append(f"coalesce({text}, {text_literal(f'{column} IS NULL')})" if is_nullable(leaf.kinds[name]) else text)
    return f"SELECT {K}.*, concat('(', concat_ws(' AND ', {', '.join(parts)}), ')') AS \"Key\", row_number() OVER () / {MOST_NAMED} AS \"Part\" FROM ({rows}) {K}"


def deletes_by_constants(leaf, gone):
    """Deletes rows by as few statements as may be, each of which is one trip to a server."""
    return [f"""  FOR "Keys" IN SELECT string_agg("Key", ' OR ') FROM ({named_rows(leaf, gone)}) {K} GROUP BY "Part" LOOP""",
            f"    EXECUTE {text_literal(f'DELETE FROM {leaf.place} {N} WHERE ')} || \"Keys\";", "  END LOOP;"]


def updates_by_constants(leaf, come):
    """Updates rows by as few statements as may be: those that get the same values stand in one."""
    values = " || ', ' || ".join(f"coalesce({assigned(leaf.column(name), f'{K}.{quoted(name)}')}, {text_literal(f'{leaf.column(name)} = NULL')})" for name in leaf.updated)
    return [f"""  FOR "Set", "Keys" IN SELECT {values}, string_agg("Key", ' OR ') FROM ({named_rows(leaf, come)}) {K} GROUP BY 1, "Part" LOOP""",
            f"    EXECUTE {text_literal(f'UPDATE {leaf.place} {N} SET ')} || \"Set\" || ' WHERE ' || \"Keys\";", "  END LOOP;"]


def lock_lines(compiling, leaves):
    """What makes several writers safe. With `locks` there is one writer at a time for a table, in one order of tables, until its
    transaction ends. What waited reads anew, so the transaction has to be read committed. With `serializable` PostgreSQL itself
    rejects what cannot stand in an order. The two do not mix."""
    wanted = "serializable" if compiling.isolation == "serializable" else "read committed"
    # With all names in full, since what changes a table directly has no search_path of ours.
    lines = [f"IF pg_catalog.current_setting('transaction_isolation') OPERATOR(pg_catalog.<>) '{wanted}' THEN",
             f"  RAISE EXCEPTION USING ERRCODE = '25001', MESSAGE = 'these tables are written in transactions that are {wanted}', "
             f"HINT = 'begin with: BEGIN ISOLATION LEVEL {wanted.upper()}';", "END IF;"]
    if compiling.isolation == "locks":
        # Not LOCK TABLE: it would wait for VACUUM, and hold it up.
        # A condition calls a function without a query.
        number = "pg_catalog.hashtextextended('cigrelk', {}::pg_catalog.regclass::pg_catalog.oid::pg_catalog.int8)"
        locks = [f"pg_catalog.pg_advisory_xact_lock({number.format(text_literal(place))}) IS NULL" for place in sorted({leaf.place for leaf in leaves})]
        lines += [f"IF {' OR '.join(locks)} THEN NULL; END IF;"]
    return lines


# ---- What clients call ----


def converted(subject, rows):
    """Rows of the view as rows of the type that its nodes have."""
    root = subject.root
    return rows if root.row_type == subject.place else f"ARRAY(SELECT {root.row(A)} FROM {unnested(rows)})"


def public_function(subject, word, comment, settings=""):
    """preview_NAME or edit_NAME."""
    outs, values = ", ".join(name for name, _ in subject.outs()), ", ".join(f"coalesce({N}.{name}, '{{}}')" for name, _ in subject.outs())
    lines = [f"  SELECT {values} INTO {outs} FROM {subject.inner(word)}({converted(subject, '$1')}, {converted(subject, '$2')}, $3, true) {N};"]
    arguments = f"remove {subject.place}[], add {subject.place}[], seen boolean DEFAULT false, {subject.out_list()}"
    based_on = (*subject.based_on(), inner_name(subject, word))
    return objects.function(subject.public(word), arguments, "", lines, "", f"{settings} {OWNER} {LOOKING}", (f"{subject.place}[]", f"{subject.place}[]", "boolean"), subject.comment(comment), based_on)


def inner_name(subject, word):
    row_type = subject.root.row_type
    return f"function {subject.inner(word)}({row_type}[], {row_type}[], boolean, boolean)"


def json_function(subject):
    """The edit as JSON in and out: the reply is that of the program, without its version."""
    root = subject.root
    rows = lambda place: f"ARRAY(SELECT {A} FROM jsonb_populate_recordset(NULL::{root.row_type}, {place}) {A})"
    leaves = "{" + ", ".join(sorted(leaf.name for leaf in subject.leaves)) + "}"
    lines = [f'  "Edit" := {subject.inner("edit")}({rows("$1")}, {rows("$2")}, false, true);',
             '  "Done" := to_jsonb("Edit");',
             "  RETURN jsonb_build_object('ok', true, 'changed', coalesce((SELECT jsonb_agg(jsonb_build_object("
             "'table', \"T\", 'remove', \"R\", 'add', \"A\")) FROM (SELECT \"T\", coalesce(nullif(\"Done\" -> (\"T\" || '_remove'), 'null'), '[]') \"R\", "
             f"coalesce(nullif(\"Done\" -> (\"T\" || '_add'), 'null'), '[]') \"A\" FROM unnest('{leaves}'::text[]) \"T\") \"T\" "
             "WHERE \"R\" <> '[]' OR \"A\" <> '[]'), '[]'));"]
    return objects.function(subject.public("json_edit"), "remove jsonb, add jsonb", "RETURNS jsonb ", lines, 'DECLARE "Edit" record; "Done" jsonb;\n', f"{OWNER} {LOOKING}",
                            ("jsonb", "jsonb"), subject.comment("makes an edit of rows as JSON, and replies as the program does"), (*subject.based_on(), inner_name(subject, "edit")))


# ---- Triggers of a view ----
#
# INSTEAD OF each row the row is kept, and AFTER the statement all rows are one edit. They are kept as the inside of an array literal in
# two settings of the transaction, which cost less than a temporary table and are taken back with a savepoint. Past MOST_KEPT bytes they
# go to a temporary table. If cigrelk.at is `commit`, all rows of the transaction are one edit of each view, by a deferred trigger.
#
# Anyone can change settings. So a statement that may only insert makes no row go, and one that may only delete makes none come. A
# temporary table that someone else has made is not used, since its triggers would run with the rights of the owner of the view.

MOST_KEPT = 8000
KEPT_REMOVE, KEPT_ADD = "'cigrelk.remove' || TG_RELID", "'cigrelk.add' || TG_RELID"
SPILL = 'pg_temp."cigrelk:rows"'


def kept_row(row):
    """A row as an element of an array literal, with a comma behind it."""
    text = f"""pg_catalog.replace(pg_catalog.replace({row}::pg_catalog.text, E'\\\\', E'\\\\\\\\'), '"', E'\\\\"')"""
    return joined("'\"'", text, "'\",'")


def joined(*texts):
    """Texts one after another, whatever the search_path."""
    return " OPERATOR(pg_catalog.||) ".join(texts)


def own_table_lines(place, make):
    """Makes a temporary table if it is not there, and rejects one that another role has made."""
    return [f"IF to_regclass({text_literal(place)}) IS NULL THEN", *(f"  {line}" for line in make),
            f"ELSIF NOT EXISTS (SELECT FROM pg_class WHERE oid = to_regclass({text_literal(place)}) AND relowner = current_user::regrole) THEN",
            "  RAISE EXCEPTION USING ERRCODE = '42501', MESSAGE = 'a temporary table of another role has the name that the view needs';", "END IF;"]


def spill_function(subject):
    """Moves kept rows to a temporary table."""
    lines = [*(f"  {line}" for line in own_table_lines(SPILL, ['CREATE TEMPORARY TABLE "cigrelk:rows" ("View" oid, "Remove" text, "Add" text) ON COMMIT DELETE ROWS;'])),
             f"  INSERT INTO {SPILL} VALUES ($1, $2, $3);", "  PERFORM set_config('cigrelk.spilled' || $1, 'on', true);"]
    return objects.function(subject.inner("spill"), "view oid, remove text, add text", "RETURNS void ", lines, "", PATH, ("oid", "text", "text"), subject.comment("keeps rows of a long statement"))


def row_function(subject):
    """This runs for each row, so it sets nothing, not even a search_path. All its names are in full, of types too: a temporary type
    would come before that of PostgreSQL."""
    remove, add = KEPT_REMOVE.replace("||", "OPERATOR(pg_catalog.||)"), KEPT_ADD.replace("||", "OPERATOR(pg_catalog.||)")

    def keep(kept, row, spilled):
        before = f"coalesce(pg_catalog.current_setting({kept}, true), '')"
        return [f'    "Kept" := {joined(before, kept_row(row))};', f'    IF pg_catalog.length("Kept") OPERATOR(pg_catalog.>) {MOST_KEPT} THEN',
                f"      PERFORM {subject.inner('spill')}(TG_RELID, {spilled});", "      \"Kept\" := '';", "    END IF;", f'    "Kept" := pg_catalog.set_config({kept}, "Kept", true);']

    lines = ["  IF TG_OP OPERATOR(pg_catalog.<>) 'INSERT' THEN", *keep(remove, "OLD", "\"Kept\", ''"), "  END IF;",
             "  IF TG_OP OPERATOR(pg_catalog.=) 'DELETE' THEN RETURN OLD; END IF;", *(line[2:] for line in keep(add, "NEW", "'', \"Kept\"")), "  RETURN NEW;"]
    return objects.function(subject.inner("row"), "", "RETURNS trigger ", lines, 'DECLARE "Kept" pg_catalog.text;\n', OWNER, (), subject.comment("keeps a row of a statement"),
                            (f"view {subject.place}", f"function {subject.inner('spill')}(oid, text, text)"))


def rows_of(text, row_type):
    """The rows of a kept text."""
    return f"('{{' || left({text}, -1) || '}}')::{row_type}[]"


def later(subject):
    """The temporary table for what is done at the end of a transaction."""
    return f"cigrelk:{subject.catalogue.schema}.{subject.name}"[:63]


def end_function(subject):
    row_type, table = subject.root.row_type, quoted(later(subject))
    chunk = lambda column: f'(SELECT array_agg("E") FROM {SPILL} CROSS JOIN LATERAL unnest({rows_of(chr(34) + column + chr(34), row_type)}) "E" WHERE "View" = TG_RELID)'
    make = [f'CREATE TEMPORARY TABLE {table} ("Turn" bigint GENERATED ALWAYS AS IDENTITY, "Remove" {row_type}[], "Add" {row_type}[]) ON COMMIT DELETE ROWS;',
            f'CREATE CONSTRAINT TRIGGER "cigrelk:1" AFTER INSERT ON pg_temp.{table} DEFERRABLE INITIALLY DEFERRED FOR EACH ROW EXECUTE FUNCTION {subject.inner("commit")}();']
    lines = [f'  IF "Remove" <> \'\' THEN "Gone" := {rows_of(chr(34) + "Remove" + chr(34), row_type)}; "Remove" := set_config({KEPT_REMOVE}, \'\', true); END IF;',
             f'  IF "Add" <> \'\' THEN "Come" := {rows_of(chr(34) + "Add" + chr(34), row_type)}; "Add" := set_config({KEPT_ADD}, \'\', true); END IF;',
             "  IF current_setting('cigrelk.spilled' || TG_RELID, true) = 'on' THEN",
             *(f"    {line}" for line in own_table_lines(SPILL, ["RETURN NULL;"])),
             f'    "Gone" := coalesce({chunk("Remove")}, \'{{}}\') || "Gone"; "Come" := coalesce({chunk("Add")}, \'{{}}\') || "Come";',
             f'    DELETE FROM {SPILL} WHERE "View" = TG_RELID;',
             "    PERFORM set_config('cigrelk.spilled' || TG_RELID, '', true);",
             "  END IF;",
             '  IF cardinality("Gone") + cardinality("Come") = 0 THEN RETURN NULL; END IF;',
             '  IF (CASE TG_OP WHEN \'INSERT\' THEN cardinality("Gone") > 0 WHEN \'DELETE\' THEN cardinality("Come") > 0 ELSE cardinality("Gone") <> cardinality("Come") END) THEN',
             "    RAISE EXCEPTION USING ERRCODE = '42501', MESSAGE = 'the settings cigrelk.remove and cigrelk.add are changed by the triggers alone';", "  END IF;",
             "  IF current_setting('cigrelk.at', true) = 'commit' THEN",
             *(f"    {line}" for line in own_table_lines(f"pg_temp.{table}", make)),
             f'    INSERT INTO pg_temp.{table} ("Remove", "Add") VALUES ("Gone", "Come");',
             "    RETURN NULL;", "  END IF;",
             f'  "Done" := {subject.inner("edit")}("Gone", "Come", true, false);', "  RETURN NULL;"]
    declares = (f"DECLARE \"Remove\" text := current_setting({KEPT_REMOVE}, true); \"Add\" text := current_setting({KEPT_ADD}, true); "
                f"\"Gone\" {row_type}[] := '{{}}'; \"Come\" {row_type}[] := '{{}}'; \"Done\" record;\n")
    return objects.function(subject.inner("end"), "", "RETURNS trigger ", lines, declares, f"{OWNER} {ASKING}", (), subject.comment("makes the edit of a statement"),
                            (*subject.based_on(), inner_name(subject, "edit"), f"function {subject.inner('commit')}()"))


def commit_function(subject):
    """All that a transaction did to a view: of each row what it did last. What it did first tells whether it saw the row."""
    row_type, table = subject.root.row_type, quoted(later(subject))
    rows = lambda sign, order: (f'ARRAY(SELECT "R" FROM (SELECT DISTINCT ON ("R") "R", "S" FROM ('
                                f'SELECT "Turn", \'-\' AS "S", "R" FROM pg_temp.{table} CROSS JOIN LATERAL unnest("Remove") "R" UNION ALL '
                                f'SELECT "Turn", \'+\', "R" FROM pg_temp.{table} CROSS JOIN LATERAL unnest("Add") "R") "D" '
                                f"ORDER BY \"R\", {order}) \"D\" WHERE \"S\" = '{sign}')")
    last, first = '"Turn" DESC, "S" = \'+\' DESC', '"Turn", "S" = \'+\''
    there = Many('"Seen"').perhaps_beside("", subject.looks.there(subject.root, each(A, '"Seen"')), '"O"')
    lines = [f'  IF NOT EXISTS (SELECT FROM pg_temp.{table}) THEN RETURN NULL; END IF;',
             f'  "Gone" := {rows("-", last)}; "Come" := {rows("+", last)}; "Seen" := {rows("-", first)};',
             f"  DELETE FROM pg_temp.{table};",
             *(f"  {line}" for line in lock_lines(subject.compiling, subject.leaves)),
             f'  IF EXISTS ({there} WHERE "O"."There" IS NULL) THEN',
             f"    {CHANGED_SINCE}", "  END IF;",
             f'  "Done" := {subject.inner("edit")}("Gone", "Come", false, false);', "  RETURN NULL;"]
    declares = f'DECLARE "Gone" {row_type}[]; "Come" {row_type}[]; "Seen" {row_type}[]; "Done" record;\n'
    return objects.function(subject.inner("commit"), "", "RETURNS trigger ", lines, declares, f"{OWNER} {LOOKING}", (), subject.comment("makes the edit of a transaction"),
                            (*subject.based_on(), inner_name(subject, "edit")))


def trigger_objects(subject):
    view, events = subject.place, "INSERT OR UPDATE OR DELETE"
    yield spill_function(subject)
    yield row_function(subject)
    yield commit_function(subject)
    yield end_function(subject)
    for name, moment, word in (("cigrelk:1", "INSTEAD OF", "row"), ("cigrelk:2", "AFTER", "end")):
        each = "ROW" if word == "row" else "STATEMENT"
        text = f"{moment} {events} ON {view} FOR EACH {each} EXECUTE FUNCTION {subject.inner(word)}()"
        yield objects.trigger(name, view, text, subject.comment("edits the view"), (f"view {view}", f"function {subject.inner(word)}()"))


def edit_objects(subject):
    """All functions and triggers of a table or a view."""
    yield inner_preview(subject)
    yield whole_edit(subject)
    yield from plain_functions(subject)
    yield inner_edit(subject)
    yield public_function(subject, "preview", "what an edit would change in each table", "STABLE")
    yield public_function(subject, "edit", "makes an edit, and returns what it changed in each table")
    yield json_function(subject)
    if not subject.is_table:
        yield from trigger_objects(subject)
