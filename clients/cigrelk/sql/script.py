"""The script that makes everything in one transaction, and keeps a list of what it made.

The list is the table "Installed" of the inner schema. An object stays if its text and the texts of all objects that it is based on are
those of the list. Others are dropped, the last ones first, and the new ones are made. What someone dropped by hand is made again. The
table "Compiled" has the definitions and a version, which rises with each script that changes anything.
"""
import hashlib

from ..postgres import quoted
from . import objects
from .edits import Subject, edit_objects, many_rows_functions
from .tables import EXCLUDE_MESSAGE, check_objects, columns_statement, guard_objects, holds_now_statements, index_objects, row_view, table_object
from .words import dollar_quoted, text_literal

# The form of what the compiler makes. Another form makes all objects anew.
FORM = 2


def view_objects(subject):
    """The view that clients see, and those that are made for the sake of a row type."""
    leaves = tuple(f"view {leaf.row_type}" for leaf in subject.leaves)
    for node in subject.root.nodes():
        if node.makes_type and node.row_type != subject.place:
            yield objects.view(node.row_type, node.query(), subject.comment("rows of a part of a view"), leaves)
    yield objects.view(subject.place, subject.root.flat_query(), subject.comment("a view"), leaves)


def default_objects(subject):
    """What an INSERT into a view gives the columns that it leaves out: the defaults of the tables, if one shows the column."""
    for column, (leaf, name) in subject.root.origins().items():
        default = subject.catalogue.types_of(leaf.name).defaults.get(name)
        if default:
            place = subject.place
            there = (f"EXISTS (SELECT FROM pg_catalog.pg_attrdef D JOIN pg_catalog.pg_attribute A ON A.attrelid = D.adrelid AND A.attnum = D.adnum "
                     f"WHERE D.adrelid = to_regclass({text_literal(place)}) AND A.attname = {text_literal(column)})")
            yield objects.Made(f"default of {quoted(column)} of {place}", f"ALTER VIEW {place} ALTER COLUMN {quoted(column)} SET DEFAULT {default};",
                               f"ALTER VIEW IF EXISTS {place} ALTER COLUMN {quoted(column)} DROP DEFAULT;", there, (f"view {place}",))


def grant_objects(subject, readers, editors):
    """Who may read a view, and who may edit it too."""
    for role, is_editor in [(role, False) for role in readers] + [(role, True) for role in editors]:
        name = "PUBLIC" if role == "public" else quoted(role)
        rights = "SELECT, INSERT, UPDATE, DELETE" if is_editor else "SELECT"
        grants, revokes = [f"GRANT {rights} ON {subject.place} TO {name};"], [f"REVOKE {rights} ON {subject.place} FROM {name};"]
        based_on = [f"view {subject.place}"]
        if is_editor:
            rows = f"{subject.place}[]"
            for word, types in (("preview", f"{rows}, {rows}, boolean"), ("edit", f"{rows}, {rows}, boolean"), ("json_edit", "jsonb, jsonb")):
                signature = f"{subject.public(word)}({types})"
                grants.append(f"GRANT EXECUTE ON FUNCTION {signature} TO {name};")
                revokes.append(f"REVOKE EXECUTE ON FUNCTION {signature} FROM {name};")
                based_on.append(f"function {signature}")
        there = f"EXISTS (SELECT FROM pg_catalog.pg_class C CROSS JOIN LATERAL aclexplode(C.relacl) G WHERE C.oid = to_regclass({text_literal(subject.place)}) AND G.grantee = " + (
            "0" if role == "public" else f"to_regrole({text_literal(quoted(role))})") + ")"
        yield objects.Made(f"rights of {name} on {subject.place}", " ".join(grants), "\n".join(guarded(line, subject) for line in revokes), there, tuple(based_on))


def guarded(statement, subject):
    """A statement that is passed over if the view or a function is gone."""
    text = f"BEGIN {statement} EXCEPTION WHEN undefined_table OR undefined_function OR undefined_object THEN NULL; END "
    return f"DO {dollar_quoted(text)};"


def all_objects(compiling, readers=(), editors=()):
    """All objects in an order in which each stands behind what it is based on."""
    catalogue, wanted = compiling.catalogue, compiling.looks.wanted
    subjects = [Subject(compiling, name) for name in catalogue.texts]
    edits = [(subject, list(edit_objects(subject))) for subject in subjects]
    guards = [made for leaf in catalogue.leaves.values() for made in guard_objects(compiling, leaf)]
    for leaf in catalogue.leaves.values():
        if not compiling.existing:
            yield table_object(leaf, wanted)
        yield row_view(catalogue, leaf)
        if not compiling.existing:
            yield from check_objects(catalogue, leaf)
        yield from index_objects(catalogue, leaf, wanted)
        yield from many_rows_functions(compiling, leaf)
    for subject in subjects:
        if not subject.is_table:
            yield from view_objects(subject)
            yield from default_objects(subject)
    for subject, found in edits:
        yield from found
        if not subject.is_table:
            yield from grant_objects(subject, readers, editors)
    yield from guards


def marked(all_made):
    """Objects, each with a hash of its text and of all that it is based on."""
    marks = {}
    for made in all_made:
        below = "".join(marks.get(name, "") for name in made.based_on)
        marks[made.name] = hashlib.sha256(f"{FORM}\0{made.make}\0{below}".encode()).hexdigest()[:32]
        yield made, marks[made.name]


def head(role):
    lines = ["-- Made by cigrelk compile. It may be run again: what is the same stays.", "BEGIN;", "SET LOCAL client_min_messages = warning;",
             "SET LOCAL standard_conforming_strings = on;"]
    if role:
        lines.append(f"SET LOCAL ROLE {quoted(role)};")
    # Two scripts at once would both make everything.
    lines.append("DO 'BEGIN PERFORM pg_catalog.pg_advisory_xact_lock(pg_catalog.hashtextextended(''cigrelk compile'', 0)); END';")
    return lines


def script(compiling, readers=(), editors=(), role=None):
    """The whole script."""
    catalogue = compiling.catalogue
    inside, installed, compiled = quoted(catalogue.inside), catalogue.own("Installed"), catalogue.own("Compiled")
    found = list(marked(all_objects(compiling, readers, editors)))
    lines = head(role)
    lines += [f"CREATE SCHEMA IF NOT EXISTS {inside};",
              f'CREATE TABLE IF NOT EXISTS {installed} ("Place" integer NOT NULL, "Name" text PRIMARY KEY, "Mark" text NOT NULL, "Drop" text NOT NULL);',
              f'CREATE TABLE IF NOT EXISTS {compiled} ("Version" integer NOT NULL, "Form" integer NOT NULL, "Isolation" text NOT NULL, "At" timestamptz NOT NULL, "Definitions" text[] NOT NULL);',
              f"COMMENT ON TABLE {installed} IS 'what cigrelk compile has made, in the order in which it was made';",
              f"COMMENT ON TABLE {compiled} IS 'the definitions that cigrelk compile has compiled, and how often they were changed';"]
    if compiling.exclude:
        lines.append(f"DO {dollar_quoted(needs_extension())};")
    lines.append('CREATE TEMPORARY TABLE "cigrelk:wanted" ("Place" integer, "Name" text PRIMARY KEY, "Mark" text, "Make" text, "Drop" text, "There" text) ON COMMIT DROP;')
    for place, (made, mark) in enumerate(found):
        lines.append(f'INSERT INTO pg_temp."cigrelk:wanted" VALUES ({place}, {text_literal(made.name)}, {text_literal(mark)}, {dollar_quoted(made.make)}, {dollar_quoted(made.drop)}, {dollar_quoted(made.there)});')
    for leaf in catalogue.leaves.values():
        if not compiling.existing:
            # Its columns are looked at before anything is based on it.
            lines += [table_object(leaf, compiling.looks.wanted).make]
        lines.append(columns_statement(leaf, compiling.existing))
    tests = " ".join(statement for leaf in catalogue.leaves.values() for statement in holds_now_statements(leaf))
    definitions = "ARRAY[" + ", ".join(map(text_literal, catalogue.texts.values())) + "]::text[]"
    lines.append(f"DO {dollar_quoted(changing_text(installed, compiled, tests, definitions, compiling.isolation))};")
    lines.append("COMMIT;")
    return "\n".join(lines) + "\n"


def needs_extension():
    found = "SELECT FROM pg_catalog.pg_extension WHERE extname = 'btree_gist'"
    return f"BEGIN IF NOT EXISTS ({found}) THEN RAISE EXCEPTION USING MESSAGE = {text_literal(EXCLUDE_MESSAGE)}; END IF; END "


def changing_text(installed, compiled, tests, definitions, isolation):
    """The block that drops and makes what differs."""
    return f"""
DECLARE "O" record; "Changed" boolean := false; "There" boolean; "Rights" text[] := '{{}}'; "Right" text;
BEGIN
  -- What is no more there is made again.
  FOR "O" IN SELECT W."Name", W."There" FROM pg_temp."cigrelk:wanted" W JOIN {installed} I USING ("Name") LOOP
    BEGIN
      EXECUTE 'SELECT ' || "O"."There" INTO "There";
    EXCEPTION WHEN undefined_object OR invalid_schema_name THEN
      -- A type of an argument is gone.
      "There" := false;
    END;
    IF NOT "There" THEN
      DELETE FROM {installed} WHERE "Name" = "O"."Name";
      "Changed" := true;
    END IF;
  END LOOP;
  -- Rights that were granted on what is made anew are granted again.
  SELECT array_agg(format('GRANT %s ON %s %s TO %s%s', G.privilege_type, C.what, C.name, CASE WHEN G.grantee = 0 THEN 'PUBLIC' ELSE G.grantee::regrole::text END,
      CASE WHEN G.is_grantable THEN ' WITH GRANT OPTION' ELSE '' END)) INTO "Rights"
    FROM {installed} I
    CROSS JOIN LATERAL (
      SELECT 'TABLE' AS what, substr(I."Name", 6) AS name, relacl AS acl, relowner AS owner FROM pg_catalog.pg_class WHERE I."Name" LIKE 'view %' AND oid = to_regclass(substr(I."Name", 6))
      UNION ALL
      SELECT 'FUNCTION', substr(I."Name", 10), proacl, proowner FROM pg_catalog.pg_proc WHERE I."Name" LIKE 'function %' AND oid = to_regprocedure(substr(I."Name", 10))) C
    CROSS JOIN LATERAL aclexplode(C.acl) G
    WHERE G.grantee <> C.owner AND EXISTS (SELECT FROM pg_temp."cigrelk:wanted" W WHERE W."Name" = I."Name" AND W."Mark" <> I."Mark");
  FOR "O" IN SELECT I."Name", I."Drop" FROM {installed} I LEFT JOIN pg_temp."cigrelk:wanted" W USING ("Name") WHERE W."Mark" IS DISTINCT FROM I."Mark" ORDER BY I."Place" DESC LOOP
    IF "O"."Drop" <> '' THEN
      EXECUTE "O"."Drop";
    END IF;
    DELETE FROM {installed} WHERE "Name" = "O"."Name";
    "Changed" := true;
  END LOOP;
  FOR "O" IN SELECT W.* FROM pg_temp."cigrelk:wanted" W LEFT JOIN {installed} I USING ("Name") WHERE I."Name" IS NULL ORDER BY W."Place" LOOP
    EXECUTE "O"."Make";
    INSERT INTO {installed} VALUES ("O"."Place", "O"."Name", "O"."Mark", "O"."Drop");
    "Changed" := true;
  END LOOP;
  FOREACH "Right" IN ARRAY coalesce("Rights", '{{}}') LOOP
    EXECUTE "Right";
  END LOOP;
  UPDATE {installed} I SET "Place" = W."Place" FROM pg_temp."cigrelk:wanted" W WHERE W."Name" = I."Name" AND W."Place" <> I."Place";
  IF "Changed" OR NOT EXISTS (SELECT FROM {compiled} WHERE "Definitions" = {definitions} AND "Isolation" = {text_literal(isolation)}) THEN
    {tests or 'NULL;'}
    INSERT INTO {compiled} SELECT coalesce(max("Version"), 0) + 1, {FORM}, {text_literal(isolation)}, now(), {definitions} FROM {compiled};
    DELETE FROM {compiled} WHERE "Version" < (SELECT max("Version") FROM {compiled});
  END IF;
END """


def removing_script(catalogue_inside, role=None):
    """Drops all that scripts made for a schema. Tables stay, with their rows and keys."""
    inside = quoted(catalogue_inside)
    installed, compiled = f'{inside}."Installed"', f'{inside}."Compiled"'
    text = f"""
DECLARE "O" record;
BEGIN
  IF to_regclass({text_literal(installed)}) IS NULL THEN
    RAISE EXCEPTION USING MESSAGE = {text_literal(f'nothing is installed in {catalogue_inside}')};
  END IF;
  FOR "O" IN SELECT "Drop" FROM {installed} WHERE "Drop" <> '' ORDER BY "Place" DESC LOOP
    EXECUTE "O"."Drop";
  END LOOP;
  DROP TABLE {installed};
  DROP TABLE {compiled};
  DROP SCHEMA {inside};
END """
    return "\n".join([*head(role), f"DO {dollar_quoted(text)};", "COMMIT;"]) + "\n"
