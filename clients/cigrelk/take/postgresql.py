"""Tables of a PostgreSQL: what they are, and their rows as a store takes them."""
from ..errors import CommandError
from ..postgres import Connection, literal, quoted
from .definitions import number_name, number_statement
from .rules import bad_in_postgresql, in_postgresql
from .sources import Column, ForeignKey, SourceTable

TABLES = """
SELECT c.relname AS name, (
    SELECT json_agg(json_build_object('name', a.attname, 'null', NOT a.attnotnull,
      'type', CASE WHEN t.typtype = 'e' THEN 'enum' ELSE format_type(t.oid, NULL) END, 'full', format_type(a.atttypid, a.atttypmod),
      'values', (SELECT json_agg(enumlabel ORDER BY enumsortorder) FROM pg_enum WHERE enumtypid = t.oid),
      'problem', CASE WHEN a.attgenerated <> '' THEN 'it is generated' WHEN NOT l.collisdeterministic THEN 'its collation takes texts for equal that are not' END,
      'fixed', a.attidentity = 'a',
      'default', CASE WHEN a.attidentity <> '' THEN format('nextval(%L::regclass)', pg_get_serial_sequence(c.oid::regclass::text, a.attname))
        WHEN a.attgenerated = '' THEN pg_get_expr(d.adbin, d.adrelid) END) ORDER BY a.attnum)
    FROM pg_attribute a JOIN pg_type t ON t.oid = a.atttypid LEFT JOIN pg_collation l ON l.oid = a.attcollation
      LEFT JOIN pg_attrdef d ON d.adrelid = a.attrelid AND d.adnum = a.attnum
    WHERE a.attrelid = c.oid AND a.attnum > 0 AND NOT a.attisdropped) AS columns,
  (SELECT coalesce(json_agg(json_build_object('kind', k.contype, 'text', pg_get_constraintdef(k.oid),
      'columns', (SELECT json_agg(a.attname ORDER BY n.place) FROM unnest(k.conkey) WITH ORDINALITY n(num, place)
                  JOIN pg_attribute a ON a.attrelid = k.conrelid AND a.attnum = n.num),
      'to', f.relname, 'to_columns', (SELECT json_agg(a.attname ORDER BY n.place) FROM unnest(k.confkey) WITH ORDINALITY n(num, place)
                  JOIN pg_attribute a ON a.attrelid = k.confrelid AND a.attnum = n.num)) ORDER BY k.contype = 'p' DESC, k.conname), '[]')
    FROM pg_constraint k LEFT JOIN pg_class f ON f.oid = k.confrelid WHERE k.conrelid = c.oid) AS constraints,
  (SELECT coalesce(json_agg(tgname), '[]') FROM pg_trigger WHERE tgrelid = c.oid AND NOT tgisinternal AND tgname NOT LIKE 'cigrelk:%') AS triggers
FROM pg_class c JOIN pg_namespace n ON n.oid = c.relnamespace
WHERE n.nspname = SCHEMA AND c.relkind IN ('r', 'p') AND NOT c.relispartition ORDER BY c.relname
"""
# How many rows are fetched at once.
BATCH = 10_000


class PostgreSQL:
    """The tables of a schema, as they are at one moment."""

    def __init__(self, address, schema):
        self.schema, self.connection = schema, Connection(address)
        self.read()

    def read(self):
        """Reads what the tables are, and begins the transaction in which their rows are read."""
        # One snapshot for all tables; what type a value has is read in one way.
        self.connection.ask("BEGIN ISOLATION LEVEL REPEATABLE READ READ ONLY", "SET LOCAL extra_float_digits = 1", "SET LOCAL intervalstyle = 'postgres'", "SET LOCAL bytea_output = 'hex'")
        self.tables = [self.described(row) for row in self.connection.rows(TABLES.replace("SCHEMA", literal(self.schema)))]
        if not self.tables:
            raise CommandError(f"the schema {self.schema} has no table")

    def described(self, row):
        columns = tuple(Column(one["name"], one["type"], one["full"], one["null"], one["default"], tuple(one["values"] or ()), one["problem"], one["fixed"]) for one in row["columns"] or ())
        of_kind = lambda *kinds: [one for one in row["constraints"] if one["kind"] in kinds]
        foreign = tuple(ForeignKey(tuple(one["columns"]), one["to"], tuple(one["to_columns"])) for one in of_kind("f"))
        checks = tuple(one["text"][len("CHECK ("):-1] for one in of_kind("c") if one["text"].endswith(")"))
        remarks = [f"{one['text']} is kept by the database alone" for one in of_kind("x", "t")]
        remarks += [f"the trigger {name} runs on what an edit changes; if it changes these tables, the views do not show what was sent" for name in row["triggers"]]
        return SourceTable(row["name"], columns, tuple(tuple(one["columns"]) for one in of_kind("p", "u")), foreign, checks, tuple(remarks))

    def number(self, tables):
        """Numbers the rows of tables in a column of their own, all in one transaction, and returns the statements that did it."""
        statements = [number_statement(self.place(table), number_name(table.name, {column.name for column in table.columns}), bool(table.keys)) for table in tables]
        self.connection.ask("COMMIT")
        self.connection.ask("BEGIN", *statements, "COMMIT")
        self.read()
        return statements

    def place(self, table):
        return f"{quoted(self.schema)}.{quoted(table.name)}"

    def count(self, table):
        return self.connection.values(f"SELECT count(*) FROM {self.place(table)}")[0]

    def problems(self, table, taken):
        """Columns with values that their rule cannot keep, each with how many there are and what they are."""
        for column in taken:
            condition, what = bad_in_postgresql(column.rule, quoted(column.source.name))
            if condition and (number := self.connection.values(f"SELECT count(*) FROM {self.place(table)} WHERE {condition}")[0]):
                yield column.source.name, number, what

    def batches(self, table, taken, surrogate=None):
        """The rows as texts of JSON, some at a time."""
        parts = [f"{literal(column.name)}, {in_postgresql(column.rule, quoted(column.source.name))}" for column in taken if not column.is_surrogate]
        if surrogate:
            parts.append(f"{literal(surrogate)}, row_number() OVER ()")
        self.connection.ask(f"DECLARE taken NO SCROLL CURSOR FOR SELECT json_build_object({', '.join(parts)}) FROM {self.place(table)}")
        while rows := self.fetch():
            yield rows
        self.connection.ask("CLOSE taken")

    def fetch(self):
        # A text of JSON has no line ends, so psql prints it as it is.
        return [line.rstrip("\n") for line in self.connection.ask(f"FETCH {BATCH} FROM taken")]

    def close(self):
        self.connection.close()
