"""CSV: its records, as the program reads them, and files of it as rows."""
import collections
import contextlib
import csv
import io
import os
import re
import tempfile
from typing import Callable, Dict, Iterator, List, NamedTuple, Optional, Tuple

from .errors import CommandError
from .kinds import LEAST_INT, MOST_INT, NULL, fits, is_nullable, value_of
from .texts import cell, counted, listing, plain

SEPARATORS = {",": "commas", ";": "semicolons", "\t": "tabs", "|": "bars"}
# How many lines are read between two words of progress.
LINES_OF_A_STEP = 1000


def records_of(text):
    """The records of a text of CSV, each with the line at which it begins. Raises csv.Error for what Python does not read."""
    lines, begins = csv.reader(io.StringIO(text[1:] if text.startswith("\ufeff") else text, newline="")), 1
    for fields in lines:
        if fields:
            yield begins, fields
        begins = lines.line_num + 1


def is_field(text, kind):
    """Whether a field of CSV is a value of a kind that takes no null."""
    if kind == "int":
        return bool(re.fullmatch("-?0*[0-9]{1,19}", text)) and LEAST_INT <= int(text) <= MOST_INT
    return text in ("true", "false") if kind == "bool" else kind is not None and fits(text, kind)


class Form(NamedTuple):
    """How a file of CSV is written. `null` is the text that says null; if it is None, the word null does, and a file in which an empty
    field could mean null too is not taken. `columns` has the column of the view for names of the file that are others; one that
    belongs to no column has the empty text."""

    separator: str = ","
    encoding: str = "utf-8"
    null: Optional[str] = None
    columns: Dict[str, str] = {}

    @property
    def word(self) -> str:
        return NULL if self.null is None else self.null


class OtherForm(CommandError):
    """A file is in another form than was said. `told` says what it is, without the arguments that would tell so; `form` is the form
    that it is in, or None if only a person can say."""

    def __init__(self, told: str, cure: str, form: Optional[Form] = None):
        super().__init__(told + cure)
        self.told, self.form = told, form


class EmptyFields(OtherForm):
    """A file has empty fields in columns that may be null, and it was not said whether they are."""


class FileOfRows(NamedTuple):
    """The rows of a file of CSV with the lines at which they begin, and a pair of a line and a sentence for each line that is no row."""

    numbers: List[int]
    rows: List[dict]
    faults: List[Tuple[int, str]]


def rows_of_file(path: str, view, form: Form = Form(), told: Callable[[int, int], None] = lambda done, whole: None) -> FileOfRows:
    """The rows that a file has for a table or a view. Raises CommandError if the file as a whole cannot be taken, and says what it is
    and how it can be. `told` is called with how many characters are read, and of how many."""
    with open(path, "rb") as file:
        return rows_of_text(text_of(file.read(), form), view, form, told)


def rows_of_text(text: str, view, form: Form = Form(), told: Callable[[int, int], None] = lambda done, whole: None) -> FileOfRows:
    """As `rows_of_file`, of a text of CSV."""
    kinds, source = view.columns(), io.StringIO(text, newline="")
    lines = csv.reader(source, strict=True, delimiter=form.separator)
    try:
        names = names_in(next(lines, []), text, view.name, kinds, form)
        found, empty = FileOfRows([], [], []), collections.Counter()
        begins = lines.line_num + 1
        for number, cells in enumerate(lines):
            if cells:
                add_line(found, begins, cells, names, kinds, form)
                empty.update(name for name, text in zip(names, cells) if not text and name and is_nullable(kinds[name]))
            begins = lines.line_num + 1
            if number % LINES_OF_A_STEP == 0:
                told(source.tell(), len(text))
    except csv.Error as error:
        raise CommandError(f"line {lines.line_num} is no CSV: {error}") from None
    if empty and form.null is None:
        raise ambiguous(empty)
    told(len(text), len(text))
    return found


def add_line(found, begins, cells, names, kinds, form):
    """Adds a line of a file as a row, or as a fault."""
    try:
        if len(cells) != len(names):
            raise CommandError(f"it has {counted(len(cells), 'cell')}, and the first line {len(names)}")
        row = {name: value_of(text, name, kinds[name], form.word) for name, text in zip(names, cells) if name}
        found.rows.append({name: row[name] for name in kinds})
        found.numbers.append(begins)
    except CommandError as fault:
        found.faults.append((begins, f"line {begins}: {fault}"))


def ambiguous(empty):
    """What is told of a file with empty fields that may be null or not."""
    told = listing(f"{name} is empty in {counted(number, 'row')}" for name, number in sorted(empty.items()))
    return EmptyFields(f"{told}, and may be null", ": add --null '' if an empty field is null, or --null null if only the word null is")


def text_of(data: bytes, form: Form) -> str:
    """The text of a file. Raises CommandError, with the encoding that it most likely has."""
    is_utf8 = form.encoding.lower().replace("_", "-") in ("utf-8", "utf8")
    if is_utf8 and (data[:2] in (b"\xff\xfe", b"\xfe\xff") or b"\0" in data[:2]):
        raise OtherForm("the file is in UTF-16", ": add --encoding utf-16, or save it as UTF-8", form._replace(encoding="utf-16"))
    try:
        return data.decode("utf-8-sig" if is_utf8 else form.encoding)
    except UnicodeDecodeError as error:
        line = data.count(b"\n", 0, error.start) + 1
        if not is_utf8:
            raise CommandError(f"line {line} is not in {form.encoding}: {error.reason}") from None
        likely, name = ("windows-1252", "Windows-1252") if re.search(rb"[\x80-\x9f]", data) else ("latin-1", "Latin-1")
        told = f"line {line} is not in UTF-8, and the file is most likely in {name}"
        raise OtherForm(told, f": add --encoding {likely}, or save it as UTF-8", form._replace(encoding=likely)) from None
    except LookupError:
        raise CommandError(f"there is no encoding {form.encoding}; common ones are utf-8, utf-16, latin-1 and windows-1252") from None


def names_in(header, text, name, kinds, form):
    """The columns of a view that the first line of a file names, in their order, with the empty text for one that is left out. Raises
    CommandError if they are not those of the view, each once."""
    wrong = [column for column in form.columns.values() if column and column not in kinds]
    if wrong:
        raise CommandError(f"--columns names {plain(wrong[0])}, and {name} has {', '.join(kinds)}")
    names = [form.columns.get(told, told) for told in header]
    used = [column for column in names if column]
    if sorted(used) == sorted(kinds):
        return names
    other = other_separator(header, text, form)
    if other:
        raise OtherForm(f"its columns stand between {SEPARATORS[other]}", f": add --separator '{other if other != chr(9) else 'tab'}'", form._replace(separator=other))
    if not header:
        raise CommandError(f"it is empty: the first line has to name the columns, {', '.join(kinds)}")
    twice = sorted({column for column in used if used.count(column) > 1})
    if twice:
        raise CommandError(f"its first line names the column {plain(twice[0])} twice")
    more, lacking = [told for told, column in zip(header, names) if column and column not in kinds], [column for column in kinds if column not in names]
    raise other_names(more, lacking, name, kinds, form)


def other_separator(header, text, form):
    """The separator by which the first line has more columns than by the one of the form, or None."""
    first = text.split("\n", 1)[0]
    counts = {separator: len(next(csv.reader([first], delimiter=separator), [])) for separator in SEPARATORS if separator != form.separator}
    best = max(counts, key=counts.get)
    return best if counts[best] > max(1, len(header)) else None


def other_names(more, lacking, name, kinds, form):
    """What is told of a first line that has columns which the view has not, and lacks some that it has."""
    told = [f"its first line has {listing(map(repr, more))}, which {name} has not"] if more else []
    told += [f"it lacks {listing(lacking)}, which {name} has"] if lacking else []
    told, cure, sure = f"{'; '.join(told)}; {name} has {', '.join(kinds)}", "", {}
    if more:
        bare = {re.sub("[^a-z0-9]+", "_", column.lower()).strip("_"): column for column in more}
        pairs = sure = {bare[column]: column for column in lacking if column in bare}
        if len(more) == len(lacking) == 1:
            pairs = {more[0]: lacking[0]}
        mapped = " ".join(f"'{told}={pairs.get(told, 'COLUMN' if lacking else '')}'" for told in more)
        cure = f". Add --columns {mapped}{'' if lacking else ' to leave them out'}"
    return OtherForm(told, cure, form._replace(columns={**form.columns, **sure}) if len(sure) == len(more) == len(lacking) else None)


def write_rows(file, rows, kinds: Dict[str, str], form: Form = Form()) -> None:
    """Writes rows as CSV, so that `rows_of_file` reads them as they were. Raises CommandError if a text is the one that says null."""
    writer = csv.writer(file, delimiter=form.separator)
    writer.writerow(kinds)
    if form.word == NULL:
        writer.writerows([cell(row[name], kind) for name, kind in kinds.items()] for row in rows)
        return
    for name, kind in kinds.items():
        same = sum(row[name] == form.word for row in rows) if is_nullable(kind) else 0
        if same:
            raise CommandError(f"{name} has the text {form.word!r} in {counted(same, 'row')}, which --null would make null")
    writer.writerows([form.word if row[name] is None else cell(row[name], "text" if isinstance(row[name], str) else kind) for name, kind in kinds.items()] for row in rows)


@contextlib.contextmanager
def new_file(path: str, form: Form = Form()) -> Iterator[io.TextIOBase]:
    """A file for CSV that gets its name, and takes the place of one that is there, once it is whole."""
    if os.path.exists(path) and not os.path.isfile(path):
        # A pipe, or a terminal: what comes there goes on at once.
        with open(path, "w", newline="", encoding=form.encoding) as file:
            yield file
        return
    path = os.path.realpath(path)
    folder, name = os.path.split(path)
    descriptor, made = tempfile.mkstemp(prefix=f".{name[:50]}.", dir=folder)
    try:
        with open(descriptor, "w", newline="", encoding=form.encoding) as file:
            yield file
        os.chmod(made, os.stat(path).st_mode & 0o777 if os.path.exists(path) else 0o600)
        os.replace(made, path)
    except BaseException as error:
        os.remove(made)
        if isinstance(error, UnicodeEncodeError):
            raise CommandError(f"{error.object[error.start : error.end]!r} is not in {form.encoding}: leave --encoding away for UTF-8") from None
        raise
