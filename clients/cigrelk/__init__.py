"""A client of Cigrelk in Python's standard library.

It starts the program, sends it requests, and gives rows, changes, and refusals as exceptions:

    from cigrelk import Server, OffPredicate

    with Server("shop.db") as server:
        server.define("table goods (name text, quantity int) with name -> quantity")
        big = server.define("view big = select from goods where quantity > 2")
        big.edit(add=[{"name": "axe", "quantity": 7}])
        rows = big.read()
        try:
            big.edit(remove=rows, add=[{**rows[0], "quantity": 2}], on=rows)
        except OffPredicate as refusal:
            print(refusal)

The program is the one that CIGRELK names in the environment, or else `serve` of the clone that this package lies in.
"""
from .completion import Completion
from .csv_files import is_field, records_of
from .errors import CommandError
from .kinds import LEAST_INT, MOST_INT, MOST_TEXT, WANTED, base, fits, is_nullable, value_of, without_quotes
from .language import (
    COMPARISONS, JOINS, All, Among, Any, Column, Compare, Drop, IsNull, Join, Named, Not, Reader, Rename, Select, Table, Truth,
    UnknownForm, columns_of, condition_of, defined, expanded, parsed, path_to, shown_columns, tables_in,
)
from .process import TOP, Ended, NotStarted, Program, ReplyLost
from .proposals import NotProposal, Proposal, Review, proposals
from .reasons import Reasons
from .refusals import (
    REFUSALS, BadRecord, BadRequest, BadRow, Busy, ChangedSince, Clash, ColumnTaken, DefaultRefused, HubClosing, KindClash, MixedConjunct,
    NameTaken, NoJournal, NoRight, NoSuchDependency, NotDetermined, NothingToUndo, NotJson, NotThrough, NoToken, NotTree, NullableColumn,
    OffPredicate, OtherTable, OutcomeUnknown, OutOfMemory, PredicateKind, Refused, SideMentionsOutput, SourceMentionsOutput, Stale,
    StoreFault, Syntax, TableTwice, TooLarge, TooLong, UnknownColumn, UnknownName,
    refusal, stale,
)
from .remote import Remote, Unreachable
from .rows import Change, CsvText, Fault, Rows, key_of, values
from .server import Server, View
from .store_files import InUse, NotStore, private_copy
from .texts import cell, counted, listing, plain, short, sides, table, words_of
