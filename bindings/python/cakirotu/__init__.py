"""Lists blocks of an x86 routine's record as pseudocode, by Cakirotu's proved library.

    >>> import cakirotu
    >>> for line in cakirotu.list(cakirotu.routine(150)):
    ...     tokens = [(token.kind.name, token.text) for token in line.tokens]

Any bytes may be given as a record, as rows or as a literal: each call ends with what is asked for or raises Refused, with the number
of the first question that got a no. What is given is copied, so nothing is owed: it may be changed at any time, and threads may call at
once, each with 512 KiB of stack or more. Functions have the names of the Rust crate's, and docs/BINDINGS.md says what each promises.
"""

from ._assumption import Assumption, check
from ._columns import from_columns, to_columns
from ._library import library_path
from ._listing import Kind, Line, Listed, Listing, Sizes, Token, blocks, list, size
from ._literal import LITERAL_BYTES, Literal, read_literal
from ._refused import QUESTIONS, Refused
from ._routine import ROUTINE_BYTES, ROUTINES, routine
from ._rows import read_rows, write_rows
from ._table import command_table

__all__ = [
    "Assumption", "Kind", "LITERAL_BYTES", "Line", "Listed", "Listing", "Literal", "QUESTIONS", "ROUTINES", "ROUTINE_BYTES", "Refused",
    "Sizes", "Token", "blocks", "check", "command_table", "from_columns", "library_path", "list", "read_literal", "read_rows", "routine",
    "size", "to_columns", "write_rows",
]
