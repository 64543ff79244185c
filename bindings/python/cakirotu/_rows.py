"""A listing as rows, comma-separated values after RFC 4180, and back."""

from array import array

from ._library import U8, U64, given_bytes, invoke, room
from ._listing import Listing, Lists, Sizes


def write_rows(lines):
    """The rows of a listing, or of any lines, as bytes.

    Refused, with 16, are only lines that rows cannot carry: one without tokens, with an empty token, or with indent 255. No listing of this
    library has such. What is no line raises TypeError, ValueError or OverflowError.
    """
    lists = Lists.of(lines)
    out = room(U8, _most_bytes(lists.sizes()))
    [count] = invoke("write_rows", [*lists, array(U64, lists.sizes()), out], 1)
    return out[:count].tobytes()


def read_rows(rows):
    """The Listing of rows: just those bytes are accepted that can be written. The only refusal is 16."""
    rows = given_bytes(rows)
    lists = Lists.room(_most_sizes(len(rows)))
    return Listing(lists.lines_of(Sizes(*invoke("read_rows", [rows, *lists], 3))))


def _most_bytes(sizes):
    """A line has at most 16 digits of address, 3 of indent and 5 of place, two commas, CR and LF; a token two commas, a letter and two quotes
    beside its text, in which every byte may be a quote."""
    return 2 * sizes.text + 5 * sizes.tokens + 28 * sizes.lines


def _most_sizes(count):
    """A token has at least `,X,"x"`, a line `,0,0` before its first token and CR LF behind its last."""
    return Sizes(count, count // 6, count // 12)
