"""The command table of a listing, for a keyer."""

from array import array

from ._library import U8, U64, given_text, invoke, room
from ._listing import Lists
from ._literal import LITERAL_BYTES


def command_table(lines, call, register):
    """For each call by a name, in order, a pair: the call's address, and the bytes that the register was set to, or None if none are found.

    Both names are text or bytes, as a listing has them. Refused are an empty name, with 19, and, with 16, lines that rows cannot carry.
    docs/KEYER.md says where the bytes come from and what a table does not tell.
    """
    lists = Lists.of(lines)
    count = lists.sizes().lines
    made, rows, addresses = room(U8, LITERAL_BYTES * count), room(U64, count), room(U64, count)
    given = [*lists, array(U64, lists.sizes()), given_text(call), given_text(register), made, rows, addresses]
    _, count = invoke("command_table", given, 2)
    return _pairs(made, rows[:count], addresses)


def _pairs(made, rows, addresses):
    """A row is twice the place behind its bytes, plus 1 if none were found."""
    pairs, first = [], 0
    for row, address in zip(rows, addresses):
        end, none = divmod(row, 2)
        pairs.append((address, None if none else made[first:end].tobytes()))
        first = end
    return pairs
