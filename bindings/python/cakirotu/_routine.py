"""All small routines, by number, as records for tests."""

from ._library import U8, given_number, invoke, room

# How many there are: 2 of one block, 18 of two and 256 of three.
ROUTINES = 276

# The most bytes that the record of one has.
ROUTINE_BYTES = 405


def routine(number):
    """A small routine as a record that every question accepts. Refused, with 18, is a number that is not 0 to 275."""
    out = room(U8, ROUTINE_BYTES)
    [count] = invoke("routine", [given_number(number), out], 1)
    return out[:count].tobytes()
