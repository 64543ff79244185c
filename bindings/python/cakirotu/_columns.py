"""A record's instructions by columns, for a store, and back."""

from ._library import U8, given_bytes, invoke, room


def to_columns(record):
    """The record with its instruction bodies by columns, as bytes: byte 0 of every body, then byte 1, up to byte 91, and all else in place.
    A refusal is one of the first four: nothing else is asked of the record."""
    return _rearranged("to_columns", record)


def from_columns(stored):
    """The way back, likewise: what to_columns gave comes back byte for byte."""
    return _rearranged("from_columns", stored)


def _rearranged(way, record):
    record = given_bytes(record)
    out = room(U8, len(record))
    [count] = invoke(way, [record, out], 1)
    return out[:count].tobytes()
