"""A string back from its literal in a listing."""

from typing import NamedTuple

from ._library import U8, given_text, invoke, room
from ._listing import Kind

# The most bytes that a literal gives.
LITERAL_BYTES = 80


class Literal(NamedTuple):
    """The string of a literal: a byte for each character, of a wide string too; of one that was cut the first 80."""

    bytes: bytes
    wide: bool
    cut: bool


def read_literal(token):
    """The Literal of a token. Refused, with 17, is every token but those that a listing has for a string; a string of at most 80 characters
    comes back as it was."""
    kind, text = token
    out = room(U8, LITERAL_BYTES)
    count, wide, cut = invoke("read_literal", [Kind(kind), given_text(text), out], 3)
    return Literal(out[:count].tobytes(), bool(wide), bool(cut))
