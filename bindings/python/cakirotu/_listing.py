"""A record's listing, line by line."""

from array import array
from enum import IntEnum
from typing import NamedTuple, Optional, Tuple

from ._library import U8, U16, U32, U64, given_bytes, given_number, given_text, invoke, room

# A mark has the indent below this, and this if the line has an address.
_ADDRESSED = 256


class Kind(IntEnum):
    """What a token is: SYMBOL is a name, a label, or an address with its prefix; ADDRESS is a string's literal."""

    TEXT = 0
    REGISTER = 1
    NUMBER = 2
    KEYWORD = 3
    SYMBOL = 4
    ADDRESS = 5
    PUNCT = 6
    PREFIX = 7


class Token(NamedTuple):
    """A piece of a line. Its text is that of a listing, ASCII but for the mark of a long string; rows may carry any bytes, of which those
    that are not UTF-8 are escaped by lone surrogates, as in file names, and come back as they were."""

    kind: Kind
    text: str


class Line(NamedTuple):
    """A line of a listing: its address or None, its indent, the place of its block in the record, and its tokens.

    The place counts blocks as `blocks` does, in a listing of some of them too. A lone closing brace has that of the block whose branch
    opened it, a while-line that of the loop's last block.
    """

    address: Optional[int]
    indent: int
    place: int
    tokens: Tuple[Token, ...]

    @property
    def text(self):
        """The line without address and indent."""
        return "".join(token.text for token in self.tokens)


class Sizes(NamedTuple):
    """How long a listing is: bytes of text, tokens, lines."""

    text: int
    tokens: int
    lines: int


class Listed(NamedTuple):
    """A listing's sizes, and its looks: how many edges are read to find loops, if-regions and labels, each as often as it is read."""

    sizes: Sizes
    looks: int


class Listing(tuple):
    """The lines of a listing, in order. `looks` is as Listed has it, and None of a listing that was read from rows."""

    looks = None

    @property
    def sizes(self):
        return Lists.of(self).sizes()


def blocks(record):
    """All blocks that a record's header speaks of, as a range; none if there is no header, so that a call for them is refused."""
    return range(int.from_bytes(given_bytes(record)[4:6].tobytes().ljust(2, b"\0"), "little"))


def size(record, blocks=None):
    """The sizes and looks of the listing of some blocks, as Listed: `blocks` is a range or a pair of places, None for all."""
    *sizes, looks = invoke("size", [given_bytes(record), *_places(record, blocks)], 4)
    return Listed(Sizes(*sizes), looks)


def list(record, blocks=None):  # pylint: disable=redefined-builtin
    """The Listing of some blocks: `blocks` is a range or a pair of places, the last one not included, and None for all."""
    record = given_bytes(record)
    places = _places(record, blocks)
    lists = Lists.room(size(record, places).sizes)
    *sizes, looks = invoke("list", [record, *places, *lists], 4)
    listing = Listing(lists.lines_of(Sizes(*sizes)))
    listing.looks = looks
    return listing


def _places(record, given):
    """The first place and the one behind the last, as numbers that the library takes."""
    if given is None:
        given = blocks(record)
    if isinstance(given, range):
        if given.step != 1:
            raise ValueError("blocks are listed one after another: a range has no steps")
        given = given.start, given.stop
    begin, end = given
    return given_number(begin), given_number(end)


class Lists(NamedTuple):
    """The seven lists that the library's functions take, as docs/BINDINGS.md has them."""

    text: array
    ends: array
    kinds: array
    addresses: array
    marks: array
    places: array
    lines: array

    @classmethod
    def room(cls, sizes):
        text, tokens, lines = sizes
        return cls(room(U8, text), room(U32, tokens), room(U8, tokens), room(U64, lines), room(U16, lines), room(U16, lines), room(U32, lines))

    @classmethod
    def of(cls, lines):
        """Lists of just the size that lines need. Raises TypeError, ValueError or OverflowError if these are no lines."""
        lists = cls.room(Sizes(0, 0, 0))
        for line in lines:
            address, indent, place, tokens = line
            for kind, text in tokens:
                lists._add_token(kind, text)
            lists._add_line(address, indent, place)
        return lists

    def _add_token(self, kind, text):
        self.text.extend(given_text(text))
        self.ends.append(len(self.text))
        self.kinds.append(Kind(kind))

    def _add_line(self, address, indent, place):
        if not 0 <= indent < _ADDRESSED:
            raise ValueError(f"{indent} is no indent")
        self.addresses.append(0 if address is None else address)
        self.marks.append(indent if address is None else indent + _ADDRESSED)
        self.places.append(place)
        self.lines.append(len(self.ends))

    def sizes(self):
        return Sizes(len(self.text), len(self.ends), len(self.lines))

    def lines_of(self, sizes):
        """The lines that a call with these sizes left in the lists."""
        text, tokens, first = self.text.tobytes(), [], 0
        for end, kind in zip(self.ends[: sizes.tokens], self.kinds):
            tokens.append(Token(Kind(kind), text[first:end].decode("utf-8", "surrogateescape")))
            first = end
        first = 0
        for at in range(sizes.lines):
            addressed, indent = divmod(self.marks[at], _ADDRESSED)
            address = self.addresses[at] if addressed else None
            yield Line(address, indent, self.places[at], tuple(tokens[first : self.lines[at]]))
            first = self.lines[at]
