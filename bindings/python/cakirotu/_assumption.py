"""Whether a listing may be followed."""

from enum import IntEnum

from ._library import given_bytes, invoke

_TEXTS = {
    1: "there is at least one block",
    2: "jumps, conditional branches and returns stand only last in a block",
    3: "no last instruction is skip-marked",
    4: "no setcc or cmovcc has a near branch",
    5: "no edge is Case",
    6: "no atlas entry has a block's start as its address",
    7: "no atlas or mnemonic 0 name begins with loc_",
    8: "no mnemonic 0 name is do, if, goto or return",
    9: "a direct jump to a block of the record has its one Uncond edge to that block",
    10: "a block that does not end in a jmp or return has the next block as its one Fall or False edge",
    11: "every conditional branch goes to a block of the record",
    12: "every goto to a block names a label that stands in the listing",
}


class Assumption(IntEnum):
    """What must hold of a record so that following its listing leads where the processor goes. A reader that takes the kinds of tokens into
    account may do without CASES, NAMES and WORDS."""

    BLOCKS = 1
    TURNS = 2
    MARKS = 3
    SETS = 4
    CASES = 5
    STARTS = 6
    NAMES = 7
    WORDS = 8
    JUMPS = 9
    FALLS = 10
    BRANCHES = 11
    LABELS = 12

    @property
    def text(self):
        """What is assumed."""
        return _TEXTS[self.value]

    def __str__(self):
        return f"breaks {self.value}: {self.text}"


def check(record):
    """None if the listing of the whole record may be followed, else the first Assumption that does not hold."""
    [number] = invoke("check", [given_bytes(record)], 1)
    return Assumption(number) if number else None
