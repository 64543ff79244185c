"""The numbers of refusals."""

# Each question by its number, in the order in which they are asked, in the words of the Rust crate.
QUESTIONS = {
    1: "Are there at least 24 bytes?",
    2: "Are bits 16, 32 or 64, the convention 0 or 1, the shift mark 0 or 1, and the shift 0 if not given?",
    3: "At most 200 blocks, 500 instructions, 600 edges, 200 atlas entries, 32 spans, 4,000 text bytes, indent 55?",
    4: "Is the length what the header's sizes say?",
    5: "Do the blocks' counts total the header's, and is each label mark 0 or 1?",
    6: "Do all blocks start at different addresses?",
    7: "Is each edge of kind 0 to 4?",
    8: "Is every field of each instruction, and the frame register, one that can be recorded?",
    15: "Has each block that ends in a conditional near branch one True edge, to the branch's target, and any other block none?",
    9: "Do atlas addresses rise, are kinds 1 to 3, do lengths total the header's, are strings ASCII, names printable and not empty?",
    10: "Is each span's first address at most its last?",
    11: "Is the range one of the record's?",
    17: "Is the token of kind 5, with a text that a listing has for a string?",
    18: "Is the number of a small routine below 276?",
    19: "Is neither the call's nor the register's name empty?",
    16: "Are the bytes rows, or do the lists hold lines that rows can carry?",
    12: "Is the list for text or bytes long enough?",
    13: "Are the lists for tokens, or for a table's rows, long enough?",
    14: "Are the lists for lines, or for a table's addresses, long enough?",
}


class Refused(Exception):
    """The first question that a call got a no to: `number`, and the `question` in words."""

    def __init__(self, number):
        super().__init__(number)
        self.number = number

    @property
    def question(self):
        return QUESTIONS[self.number]

    def __str__(self):
        return f"no {self.number}: {self.question}"
