"""Rows there and back."""

import random
import unittest

import cakirotu
from cakirotu import Kind, Line, Token
from common import MADE, listings, number


class Rows(unittest.TestCase):
    def test_every_example_goes_there_and_back(self):
        for name, listing in listings():
            rows = cakirotu.write_rows(listing)
            self.assertEqual(rows, (MADE / f"{name}.csv").read_bytes(), name)
            back = cakirotu.read_rows(rows)
            self.assertEqual(back, listing, name)
            self.assertIsNone(back.looks)

    def test_every_byte_of_a_text_comes_back(self):
        every = bytes(range(256)).decode("utf-8", "surrogateescape")
        lines = (Line(2**64 - 1, 254, 65535, (Token(Kind.TEXT, every), Token(Kind.PREFIX, '"'))), Line(None, 0, 0, (Token(Kind.PUNCT, "}"),)))
        rows = cakirotu.write_rows(lines)
        self.assertIn(bytes(range(256)).replace(b'"', b'""'), rows)
        self.assertEqual(cakirotu.read_rows(rows), lines)
        self.assertEqual(cakirotu.read_rows(bytearray(rows)), lines)

    def test_the_longest_rows_have_room(self):
        for tokens in (1, 2, 50):
            lines = [Line(2**64 - 1, 254, 65535, (Token(Kind.TEXT, '"' * 9),) * tokens)] * 3
            self.assertEqual(len(cakirotu.write_rows(lines)), 3 * (28 + tokens * (5 + 2 * 9)))

    def test_the_shortest_rows_have_room(self):
        line = Line(None, 0, 0, (Token(Kind.TEXT, "x"),))
        for count in (1, 2, 13):
            self.assertEqual(cakirotu.read_rows(b',0,0,X,"x"\r\n' * count), (line,) * count)

    def test_lines_that_rows_cannot_carry_are_refused(self):
        token = Token(Kind.TEXT, "x")
        self.assertIsNone(number(cakirotu.write_rows, [Line(0, 254, 0, (token,))]))
        for line in (Line(0, 255, 0, (token,)), Line(0, 0, 0, ()), Line(0, 0, 0, (Token(Kind.TEXT, ""),))):
            self.assertEqual(number(cakirotu.write_rows, [line]), 16, line)

    def test_what_is_no_line_raises(self):
        token = Token(Kind.TEXT, "x")
        for line in (Line(-1, 0, 0, (token,)), Line(2**64, 0, 0, (token,)), Line(0, 256, 0, (token,)), Line(0, -1, 0, (token,)),
                     Line(0, 0, 65536, (token,)), Line(0, 0, 0, (Token(8, "x"),)), Line(0, 0, 0, (Token(Kind.TEXT, "\ud800"),)), ()):
            with self.assertRaises((ValueError, OverflowError), msg=line):
                cakirotu.write_rows([line])
        for line in (Line("0", 0, 0, (token,)), Line(0, 1.0, 0, (token,)), Line(0, 0, 0, (Token(Kind.TEXT, 5),)), Line(0, 0, 0, None), 7, None):
            with self.assertRaises(TypeError, msg=line):
                cakirotu.write_rows([line])

    def test_changed_rows_are_refused_or_written_again_as_they_are(self):
        chance, rows, refused = random.Random(102), (MADE / "worked.csv").read_bytes(), 0
        for at in range(len(rows)):
            changed = rows[:at] + bytes([chance.randrange(256)]) + rows[at + 1 :]
            try:
                self.assertEqual(cakirotu.write_rows(cakirotu.read_rows(changed)), changed)
            except cakirotu.Refused as no:
                self.assertEqual(no.number, 16)
                refused += 1
        self.assertGreater(refused, 0)
        self.assertEqual(cakirotu.read_rows(b""), ())
