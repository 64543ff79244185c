"""Command tables against the stored ones."""

import unittest

import cakirotu
from common import EXAMPLES, MADE, listings, number


class Tables(unittest.TestCase):
    def test_every_stored_table(self):
        stored = sorted(EXAMPLES.glob("*.keyer"))
        self.assertGreater(len(stored), 10)
        for file in stored:
            call, register, table = file.read_bytes().split(b"\n", 2)
            rows = (MADE / f"{file.name.split('.')[0]}.csv").read_bytes()
            self.assertEqual(printed(rows, call, register), table, file.name)
            self.assertEqual(printed(rows, call.decode(), register.decode()), table, file.name)

    def test_a_listing_has_the_table_of_its_rows(self):
        for name, listing in listings():
            back = cakirotu.read_rows(cakirotu.write_rows(listing))
            for call in {token.text for line in listing for token in line.tokens}:
                self.assertEqual(cakirotu.command_table(listing, call, "rdx"), cakirotu.command_table(back, call, "rdx"), name)

    def test_empty_names_are_refused_before_lines_that_rows_cannot_carry(self):
        bad = [cakirotu.Line(0, 255, 0, ())]
        self.assertEqual(number(cakirotu.command_table, bad, "", "rdx"), 19)
        self.assertEqual(number(cakirotu.command_table, bad, b"Send", b""), 19)
        self.assertEqual(number(cakirotu.command_table, bad, "Send", "rdx"), 16)
        self.assertEqual(cakirotu.command_table([], "Send", "rdx"), [])
        for name in (None, 5, ["Send"]):
            with self.assertRaises(TypeError):
                cakirotu.command_table([], name, "rdx")


def printed(rows, call, register):
    """What the program `keyer` prints of these names and rows."""
    try:
        table = cakirotu.command_table(cakirotu.read_rows(rows), call, register)
    except cakirotu.Refused as refused:
        return f"no {refused.number}\n".encode()
    return "".join(f"{address:016X} {'-' if found is None else found.hex().upper()}\n" for address, found in table).encode()
