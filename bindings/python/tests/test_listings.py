"""Listings of the examples, of their blocks, and whether they may be followed."""

import csv
import threading
import unittest

import cakirotu
from cakirotu import Kind
from common import EXAMPLES, MADE, NAMES, listings, nest, number, page_or_number, record

# The letters that rows have for kinds 0 to 7.
LETTERS = "XRNKSAPF"

# What a thread that calls is asked to have: the library's 256 KiB, and as much for Python.
LEAST_STACK = 512 << 10


class Listings(unittest.TestCase):
    def test_every_example_is_listed_as_stored(self):
        self.assertGreater(len(NAMES), 30)
        for name in NAMES:
            self.assertEqual(page_or_number(record(name)), (EXAMPLES / f"{name}.listing").read_bytes(), name)

    def test_lines_and_tokens_are_those_of_another_reader(self):
        for name, listing in listings():
            with open(MADE / f"{name}.csv", newline="", encoding="utf-8") as file:
                rows = [*csv.reader(file)]
            self.assertEqual([fields(line) for line in listing], rows, name)

    def test_a_part_has_the_places_of_the_whole(self):
        worked = record("worked")
        self.assertEqual(cakirotu.blocks(worked), range(3))
        for part in (range(2, 3), (2, 3), [2, 3]):
            listing = cakirotu.list(worked, part)
            self.assertEqual([line.place for line in listing], [2, 2])
            self.assertEqual([line.text for line in listing], ["loc_1010:", "return;"])
        self.assertEqual(cakirotu.list(worked, range(0, 3)), cakirotu.list(worked))
        self.assertEqual(cakirotu.list(worked, (1, 1)), ())

    def test_sizes_and_looks(self):
        self.assertEqual(cakirotu.size(record("worked")).looks, 7)
        for name, listing in listings():
            self.assertEqual(cakirotu.size(record(name)), (listing.sizes, listing.looks), name)
            self.assertEqual(listing.sizes.lines, len(listing))

    def test_a_range_that_is_not_the_records_is_refused(self):
        worked = record("worked")
        for part in ((0, 4), (2, 1), (-1, 3), (0, -1), (2**64, 2**64 + 1), (0, 2**64), (2**64 - 1, 2**64 - 1), range(3, 2)):
            self.assertEqual(number(cakirotu.list, worked, part), 11, part)
            self.assertEqual(number(cakirotu.size, worked, part), 11, part)
        with self.assertRaises(ValueError):
            cakirotu.list(worked, range(0, 3, 2))

    def test_whether_a_listing_may_be_followed(self):
        self.assertIsNone(cakirotu.check(record("worked")))
        for assumption in cakirotu.Assumption:
            self.assertIs(cakirotu.check(record(f"follow-{assumption.value}")), assumption)

    def test_threads_list_at_once(self):
        wanted, got = [page_or_number(record(name)) for name in NAMES], [None] * 8

        def run(at):
            got[at] = [page_or_number(record(name)) for name in NAMES]

        threads = [threading.Thread(target=run, args=(at,)) for at in range(len(got))]
        for thread in threads:
            thread.start()
        for thread in threads:
            thread.join()
        self.assertEqual(got, [wanted] * len(got))

    def test_the_deepest_nest_with_little_stack(self):
        wanted, got = cakirotu.list(nest()), []
        # 198 blocks open a region and have a brace; behind them stand a goto and the return.
        self.assertEqual((wanted.sizes.lines, max(line.indent for line in wanted)), (2 * 198 + 2, 55 + 198))
        before = threading.stack_size(LEAST_STACK)
        try:
            thread = threading.Thread(target=lambda: got.append(cakirotu.list(nest())))
            thread.start()
            thread.join()
        finally:
            threading.stack_size(before)
        self.assertEqual(got, [wanted])


def fields(line):
    """A line as a row's fields."""
    address = "" if line.address is None else f"{line.address:016X}"
    pieces = [field for kind, text in line.tokens for field in (LETTERS[kind], text)]
    assert all(isinstance(token.kind, Kind) for token in line.tokens)
    return [address, str(line.indent), str(line.place), *pieces]
