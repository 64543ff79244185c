"""Records by columns and back, and all small routines."""

import hashlib
import random
import unittest

import cakirotu
from common import EXAMPLES, NAMES, number, page, record

# How many bytes a record's header has.
HEADER = 24


class Columns(unittest.TestCase):
    def test_every_example_comes_back_both_ways(self):
        changed = 0
        for name in NAMES:
            some = record(name)
            stored = cakirotu.to_columns(some)
            self.assertEqual(cakirotu.from_columns(stored), some, name)
            self.assertEqual(cakirotu.to_columns(cakirotu.from_columns(some)), some, name)
            self.assertEqual(sorted(stored), sorted(some), name)
            changed += stored != some
        self.assertGreater(changed, 20)

    def test_any_bytes_behind_the_header_come_back(self):
        chance = random.Random(110)
        for name in NAMES:
            some = record(name)
            some = some[:HEADER] + bytes(chance.randrange(256) for _ in some[HEADER:])
            self.assertEqual(cakirotu.from_columns(cakirotu.to_columns(some)), some, name)

    def test_only_the_first_four_questions_are_asked(self):
        worked = record("worked")
        for some, wanted in ((b"", 1), (bytes(24), 2), (worked[:-1], 4), (record("refused"), None)):
            self.assertEqual(number(cakirotu.to_columns, some), wanted)
            self.assertEqual(number(cakirotu.from_columns, some), wanted)


class Routines(unittest.TestCase):
    def test_every_routine_its_listing_and_its_rows_are_the_stored_ones(self):
        stored = (EXAMPLES / "routines.sums").read_text().splitlines()
        self.assertEqual(len(stored), cakirotu.ROUTINES)
        for k, line in enumerate(stored):
            some = cakirotu.routine(k)
            listing = cakirotu.list(some)
            parts = some, page(listing), cakirotu.write_rows(listing)
            sums = [hashlib.sha256(part).hexdigest()[:16] for part in parts]
            self.assertEqual(" ".join([str(k), *sums]), line)

    def test_other_numbers_are_refused(self):
        self.assertEqual(max(len(cakirotu.routine(k)) for k in range(cakirotu.ROUTINES)), cakirotu.ROUTINE_BYTES)
        for k in (-1, 276, 2**32, 2**64 - 1, 2**64, 2**64 + 5, -(2**70)):
            self.assertEqual(number(cakirotu.routine, k), 18, k)
        for k in ("5", 5.0, None, b"5"):
            with self.assertRaises(TypeError):
                cakirotu.routine(k)
