"""Arbitrary bytes and wrong types."""

import array
import pickle
import random
import unittest

import cakirotu
from common import NAMES, number, page_or_number, record

# What takes a record, with the numbers that it may be refused with.
OF_RECORDS = {
    cakirotu.list: {*range(1, 12), 15},
    cakirotu.size: {*range(1, 12), 15},
    cakirotu.check: {*range(1, 12), 15},
    cakirotu.to_columns: {1, 2, 3, 4},
    cakirotu.from_columns: {1, 2, 3, 4},
}


class Refusals(unittest.TestCase):
    def test_random_bytes_end_with_a_number(self):
        chance = random.Random(1)
        for count in [*range(40), *(chance.randrange(70000) for _ in range(200))]:
            some = bytes(chance.getrandbits(8) for _ in range(min(count, 64))) + bytes(max(count - 64, 0))
            for function, numbers in OF_RECORDS.items():
                self.assertIn(number(function, some), numbers)
            self.assertIn(number(cakirotu.read_rows, some), {16} if some else {None})

    def test_changed_records_end_with_a_listing_or_a_number(self):
        chance, seen = random.Random(2), set()
        for name in NAMES:
            for _ in range(150):
                some = bytearray(record(name))
                for _ in range(chance.randrange(1, 4)):
                    some[chance.randrange(len(some))] = chance.randrange(256)
                for function, numbers in OF_RECORDS.items():
                    seen.add(number(function, some))
                    self.assertIn(number(function, some), {None, *numbers})
        self.assertLess({None, 2, 3, 4, 5, 7, 8, 9, 15}, seen)

    def test_anything_with_bytes_is_a_record(self):
        worked = record("worked")
        wanted = page_or_number(worked)
        every_second = memoryview(bytes(b for pair in zip(worked, worked) for b in pair))[::2]
        for some in (bytearray(worked), memoryview(worked), array.array("B", worked), every_second):
            self.assertEqual(page_or_number(some), wanted, type(some))

    def test_wrong_types_raise(self):
        for function in [*OF_RECORDS, cakirotu.read_rows, cakirotu.blocks]:
            for wrong in (None, 5, 5.0, "text", [1, 2], object()):
                with self.assertRaises(TypeError, msg=(function, wrong)):
                    function(wrong)
        for part in (5, 1.5, ("0", "3"), (0, 1.0), (None, None)):
            with self.assertRaises(TypeError, msg=part):
                cakirotu.list(record("worked"), part)
        for wrong in (None, 5, (cakirotu.Kind.ADDRESS, 5), (cakirotu.Kind.ADDRESS, None)):
            with self.assertRaises(TypeError, msg=wrong):
                cakirotu.read_literal(wrong)

    def test_a_refusal_has_its_number_and_question(self):
        with self.assertRaises(cakirotu.Refused) as caught:
            cakirotu.list(record("refused"))
        refused = caught.exception
        self.assertEqual((refused.number, refused.question), (6, "Do all blocks start at different addresses?"))
        self.assertEqual(str(refused), "no 6: Do all blocks start at different addresses?")
        self.assertEqual(str(pickle.loads(pickle.dumps(refused))), str(refused))
        self.assertEqual(sorted(cakirotu.QUESTIONS), [*range(1, 20)])
