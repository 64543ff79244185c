"""Strings back from their literals."""

import unittest

import cakirotu
from cakirotu import Kind, Token
from common import listings, number


class Literals(unittest.TestCase):
    def test_strings_of_an_example(self):
        found = {literal for _, token in tokens("command-strings") for literal in [read(token)] if literal}
        self.assertIn((b"PORT\\1\r\0", False, False), found)
        self.assertIn((b"PORT\\1\r\0", True, False), found)
        self.assertTrue(any(cut and len(string) == cakirotu.LITERAL_BYTES for string, _, cut in found))

    def test_just_the_tokens_of_kind_address_are_strings(self):
        strings = 0
        for _, listing in listings():
            for token in (token for line in listing for token in line.tokens):
                self.assertEqual(number(cakirotu.read_literal, token), None if token.kind == Kind.ADDRESS else 17, token)
                strings += token.kind == Kind.ADDRESS
        self.assertGreater(strings, 10)

    def test_the_longest_and_the_cut_one(self):
        for count in range(82):
            literal = Token(Kind.ADDRESS, '"' + "a" * count + '"')
            self.assertEqual(read(literal), (b"a" * count, False, False) if count <= 80 else None)
            literal = Token(Kind.ADDRESS, 'L"' + "a" * count + '…"')
            self.assertEqual(read(literal), (b"a" * count, True, True) if count == 80 else None)

    def test_other_spellings_are_refused(self):
        for text in ("", '"', "a", '"\\u{0}"', '"\\u{0d}"', '"\\u{7F}"', '"""', '"\udc80"', '"a" '):
            self.assertEqual(number(cakirotu.read_literal, Token(Kind.ADDRESS, text)), 17, text)
        with self.assertRaises(ValueError):
            cakirotu.read_literal(Token(8, '"a"'))


def tokens(name):
    """The tokens of an example's listing, each with its line."""
    listing = dict(listings())[name]
    return [(line, token) for line in listing for token in line.tokens]


def read(token):
    try:
        return tuple(cakirotu.read_literal(token))
    except cakirotu.Refused as refused:
        assert refused.number == 17
        return None
