"""Which library is called."""

import ctypes.util
import os
import subprocess
import sys
import unittest

import cakirotu


class Library(unittest.TestCase):
    def test_the_one_that_is_named(self):
        self.assertEqual(imported(cakirotu.library_path()), "276\n")

    def test_one_that_is_not_there_or_is_another_cannot_be_imported(self):
        for named in ("no such file", ctypes.util.find_library("c")):
            with self.assertRaises(subprocess.CalledProcessError) as caught:
                imported(named)
            self.assertIn(f"ImportError: {named} is not Cakirotu's library: ", caught.exception.stderr)


def imported(named):
    """What a Python prints that is told of this library."""
    program = "import cakirotu; print(sum(1 for k in range(cakirotu.ROUTINES) if cakirotu.list(cakirotu.routine(k))))"
    environment = {**os.environ, "CAKIROTU_SO": named}
    return subprocess.run([sys.executable, "-c", program], env=environment, check=True, capture_output=True, text=True).stdout
