"""The shared library and how its functions are called. All that ctypes cannot check is here."""

import ctypes
import ctypes.util
import operator
import os
from array import array

from ._refused import QUESTIONS, Refused

# From this folder to the library's; `make install` writes it.
LIBRARY_FOLDER = ""

NAME = "libcakirotu.so.0"

# What no call leaves: every call writes its sizes, looks, values or counts.
UNWRITTEN = 2**64 - 1

# The entries of the lists that a call reads or writes, as the array module names them.
U8, U16, U32, U64 = "B", "H", "I", "Q"

_TEXT_LISTS = U8, U32, U8, U64, U16, U16, U32  # text, ends, kinds, addresses, marks, places, lines

# What each function takes: a list, or "n" for a size_t, or "k" for a kind.
TAKES = {
    "list": (U8, "n", "n", *_TEXT_LISTS, U64),
    "size": (U8, "n", "n", U64),
    "check": (U8, U64),
    "write_rows": (*_TEXT_LISTS, U64, U8, U64),
    "read_rows": (U8, *_TEXT_LISTS, U64),
    "read_literal": ("k", U8, U8, U64),
    "command_table": (*_TEXT_LISTS, U64, U8, U8, U8, U64, U64, U64),
    "to_columns": (U8, U8, U64),
    "from_columns": (U8, U8, U64),
    "routine": ("n", U8, U64),
}


def _found():
    """The library's path or name: what CAKIROTU_SO names, else that of the prefix in which this module is installed, else the system's."""
    named = os.environ.get("CAKIROTU_SO")
    if named:
        return named
    beside = os.path.normpath(os.path.join(os.path.dirname(os.path.abspath(__file__)), LIBRARY_FOLDER, NAME))
    if LIBRARY_FOLDER and os.path.isfile(beside):
        return beside
    found = ctypes.util.find_library("cakirotu")
    if found is None:
        raise ImportError(f"no {NAME} is found; `make install` puts it into the system's folders, and CAKIROTU_SO names another")
    return found


def _loaded(path):
    """The library, with what its functions take and answer."""
    try:
        library = ctypes.CDLL(path)
        for name, takes in TAKES.items():
            function = getattr(library, "cakirotu_" + name)
            function.restype = ctypes.c_uint8
            function.argtypes = [ctype for what in takes for ctype in _ctypes_of(what)]
    except (OSError, AttributeError) as why:
        raise ImportError(f"{path} is not Cakirotu's library: {why}") from why
    return library


def _ctypes_of(what):
    if what == "n":
        return [ctypes.c_size_t]
    if what == "k":
        return [ctypes.c_uint8]
    return [ctypes.c_void_p, ctypes.c_size_t]


_PATH = _found()
_LIBRARY = _loaded(_PATH)


def library_path():
    """The library that is called, by its path or by the name that the system finds it by."""
    return _PATH


def room(entry, count):
    """A list of so many entries, for a call to fill."""
    return array(entry, bytes(array(entry).itemsize * count))


def invoke(name, arguments, values):
    """Calls a function with lists and numbers, and gives the values that it stores last. Raises Refused if it answers a number.

    The lists are arrays of their own for each call, of the entries that the function takes: what it writes overlaps nothing, and nobody
    else can change what it reads.
    """
    stored = array(U64, [UNWRITTEN] * values)
    arguments = [*arguments, stored]
    given = [word for what, argument in zip(TAKES[name], arguments) for word in _words(what, argument)]
    number = getattr(_LIBRARY, "cakirotu_" + name)(*given)
    if number == 0:
        return stored.tolist()
    if number not in QUESTIONS or any(stored):
        raise RuntimeError(f"{_PATH} answers {number} with {stored.tolist()}: it is not Cakirotu's library")
    raise Refused(number)


def _words(what, argument):
    """What a function takes for an argument: a pointer and a length for a list."""
    if what in ("n", "k"):
        return [argument]
    assert argument.typecode == what
    return argument.buffer_info()


def given_bytes(what):
    """A copy of what has bytes, as a list for a call. Raises TypeError for all else, also for text and numbers."""
    return array(U8, memoryview(what).tobytes())


def given_text(what):
    """The same of text, in UTF-8, or of what has bytes. Lone surrogates that stand for single bytes become these bytes."""
    return given_bytes(what.encode("utf-8", "surrogateescape") if isinstance(what, str) else what)


def given_number(what):
    """A size_t. One that is too great for it, or negative, becomes the greatest, which no record and no routine has."""
    number = operator.index(what)
    return number if 0 <= number < UNWRITTEN else UNWRITTEN
