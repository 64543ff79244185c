"""What the tests share: the examples. tools/install names the folder with NAME.rec and NAME.csv of each."""

import os
import struct
from pathlib import Path

import cakirotu

EXAMPLES = Path(__file__).resolve().parents[3] / "examples"
MADE = Path(os.environ["CAKIROTU_EXAMPLES"])
NAMES = sorted(file.stem for file in EXAMPLES.glob("*.listing"))


def record(name):
    return (MADE / f"{name}.rec").read_bytes()


def nest():
    """As many blocks as may be, each but the last with a branch to the last one: the deepest nest of if-regions."""
    starts = [0x1000 + 16 * n for n in range(200)]
    worked = record("worked")
    bodies = [worked[at : at + 92] for at in range(119, len(worked), 92)]
    branch = bodies[1].replace(struct.pack("<Q", 0x1010), struct.pack("<Q", starts[-1]))
    return b"".join((
        struct.pack("<8H8B", 64, 1, 200, 200, 398, 0, 0, 0, 0, 0, 0, 0, 0, 55, 0, 0),
        struct.pack("<200Q", *starts),
        struct.pack("<HBB", 1, 2, 0) * 199 + struct.pack("<HBB", 1, 0, 0),
        *(struct.pack("<2Q", starts[-1], follower) for follower in starts[1:]),
        b"\1\2" * 199,
        struct.pack("<200Q", *starts),
        branch * 199 + bodies[3],
    ))


def listings():
    """Each example that is listed, with its name."""
    for name in NAMES:
        try:
            yield name, cakirotu.list(record(name))
        except cakirotu.Refused:
            assert (EXAMPLES / f"{name}.listing").read_text().startswith("no ")


def page(lines):
    """What the program `listing` prints."""
    printed = [f"lines={len(lines)}\n"]
    for line in lines:
        address = "-" * 16 if line.address is None else f"{line.address:016X}"
        printed.append(f"{address} {'  ' * line.indent}{line.text}\n")
    return "".join(printed).encode()


def page_or_number(some_record):
    try:
        return page(cakirotu.list(some_record))
    except cakirotu.Refused as refused:
        return f"no {refused.number}\n".encode()


def number(function, *given):
    """The number that a call is refused with, or None."""
    try:
        function(*given)
    except cakirotu.Refused as refused:
        return refused.number
    return None
