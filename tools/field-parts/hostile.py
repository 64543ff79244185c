"""Damages drivers and records them: hostile.py COMMAND LIST FOLDER

Every file of LIST is damaged in each way of WAYS, ROUNDS times, from a fixed seed. `record` must end with status 0, 1 or 2 within SECONDS and
MEMORY bytes of address space; what it wrote must be as the index says, by `list` of the folder too. A damaged file that shows a failure stays in
FOLDER, with its recipe in its name. Exit status 1 if there is one.
"""

import csv
import multiprocessing
import random
import resource
import shutil
import struct
import subprocess
import sys
import tempfile
import time
from collections import Counter
from pathlib import Path

SEED, ROUNDS, SECONDS, MEMORY = 20261118, 10, 20, 1 << 30
EXTREMES = (0, 1, 0x7FFFFFFF, 0x80000000, 0xFFFFFFFF, 0xFFFFFF00)


def header_at(data):
    return struct.unpack_from("<I", data, 60)[0]


def sections_at(data):
    """Where the table of sections begins, and how many it has."""
    header = header_at(data)
    return header + 24 + struct.unpack_from("<H", data, header + 20)[0], struct.unpack_from("<H", data, header + 6)[0]


def code_range(data):
    """Where the first section's bytes stand in the file."""
    size, at = struct.unpack_from("<II", data, sections_at(data)[0] + 16)
    return at, min(at + size, len(data))


def some_bytes(data, draw):
    for _ in range(draw.choice((1, 10, 100, 1000))):
        data[draw.randrange(len(data))] = draw.randrange(256)


def code_bytes(data, draw):
    first, end = code_range(data)
    for _ in range(draw.choice((10, 100, 1000, 10000))):
        data[draw.randrange(first, end)] = draw.randrange(256)


def random_code(data, draw):
    first, end = code_range(data)
    data[first:end] = draw.randbytes(end - first)


def header_bytes(data, draw):
    for _ in range(draw.choice((1, 3, 10))):
        data[draw.randrange(min(1024, len(data)))] = draw.randrange(256)


def header_field(data, draw):
    """A field of four bytes of the file header or the optional one, directories too."""
    header = header_at(data)
    for _ in range(draw.choice((1, 2, 4))):
        struct.pack_into("<I", data, header + 4 * draw.randrange(1, 66), draw.choice(EXTREMES))


def section_field(data, draw):
    first, count = sections_at(data)
    for _ in range(draw.choice((1, 2, 4))):
        struct.pack_into("<I", data, first + 40 * draw.randrange(count) + 8 + 4 * draw.randrange(8), draw.choice(EXTREMES))


def section_count(data, draw):
    struct.pack_into("<H", data, header_at(data) + 6, draw.choice((0, 1, 96, 97, 0x7FFF, 0xFFFF)))


def cut(data, draw):
    del data[draw.randrange(len(data)) :]


def swapped(data, draw):
    """A piece of the file stands where another was."""
    length = draw.randrange(1, 4096)
    first, second = draw.randrange(len(data)), draw.randrange(len(data))
    piece = data[first : first + length]
    data[second : second + len(piece)] = piece


def one_byte_code(data, draw):
    """All code is one byte: endless runs of prefixes, nops, calls or returns."""
    first, end = code_range(data)
    data[first:end] = bytes([draw.choice((0x00, 0x66, 0x90, 0xCC, 0xC3, 0xE8, 0xEB, 0x74, 0xF0, 0xFF))]) * (end - first)


def branches(data, draw):
    """All code is conditional branches, so that every byte begins a block."""
    first, end = code_range(data)
    data[first:end] = bytes(draw.choice((0x70 + draw.randrange(16), draw.randrange(256))) for _ in range(end - first))


WAYS = (some_bytes, code_bytes, random_code, header_bytes, header_field, section_field, section_count, cut, swapped, one_byte_code, branches)


def limit():
    resource.setrlimit(resource.RLIMIT_AS, (MEMORY, MEMORY))


def run(command, *arguments):
    """The status, or `hangs`; what stands on standard error; the seconds."""
    start = time.monotonic()
    try:
        done = subprocess.run((command, *arguments), capture_output=True, timeout=SECONDS, preexec_fn=limit, check=False)
    except subprocess.TimeoutExpired:
        return "hangs", b"", b"", SECONDS
    return done.returncode, done.stdout, done.stderr, time.monotonic() - start


def records_differ(command, folder):
    """What is wrong with the records that were written; nothing if they are as the index says."""
    with open(folder / "index.csv", encoding="utf-8", newline="") as file:
        rows = list(csv.DictReader(file))
    wanted = {row["file"]: row["answer"] for row in rows if row["file"]}
    if {path.name for path in folder.glob("*.rec")} != set(wanted):
        return "the index names other records than there are"
    if not wanted:
        return None
    status, out, _, _ = run(command, "list", str(folder))
    lines = out.decode("utf-8").splitlines()
    heads = [(Path(line[:-1]).name, after) for line, after in zip(lines, lines[1:]) if line.endswith(".rec:")]
    agree = all(after.startswith("lines=") if wanted.get(name) == "listed" else after == wanted.get(name) for name, after in heads)
    return None if agree and len(heads) == len(wanted) and status in (0, 1) else f"list says otherwise than the index, status {status}"


def try_one(job):
    """Damages one file by one recipe; gives the status, the seconds, the records and what is wrong."""
    command, path, way, number, kept = job
    recipe = f"{path.parent.name}-{path.name}-{way.__name__}-{number}"
    data = bytearray(path.read_bytes())
    way(data, random.Random(f"{SEED} {recipe}"))
    with tempfile.TemporaryDirectory(dir=kept) as folder:
        file, out = Path(folder) / "damaged.sys", Path(folder) / "out"
        file.write_bytes(data)
        status, _, err, seconds = run(command, "record", str(file), "-o", str(out))
        wrong = None if status in (0, 1, 2) else f"status {status}: {err[-200:].decode('utf-8', 'replace')}"
        count = len(list(out.glob("*.rec"))) if out.exists() else 0
        if wrong is None and status in (0, 1):
            wrong = records_differ(command, out)
        if wrong is not None:
            shutil.copy(file, Path(kept) / f"{recipe}.sys")
    return recipe, way.__name__, status, seconds, count, wrong


def main(command, listed, kept):
    paths = [Path(line.rstrip("\n")) for line in open(listed, encoding="utf-8")]
    jobs = [(command, path, way, number, kept) for path in paths for way in WAYS for number in range(ROUNDS)]
    statuses, slowest, records, failures = Counter(), (0, ""), 0, []
    with multiprocessing.Pool() as pool:
        for recipe, _, status, seconds, count, wrong in pool.imap_unordered(try_one, jobs, chunksize=8):
            statuses[status] += 1
            slowest = max(slowest, (seconds, recipe))
            records += count
            if wrong is not None:
                failures.append(f"{recipe}: {wrong}")
    told = ", ".join(f"{n:,} with status {status}" for status, n in sorted(statuses.items(), key=str))
    print(f"hostile: {len(jobs):,} files by {len(WAYS)} ways, {told}; {records:,} records, {len(failures):,} failures")
    print(f"hostile: the slowest took {slowest[0]:.1f} seconds ({slowest[1]}); each had {SECONDS} seconds and {MEMORY >> 20:,} MB")
    for failure in sorted(failures)[:20]:
        print(f"hostile: {failure}", file=sys.stderr)
    return 1 if failures else 0


if __name__ == "__main__":
    sys.exit(main(*sys.argv[1:4]))
