"""The speed of Python's csv module on files of rows: rows.py FOLDER, for each way and set `python WAY SET MB/s`.

Both work in memory on the text of the files SET-N.csv; the best of several turns counts. The writer writes the fields that were read, with
quotes where they are needed.
"""

import csv
import io
import pathlib
import sys
import time

SECONDS = 1.0


def best(bytes_, work):
    """MB/s of the fastest of the turns that fit the time."""
    least, began = float("inf"), time.perf_counter()
    while time.perf_counter() - began < SECONDS:
        start = time.perf_counter()
        work()
        least = min(least, time.perf_counter() - start)
    return bytes_ / least / 1e6


def read(texts):
    return [list(csv.reader(io.StringIO(text, newline=""), strict=True)) for text in texts]


def write(tables):
    for table in tables:
        csv.writer(io.StringIO(newline="")).writerows(table)


if __name__ == "__main__":
    csv.field_size_limit(1 << 30)
    for name in ("straight", "flow", "any"):
        files = sorted(pathlib.Path(sys.argv[1]).glob(f"{name}-*.csv"))
        texts = [file.read_bytes().decode("latin-1") for file in files]
        tables = read(texts)
        size = sum(map(len, texts))
        print(f"python write {name} {best(size, lambda: write(tables)):.1f}")
        print(f"python read {name} {best(size, lambda: read(texts)):.1f}")
