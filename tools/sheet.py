"""Rows as Python's csv module reads them: sheet.py fields|page|saved FOLDER FILE.., into files of the same names in the folder.

fields   every field in hexadecimal on a line of its own, `end` behind each row
page     the listing, as the program `listing` prints it
saved    the rows as LibreOffice Calc saves them on Linux if all columns are text and all text is quoted: each field in quotes, empty
         fields behind short rows without them, LF behind each row
"""

import csv
import pathlib
import sys

# A field may be as long as a file.
csv.field_size_limit(1 << 30)


def rows(name):
    with open(name, encoding="latin-1", newline="") as file:
        return list(csv.reader(file, strict=True))


def fields(table):
    return "".join("".join(field.encode("latin-1").hex() + "\n" for field in row) + "end\n" for row in table)


def line(row):
    """A row's line; what is no row stops the program."""
    address, indent, place, *tokens = row
    digits = "0123456789ABCDEF"
    assert address == "" or (len(address) == 16 and all(c in digits for c in address)), row
    assert str(int(indent)) == indent and 0 <= int(indent) <= 254, row
    assert str(int(place)) == place and 0 <= int(place) <= 65535, row
    letters, texts = tokens[0::2], tokens[1::2]
    assert 0 < len(letters) == len(texts) and all(texts), row
    assert all(len(letter) == 1 and letter in "XRNKSAPF" for letter in letters), row
    return f"{address or '-' * 16} {'  ' * int(indent)}{''.join(texts)}\n"


def page(table):
    return f"lines={len(table)}\n" + "".join(map(line, table))


def saved(table):
    width = max(map(len, table), default=0)
    quoted = [['"' + field.replace('"', '""') + '"' if field else "" for field in row] for row in table]
    return "".join(",".join(row + [""] * (width - len(row))) + "\n" for row in quoted)


if __name__ == "__main__":
    _, what, folder, *names = sys.argv
    make = {"fields": fields, "page": page, "saved": saved}[what]
    for name in names:
        made = make(rows(name)).encode("latin-1")
        pathlib.Path(folder, pathlib.Path(name).name).write_bytes(made)
