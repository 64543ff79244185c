"""Counts what became of routines, and compares it with the records: records.py WHAT PAIRS

A line of PAIRS has a driver's path, a tab and its folder. Of each folder index.csv is compared with FOLDER.summary, what `record` printed, with the
records that are there, and with FOLDER.listing, what `list` of the folder printed. Exit status 1 if something differs.
"""

import csv
import re
import struct
import sys
from collections import Counter
from pathlib import Path

HEADER, BODY, JMP, CASE = 24, 92, 25, 4
REGISTER, MEMORY = 0, 1
differences = []


def answers_listed(path):
    """The first line below each `FILE:` of a listing of a folder, by the file's name."""
    answers, name = {}, None
    for line in path.read_text(encoding="utf-8").splitlines():
        if line.endswith(".rec:"):
            name = Path(line[:-1]).name
        elif name is not None and name not in answers:
            answers[name] = line
    return answers


def reason(answer):
    """Without address, number and detail."""
    why = answer.removeprefix("no record: ").split(":")[0]
    return re.sub(r"^\d+ |\bat [0-9a-f]+ ", "", why)


def last_bodies(record):
    """Each block's last instruction and its edges' kinds."""
    blocks, insns, edges = struct.unpack_from("<HHH", record, 4)
    marks = HEADER + 8 * blocks
    kinds = marks + 4 * blocks + 8 * edges
    bodies = kinds + edges + 8 * insns
    insn = edge = 0
    for block in range(blocks):
        count, out = struct.unpack_from("<HB", record, marks + 4 * block)
        insn, edge = insn + count, edge + out
        if count:
            at = bodies + BODY * (insn - 1)
            yield record[at : at + BODY], record[kinds + edge - out : kinds + edge]


def count_jumps(record, counts):
    """Jumps through a register, or through memory with an index; one through an import's slot has neither."""
    for body, kinds in last_bodies(record):
        through = body[18] == REGISTER or body[18] == MEMORY and body[6] != 0
        if body[0] == JMP and body[2] == 1 and through:
            counts["tables" if CASE in kinds else "without"] += 1


def check_folder(folder, counts):
    with open(folder / "index.csv", encoding="utf-8", newline="") as file:
        rows = list(csv.DictReader(file))
    listed = answers_listed(Path(f"{folder}.listing"))
    files = {path.name for path in folder.glob("*.rec")}
    if files != {row["file"] for row in rows if row["file"]}:
        differences.append(f"{folder}: the index names other records than there are")
    for row in rows:
        check_row(folder, row, listed, counts)
    said = Path(f"{folder}.summary").read_text(encoding="utf-8")
    want = f"{len(rows)} routines, {sum(row['answer'] == 'listed' for row in rows)} listed"
    if not said.startswith(want):
        differences.append(f"{folder}: record says {said.strip()!r}, its index {want!r}")


def check_row(folder, row, listed, counts):
    answer, name = row["answer"], row["file"]
    counts["routines"] += 1
    counts["instructions"] += int(row["instructions"])
    if answer == "listed":
        counts["listed"] += 1
        same = listed.get(name, "").startswith("lines=")
    elif name:
        counts["refused: " + answer.split(":")[0]] += 1
        same = listed.get(name) == answer
    elif answer.startswith("no 3: "):
        # Over a limit, so that no record is written.
        counts["refused: no 3"] += 1
        same = True
    else:
        counts["no record: " + reason(answer)] += 1
        same = answer.startswith("no record: ")
    if not same:
        differences.append(f"{folder}/{name}: the index says {answer!r}, list says {listed.get(name)!r}")
    if name:
        count_jumps((folder / name).read_bytes(), counts)


def parts(counts, begin):
    found = sorted((n, why.removeprefix(begin)) for why, n in counts.items() if why.startswith(begin))
    return "".join(f"; {n:,} {why}" for n, why in reversed(found))


def main(what, pairs):
    counts = Counter()
    folders = [Path(line.rstrip("\n").split("\t")[1]) for line in open(pairs, encoding="utf-8")]
    for folder in folders:
        check_folder(folder, counts)
    refused = sum(n for why, n in counts.items() if why.startswith("refused: "))
    unrecorded = sum(n for why, n in counts.items() if why.startswith("no record: "))
    print(f"records: {what}: {len(folders):,} files, {counts['routines']:,} routines of {counts['instructions']:,} instructions, {counts['listed']:,} listed")
    print(f"records: {what}: {refused:,} refused{parts(counts, 'refused: ')}; {unrecorded:,} without a record{parts(counts, 'no record: ')}")
    print(f"records: {what}: {counts['tables']:,} jumps through a table, {counts['without']:,} computed jumps without targets")
    print(f"records: {what}: index, records and list differ {len(differences):,} times")
    for difference in differences[:10]:
        print(f"records: {difference}", file=sys.stderr)
    return 1 if differences else 0


if __name__ == "__main__":
    sys.exit(main(sys.argv[1], sys.argv[2]))
