"""Lists a record file as the program `listing` does: list.py FILE
Prints whether its listing may be followed, or which assumption is broken first: list.py check FILE
Exit status: 0 done, 1 refused, 2 nothing could be read or printed."""

import sys

import cakirotu

# One byte more than a record may have: a longer file is refused by its first bytes.
MOST = 65_537


def read(name):
    with open(name, "rb") as file:
        return file.read(MOST)


def page(record):
    listing = cakirotu.list(record)
    yield f"lines={len(listing)}"
    for line in listing:
        address = "-" * 16 if line.address is None else f"{line.address:016X}"
        yield f"{address} {'  ' * line.indent}{line.text}"


def followed(record):
    yield str(cakirotu.check(record) or "follows")


def main(words):
    if len(words) != 1 and (len(words) != 2 or words[0] != "check"):
        print("usage: list.py FILE, list.py check FILE", file=sys.stderr)
        return 2
    try:
        said = (page if len(words) == 1 else followed)(read(words[-1]))
        sys.stdout.buffer.write("".join(f"{line}\n" for line in said).encode())
    except cakirotu.Refused as refused:
        print(f"no {refused.number}")
        return 1
    except OSError as why:
        print(f"list.py: {why}", file=sys.stderr)
        return 2
    return 0


if __name__ == "__main__":
    sys.exit(main(sys.argv[1:]))
