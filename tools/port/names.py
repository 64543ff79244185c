#!/usr/bin/env python3
"""Brings the names of definitions and lemmas to snake case, once, after port.py: names.py at the top of the repository.

A name that specs/ or a lemma file of proofs/ declares loses its dashes and capitals: `anyBelow` becomes `any_below`, `put-fits` `put_fits`.
Where the new spelling stands in a file that has the old one too, or two names would fall together, the name gets `_lem`, as a lemma that would have
its function's name does. A name that Rattle's library exports with a dash, or that Rattle makes in a proof, stays. Types and modules stay.
It prints each name that got `_lem`. Quoted text stays; comments turn where they quote a name between backticks.
"""
import collections
import os
import re
import sys

TOKEN = re.compile(r'[^\s(){}.;,@"«»\[\]]+')
QUIET = re.compile(r'"(?:[^"\\\n]|\\.)*"|(?<![^\s(){}.;,@"«»])--[^\n]*')
RUST_QUIET = re.compile(r"""b?'(?:\\[^\n]|[^'\\\n])'|b?"(?:[^"\\]|\\.)*"|//[^\n]*""", re.S)
MARK = r"(?:(?:pub|abbrev|unfoldable|pattern|axiom) +)*"
DECLARED = re.compile(rf"(?m)^ *{MARK}([^\s(){{}}.;,@\"«»]+)(?: \{{[^{{}}\n]*\}})* :(?=\s)")
SEVERAL = re.compile(rf"(?m)^ *{MARK}((?:[^\s(){{}}.;,@\"«»:]+ +)+[^\s(){{}}.;,@\"«»:]+) :(?=\s)")
FUNCTION = re.compile(r"/proofs/.+/(?:Proof|Answers|Invariants)\.antt$")
LIBRARY = re.compile(r"(?m)^ *use ([^\s;{]+?)\.?\{([^}]*)\}")


# Lemmas that port.py gave the spelling that a definition gets here: they give way.
GIVE_WAY = {
    "checker": ["branch_to", "edge_to"],
    "codes": ["text_at"],
    "csv": ["goes_on", "is_digit"],
    "flow": ["branch_to", "edge_to"],
    "from_csv": ["lines_end"],
    "line": ["length_from"],
    "operand": ["in_window", "text_at"],
    "page": ["lines_end"],
    "route": ["branch_to", "edge_to", "plain_form"],
}


def give_way():
    for path in texts((".antt",)):
        for name in GIVE_WAY.get(path.split(os.sep)[1], []):
            text = read(path)
            turned = re.sub(rf"(?<![\w.'`:-]){name}(?![\w'`-])", name + "_lem", text)
            if turned != text and "/proofs/" in path:
                with open(path, "w", encoding="utf-8") as f:
                    f.write(turned)


def texts(kinds):
    for folder, dirs, files in os.walk("crates"):
        dirs[:] = sorted(d for d in dirs if d != "out")
        for f in sorted(files):
            if f.endswith(kinds):
                yield os.path.join(folder, f)


def read(path):
    with open(path, encoding="utf-8") as f:
        return f.read()


def code_of(path, text):
    return (RUST_QUIET if path.endswith(".rt") else QUIET).sub(" ", text)


def ghost_of(code):
    """The clauses and the ghost use lines of Rust text."""
    parts = re.findall(r"ghost use [^;]*;", code)
    for m in re.finditer(r"\b(?:requires|ensures)\*?(?: \w+)? \{", code):
        depth, at = 1, m.end()
        while depth and at < len(code):
            depth += {"{": 1, "}": -1}.get(code[at], 0)
            at += 1
        parts.append(code[m.end() : at - 1])
    return "\n".join(parts)


def respelled(name):
    words = re.sub(r"(?<=[a-z0-9₀-₉])[A-Z]", lambda m: "_" + m[0].lower(), name)
    return words.replace("-", "_").replace("′", "'").strip("_")


def is_old(name):
    return name[0].islower() and len(name) > 1 and respelled(name) != name and not re.search(r"[^\w'₀-₉-]", name)


def main():
    give_way()
    declared, tokens, imported = set(), {}, set()
    for path in texts((".antt", ".rt")):
        code = code_of(path, read(path))
        # A name behind a dot is a field, a module or what Rattle makes; a Rust function is no name of a clause.
        tokens[path] = set(re.findall(rf"(?<![.\w]){TOKEN.pattern}", ghost_of(code) if path.endswith(".rt") else code))
        if path.endswith(".antt") and not FUNCTION.search(path):
            declared.update(DECLARED.findall(code))
            for several in SEVERAL.findall(code):
                declared.update(several.split())
        for where, names in LIBRARY.findall(code):
            steps = where.split(".")
            if steps[0] != "Rattle" or steps[1] in ("std", "io", "libc", "core", "os"):
                imported.update(re.split(r"[,\s]+", names))
    old = sorted(it for it in declared if is_old(it) and it not in imported)
    stays = sorted(it for it in declared if is_old(it) and it in imported)
    groups = collections.defaultdict(list)
    for it in old:
        groups[respelled(it)].append(it)
    table = {}
    for new, names in sorted(groups.items()):
        # Of names that fall together the one without a dash, a definition's, gets the plain spelling.
        names.sort(key=lambda it: ("-" in it, it))
        taken = any(new in have and any(it in have for it in names) for have in tokens.values())
        for k, it in enumerate(names):
            together = k > 0 or taken
            table[it] = new + "_lem" * (1 if together else 0) + ("'" * (k - (0 if taken else 1)) if together and k - (0 if taken else 1) > 0 else "")
            if together:
                print(f"{it} -> {table[it]}")
    for it in stays:
        print(f"stays, as the library has it: {it}")
    for path in texts((".antt", ".rt")):
        text = read(path)
        turned = turn(path, text, table)
        if turned != text:
            with open(path, "w", encoding="utf-8") as f:
                f.write(turned)
    with open("tools/port/names.tsv", "w", encoding="utf-8") as f:
        f.writelines(f"{a}\t{b}\n" for a, b in sorted(table.items()))
    print(len(table), "names")


def turn(path, text, table):
    made = FUNCTION.search(path)

    def word(m):
        it = m[0]
        if it not in table:
            return it
        # In a proof of a function a name behind a dot is one that Rattle makes, but behind a module.
        before = m.string[: m.start()]
        if made and before.endswith(".") and not re.search(r"(?:^|[^\w.])(?:[A-Z]\w*|package|Rattle[\w.+]*)\.$", before):
            return it
        return table[it]

    def comment(m):
        return re.sub(r"`[^`\n]*`", lambda q: TOKEN.sub(lambda w: table.get(w[0], w[0]), q[0]), m[0])

    quiet = RUST_QUIET if path.endswith(".rt") else QUIET
    out, at = [], 0
    for m in quiet.finditer(text):
        out.append(TOKEN.sub(word, text[at : m.start()]))
        out.append(comment(m) if m[0].startswith(("--", "//")) else m[0])
        at = m.end()
    out.append(TOKEN.sub(word, text[at:]))
    return "".join(out)


if __name__ == "__main__":
    sys.exit(main())
