#!/usr/bin/env python3
"""Writes the names of this repository's definitions and lemmas as today's Rattle spells them.

usage: python3 tools/respell.py [TOP]       once, at the top, after the kit's port.py

A definition or lemma is in snake case (isFault: is_fault), and so are the fields of the records in specs/ (segments-are: segments_are);
in proofs/ a dash goes on joining the parts of a lemma's name. Types and modules are in camel case already. Names of src/, texts in quotes,
inputs and outputs stay. Which names these are is read off the declarations in .antt files; they are then written anew wherever they stand
as a whole name: in specs/ and proofs/, in clauses, comments and must-fail edits, and in the pages of README.md, CONTRIBUTING.md and docs/.
"""

import os
import re
import sys

DECLARED = re.compile(
    r"(?m)^\s*(?:pattern |unfoldable |abbrev |pub |axiom )*([^\s(){}\[\].;,:\"]+)\s*(?:\{[^}]*\}\s*)?:\s")
HUMP = re.compile(r"(?<=[a-z0-9])([A-Z][A-Z0-9]*)")
# A name, as antt reads it: whatever stands between these.
PARTS = re.compile(r"([\s(){}\[\].;,:\"`/|⌜⌝]+)")
QUOTED = re.compile(r"(\"[^\"\n]*\")")

# A definition whose name would fall together with a constructor's.
OTHERWISE = {"setOut": "set_out_of"}

# Names that the kit's script has turned already, and that the pages still have as they were.
TURNED = """at-most every-byte never-both not-written same-answer same-length set-out turned-down written-back of-end body-is in-order
written-is read-is""".split()

# Names that fall together with another one of the same file, and what they are called instead: a lemma that would have its definition's
# name ends in _lem.
TOGETHER = {
    "crates/hrr/proofs/Words.antt": {"all_set": "all_set_lem"},
    "crates/writer/proofs/WriterRows.antt": {"by_rows": "by_rows_lem", "left_by": "left_by_lem"},
}


def files(top):
    for folder, inside, names in os.walk(os.path.join(top, "crates")):
        inside[:] = sorted(d for d in inside if d != "out")
        for name in sorted(names):
            if name.endswith((".antt", ".rt", ".edit")):
                yield os.path.join(folder, name)
    for page in ("README.md", "CONTRIBUTING.md"):
        yield os.path.join(top, page)
    for folder, _, names in os.walk(os.path.join(top, "docs")):
        for name in sorted(names):
            if name.endswith(".md"):
                yield os.path.join(folder, name)


def snake(name):
    return HUMP.sub(lambda m: "_" + m[1].lower(), name)


def rows(top):
    """Each old name and its new one."""
    found = {}
    for path in files(top):
        if not path.endswith(".antt"):
            continue
        with open(path, encoding="utf-8") as f:
            for name in DECLARED.findall(f.read()):
                first = name[0]
                if not first.islower():
                    continue
                new = OTHERWISE.get(name) or snake(name)
                if "/specs/" in path:
                    new = new.replace("-", "_")
                if new != name:
                    found[name] = new
    return found


def respelled(text, names, is_code):
    def part(word):
        if word in names:
            return names[word]
        pieces = word.split("-")
        if len(pieces) > 1:
            return "-".join(snake(names[p]) if p in names and HUMP.search(p) else p for p in pieces)
        return word

    def plain(it):
        return "".join(part(w) for w in PARTS.split(it))

    if not is_code:
        # In a page a name with a dash may be a word of its prose: only what stands between backquotes is a name there.
        own = dict(names)
        humps = {old: new for old, new in own.items() if HUMP.search(old)}
        turned = own | {old: old.replace("-", "_") for old in TURNED}
        pieces = []
        for it in re.split(r"(`[^`\n]*`)", text):
            names = turned if it.startswith("`") else humps
            pieces.append(plain(it))
        return "".join(pieces)
    return "".join(it if it.startswith('"') else plain(it) for it in QUOTED.split(text))


def main():
    top = sys.argv[1] if len(sys.argv) > 1 else "."
    names = rows(top)
    changed = 0
    for path in files(top):
        with open(path, encoding="utf-8") as f:
            old = f.read()
        own = dict(names)
        text = old
        for name, new in TOGETHER.get(os.path.relpath(path, top), {}).items():
            text = re.sub(r"(?<![\w'-])" + re.escape(name) + r"(?![\w'-])", new, text)
        text = respelled(text, own, not path.endswith(".md"))
        if text != old:
            with open(path, "w", encoding="utf-8") as f:
                f.write(text)
            changed += 1
    print(f"{len(names)} names, {changed} files")


if __name__ == "__main__":
    main()
