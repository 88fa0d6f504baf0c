#!/usr/bin/env python3
"""Counts the places of docs/DESIGN-PASS.md in crates/*/src (point 8: crates/*/proofs), by rules of text alone.

usage: python3 tools/design_counts.py [--list] [COMMIT]

Of the checkout, or of a commit. A rule finds what looks like a place; whether it is one the page says. With --list each place is printed.
"""

import collections
import re
import subprocess
import sys

LIST = "--list" in sys.argv
COMMIT = next((it for it in sys.argv[1:] if it != "--list"), None)


def sources(pattern):
    """Each file of that pattern with its text."""
    if COMMIT:
        names = subprocess.run(["git", "ls-tree", "-r", "--name-only", COMMIT, "crates"], capture_output=True, text=True, check=True).stdout.split()
    else:
        names = subprocess.run(["git", "ls-files", "crates"], capture_output=True, text=True, check=True).stdout.split()
    for name in names:
        if re.fullmatch(pattern, name):
            if COMMIT:
                yield name, subprocess.run(["git", "show", f"{COMMIT}:{name}"], capture_output=True, text=True, check=True).stdout
            else:
                yield name, open(name, encoding="utf-8").read()


SOURCES = list(sources(r"crates/\w+/src/.*\.rt"))
FUNCTION = re.compile(r"(?:^ *//[^\n]*\n)*^ *(?:pub )?(?:const )?(?:extern \"C\" )?fn (\w+).*?^ *\}$", re.M | re.S)


def functions():
    """Each function: file, line, name, comment above it, text without it."""
    for file, text in SOURCES:
        for it in FUNCTION.finditer(text):
            comment, _, rest = it[0].rpartition("//") if it[0].lstrip().startswith("//") else ("", "", it[0])
            lines = it[0].split("\n")
            above = [line for line in lines if line.lstrip().startswith("//")]
            code = "\n".join(line for line in lines if not line.lstrip().startswith("//"))
            yield file, text.count("\n", 0, it.start()) + 1 + len(above), it[1], " ".join(above), code


FUNCTIONS = list(functions())


def lines(pattern, but=None):
    found = []
    for file, text in SOURCES:
        for number, line in enumerate(text.split("\n"), 1):
            code = line.split("//")[0]
            if re.search(pattern, code) and not (but and re.search(but, code)):
                found.append((file, number, line.strip()))
    return found


def head(code):
    """A function's text up to its body."""
    return code.split("\n{")[0]


def groups(key, least):
    by = collections.defaultdict(list)
    for file, line, name, _, code in FUNCTIONS:
        for it in key(file, name, code):
            by[it].append((file, line, name))
    return {it: places for it, places in by.items() if len({p for p in places}) >= least}


def shape(file, name, code):
    """The function with its numbers, widths and integer types, and so its own name, taken out."""
    code = re.sub(r"\b[iu](8|16|32|64|size)\b", "T", code)
    code = re.sub(r"\b(requires|ensures)( \w+)? \{.*\}\n", "", code)
    code = re.sub(r"\bfn \w+", "fn", code)
    code = re.sub(r"\w*\d\w*", "N", code)
    code = re.sub(r"\b(format|records)::\w+::", "R::", code)
    return [re.sub(r"\s+", " ", code)]


def facts(file, name, code):
    found = set()
    for clause in re.findall(r"(?:requires|ensures)(?: \w+)? \{ (.*) \}$", head(code), re.M):
        for fact in re.split(r" × (?![^(]*\))", clause):
            fact = fact.strip("() ")
            if not re.match(r"result ≡", fact):
                found.add(re.sub(r"\s+", " ", fact))
    return found


def parameters(file, name, code):
    listed = re.search(r"fn \w+(?:<[^>]*>)?\((.*?)\)", code, re.S)
    names = re.findall(r"(\w+): ([^,]+)", listed[1]) if listed else []
    return {tuple(names[i : i + 3]) for i in range(len(names) - 2)}


def tell(point, what, found):
    print(f"{point:3} {len(found):4}  {what}")
    if LIST:
        for it in found:
            print("          ", *it)


def in_groups(found):
    return [(len(places), it if isinstance(it, str) else ", ".join(": ".join(p) for p in it), *sorted({f"{p[0].split('/')[1]}::{p[2]}" for p in places})) for it, places in sorted(found.items(), key=str)]


def main():
    tell("1a", "enums of the repository's own", lines(r"^\s*(pub )?enum "))
    tell("1b", "functions whose comment gives a number for 'none'", [(f, n, name) for f, n, name, above, _ in FUNCTIONS if re.search(r"(\b0|\b16) (where|for|says|before|in a|if)|and (0|16) |, or 0 | 0 says", above)])
    tell("1c", "functions with a runtime that tell a failure, or the end, by a bool", [(f, n, name) for f, n, name, _, code in FUNCTIONS if re.search(r"-> bool", head(code)) and re.search(r"impl", head(code))])
    tell("1d", "numbers of refusals in code", lines(r"(Failed|Refused|refused|row|naming|number: ?)\(? ?[0-9]"))
    tell("1e", "kinds and types of segments as numbers in parameters and fields", lines(r"\b(kind|segment_type|follower|other): u8"))
    tell("1f", "structs of a fault beside values", lines(r"^\s*fault: "))
    twins = groups(shape, 2)
    tell("2", "functions that differ in numbers, widths and types of integers alone", [p for places in twins.values() for p in places])
    tell("2b", "types that differ in constants alone", lines(r"struct \w+Record \{\}"))
    tell("3", "loops that count or step a place by hand", lines(r"^\s*(for \w+ in .*\.\.|while |loop \{)"))
    tell("4a", "conversions, orders and equalities written by hand", [(f, n, name) for f, n, name, _, code in FUNCTIONS if re.search(r"\{\n\s*(\w+(\[.*\])?(\.0)? as \w+|\w+\(\w+ as \w+\)|if (\w+(\.\w+)? (<|<=|==) (\w+|\w+\.\w+\(\))) \{ [\w.()& :\[\]-]+ \} else \{ [\w.()-]+ \})\n", code)])
    tell("4b", "casts by `as`", lines(r"\bas (u8|u16|u32|u64|usize|i16|i32|i64)\b"))
    tell("4c", "characters and ranges compared by hand", lines(r"(<= \w+(\.\w+)? && \w+(\.\w+)? <=?|\b\w+ < \d+ \{$|== b'.')"))
    tell("5a", "facts in three or more contracts", in_groups(groups(facts, 3)))
    tell("5b", "three parameters in a row in three or more functions", in_groups(groups(parameters, 3)))
    tell("6", "functions of a buffer and a place or a length in it", [(f, n, name) for f, n, name, _, code in FUNCTIONS if re.search(r"\w+: &(mut )?\[[^\]]*\],\s*(at|p|q|n|from|to|end|start|front|name): usize", head(code))])
    tell("7", "switches between calls on a number", [(f, n, name) for f, n, name, _, code in FUNCTIONS if len(re.findall(r"^\s*[\w:.|= ]+ => [\w:]+\(", code, re.M)) >= 3])
    proofs = list(sources(r"crates/\w+/proofs/.*\.antt"))
    answers = [(f, it[0]) for f, text in proofs if f.endswith("Answers.antt") for it in re.finditer(r"^pub \S+ : goal\..*$", text, re.M)]
    tell("8a", "answers", answers)
    tell("8b", "files of Invariants and Answers", [(f,) for f, _ in proofs if re.search(r"(Invariants|Answers)\.antt$", f)])
    tell("8c", "lines of proofs", [(f, line) for f, text in proofs for line in text.split("\n")])


main()
