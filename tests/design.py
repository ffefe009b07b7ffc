#!/usr/bin/env python3
"""Counts the places in crates/*/src that docs/DESIGN-PASS.md speaks of.

    python3 tests/design.py [--list] [FOLDER]

FOLDER is the top of a checkout, by default this one. A line for each point, with the number of places; --list names each place. What is
counted is a sign in the text, as the docstring of each function says; whether a place is to be changed is decided by reading it.
"""

import glob
import os
import re
import sys

SMALL = 3


def sources(top):
    for path in sorted(glob.glob(os.path.join(top, "crates", "*", "src", "**", "*.rt"), recursive=True)):
        with open(path) as file:
            yield os.path.relpath(path, os.path.join(top, "crates")).replace("/src/", "/"), file.read()


def bare(text):
    """The text without comments, and without clauses and `ghost use` lines."""
    lines = []
    for line in text.split("\n"):
        if re.match(r"\s*(ghost use|requires|ensures)\b", line):
            continue
        lines.append(re.sub(r"//.*", "", line))
    return "\n".join(lines)


def items(text, word):
    """Each `enum` or `struct` with its body in braces."""
    for match in re.finditer(r"^(?:pub )?%s (\w+)[^{;]*\{\n(.*?)^\}" % word, text, re.M | re.S):
        yield match.group(1), match.group(2)


def functions(text):
    """Each function with its signature and its body, where the layout of `rt fmt` ends it."""
    for match in re.finditer(r"^( *)(?:pub )?fn (\w+)(.*?)^\1\{\n(.*?)^\1\}", text, re.M | re.S):
        yield match.group(2), match.group(3), match.group(4)
    for match in re.finditer(r"^( *)(?:pub )?fn (\w+)([^\n]*) \{\n(.*?)^\1\}", text, re.M | re.S):
        yield match.group(2), match.group(3), match.group(4)


def enums_like(top):
    """1: own enums with a value in one variant and none in another, with two variants, or with a variant Done."""
    for path, text in sources(top):
        for name, body in items(bare(text), "enum"):
            variants = re.findall(r"^    (\w+)(\(|,)", body, re.M)
            valued = [name for name, mark in variants if mark == "("]
            plain = [name for name, mark in variants if mark == ","]
            if (valued and plain) or len(variants) == 2 or "Done" in plain:
                yield "%s: enum %s" % (path, name)


def flags(top):
    """1: structs with a bool beside other fields."""
    for path, text in sources(top):
        for name, body in items(bare(text), "struct"):
            fields = re.findall(r"^    (?:pub )?(\w+): ([^\n]*),$", body, re.M)
            for field, kind in fields:
                if kind == "bool" and len(fields) > 1:
                    yield "%s: struct %s, %s" % (path, name, field)


def numbers(top):
    """1: constants that number a kind, a status or a node, and matches that give or take such a number."""
    for path, text in sources(top):
        code = bare(text)
        for name, value in re.findall(r"^(?:pub )?const (\w+): (?:u64|usize) = (\d);$", code, re.M):
            yield "%s: const %s = %s" % (path, name, value)
        for name, _, body in functions(code):
            arms = re.findall(r"^ *(?:\w+(?:::\w+)*(?:\([\w ]*\))? => \d+,|\d+ => \S.*)$", body, re.M)
            if len(arms) >= SMALL:
                yield "%s: fn %s, %d arms" % (path, name, len(arms))


def twins(top):
    """2: functions of a crate whose bodies, of three lines or more, are the same but for names of types, constants, variants and calls."""
    groups = {}
    for path, text in sources(top):
        for name, signature, body in functions(bare(text)):
            lines = [line.strip() for line in body.split("\n") if line.strip()]
            if len(lines) < SMALL:
                continue
            shape = re.sub(r"b?\"[^\"]*\"|b'.'|\b\d+\b", "#", "\n".join(lines))
            shape = re.sub(r"\b[A-Z]\w*\b", "T", shape)
            shape = re.sub(r"\b\w+(?=\()", "f", shape)
            shape = re.sub(r"\b[a-z_]\w*\b", "x", shape)
            groups.setdefault(shape, []).append("%s: fn %s" % (path, name))
    for group in groups.values():
        if len(group) > 1:
            yield "; ".join(group)


def loops(top):
    """3: `while` loops."""
    for path, text in sources(top):
        for name, _, body in functions(bare(text)):
            for test in re.findall(r"^ *while (.*) \{$", body, re.M):
                yield "%s: fn %s, while %s" % (path, name, test)


def tests_by_hand(top):
    """4: matches whose arms are only true and false, and functions that compare or copy field by field."""
    for path, text in sources(top):
        for name, _, body in functions(bare(text)):
            arms = re.findall(r"=> (.*)", body)
            if arms and all(arm.rstrip(",") in ("true", "false") for arm in arms):
                yield "%s: fn %s, true or false by match" % (path, name)
            pairs = re.findall(r"\((\w+)\.(\w+) == (\w+)\.\2\)", body)
            if len(pairs) > 1:
                yield "%s: fn %s, field by field" % (path, name)


def facts(top):
    """5: a fact that stands in the `requires` of three functions of a crate or more."""
    seen = {}
    for path, text in sources(top):
        crate = path.split("/")[0]
        for clause in re.findall(r"^ *requires(?: \w+)? \{ (.*) \}$", text, re.M):
            for fact in clause.split(" × "):
                fact = re.sub(r"\.(now|old)\b", "", fact.strip("() "))
                seen.setdefault((crate, fact), set()).add(path + str(len(seen)) + clause)
    for (crate, fact), places in sorted(seen.items()):
        if len(places) >= SMALL:
            yield "%s: %s, %d clauses" % (crate, fact, len(places))


def companions(top):
    """5: three parameters or more, of the same names and types, in three functions or more of a crate."""
    seen = {}
    for path, text in sources(top):
        crate = path.split("/")[0]
        for name, signature, _ in functions(bare(text)):
            head = signature.split(")")[0] if "Fn(" not in signature else signature
            found = re.findall(r"(\w+): ([^,()\n]+)", head)
            for first in range(len(found) - SMALL + 1):
                run = tuple(found[first : first + SMALL])
                seen.setdefault((crate, run), []).append(name)
    for (crate, run), names in sorted(seen.items()):
        if len(names) >= SMALL:
            yield "%s: %s in %s" % (crate, ", ".join("%s: %s" % pair for pair in run), ", ".join(names))


def buffers(top):
    """6: structs with an array and a count or length beside it, or with two arrays of one length."""
    for path, text in sources(top):
        for name, body in items(bare(text), "struct"):
            arrays = re.findall(r"^    (?:pub )?(\w+): \[[^;]*; ([^\]]*)\]", body, re.M)
            counted = re.search(r"\b(count|length|level): (usize|u64)", body)
            lengths = [length for _, length in arrays]
            if arrays and (counted or len(set(lengths)) < len(lengths)):
                yield "%s: struct %s" % (path, name)


def switches(top):
    """7: matches of which three arms or more each call a function of its own."""
    for path, text in sources(top):
        for name, _, body in functions(bare(text)):
            arms = re.findall(r"=> (?:return )?([a-z]\w*(?:::[a-z]\w*)?)\(", body)
            if len(set(arms)) >= SMALL:
                yield "%s: fn %s, %d arms" % (path, name, len(arms))


def walks(top):
    """8: proofs that walk the code by hand."""
    for path in sorted(glob.glob(os.path.join(top, "crates", "*", "proofs", "**", "Proof.antt"), recursive=True)):
        yield os.path.relpath(path, os.path.join(top, "crates"))


POINTS = [
    ("1 enums of the shape of Option or Result", enums_like),
    ("1 flags beside values", flags),
    ("1 numbers for kinds", numbers),
    ("2 groups of twins", twins),
    ("3 loops that count by hand", loops),
    ("4 tests and comparisons by hand", tests_by_hand),
    ("5 facts in three clauses or more", facts),
    ("5 parameters that travel together", companions),
    ("6 buffers with a length, parallel arrays", buffers),
    ("7 switches on which step to run", switches),
    ("8 proofs that walk the code", walks),
]


def main(arguments):
    listed = "--list" in arguments
    rest = [argument for argument in arguments if argument != "--list"]
    top = rest[0] if rest else os.path.join(os.path.dirname(os.path.abspath(__file__)), "..")
    for title, places in POINTS:
        found = list(places(top))
        print("%4d  %s" % (len(found), title))
        if listed:
            for place in found:
                print("        " + place)


if __name__ == "__main__":
    main(sys.argv[1:])
