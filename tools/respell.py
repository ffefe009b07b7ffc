#!/usr/bin/env python3
"""Brings the names of this repository's definitions and lemmas to today's spelling: words in snake case.

usage: tools/respell.py [--try]

Run once, right after the kit's port.py, at the top of the checkout. A word like `headOf` becomes `head_of`, in definitions, lemmas,
proofs, clauses, edits and the pages that name it. Types, modules, variants and facts keep their capital, and texts between quotes stay.
With --try it only says which new names fall together with a word that stands in the same file already.
"""
import os
import re
import sys

WORD = re.compile(r"[^\s(){}\[\],;.:λ\"`'/\\|=]+'*")
CAMEL = re.compile(r"[a-z][a-z0-9₀-₉]*(?:[A-Z][A-Za-z0-9₀-₉]*)+")
# words of the kit, of C, of the papers and of other languages
LEAVE = {"dropN", "eqbN"}
# Lemmas that would fall together with their function: these words of these files get `_lem`; a module's short name gets another one.
APART = [
    (r"(?<![\w.-])not_taken(?![\w-])", "not_taken_lem", [
        "centre/proofs/Judged", "centre/proofs/submit/judge_in/Proof", "demands/proofs/Taken", "demands/proofs/Heeded"]),
    (r"(?m)^((?:pub )?)take_back(?![\w-])", r"\1take_back_lem", ["demands/proofs/CallsTied"]),
    (r"(?<![\w.-])open_told(?![\w-])", "open_told_lem", ["demands/proofs/OwnSeat"]),
    (r"(?<![\w.-])room_fits(?![\w-])", "room_fits_lem", ["seat/proofs/Kept", "demands/proofs/SeatLaws"]),
    (r"(?<![\w.-])row_fits(?![\w-])", "row_fits_lem", ["judge/proofs/Possible"]),
    (r"(?<![\w.-])by_number(?![\w-])", "by_number_lem", ["message/proofs/Stands"]),
    (r"(?<![\w.-])word_end(?![\w-])", "word_end_lem", ["script/proofs/Runs", "script/proofs/text/word_end/Proof"]),
    (r"(?<=as )asked_in(?![\w-])|(?<![\w.`-])asked_in(?=\.)", "asking", ["judge/proofs/Looking"]),
]
TEXT = re.compile(r'"(?:[^"\\\n]|\\.)*"')


def snake(part):
    if not CAMEL.fullmatch(part) or part in LEAVE:
        return part
    return re.sub(r"(?<!_)([A-Z])", lambda m: "_" + m.group(1).lower(), part)


def respelt(word):
    return "-".join(snake(p) for p in word.split("-"))


def code_of(path, text):
    """The parts of a file that are antt: all of an .antt file; of an .rt file the ghost lines and the clauses."""
    mark = "--" if path.endswith(".antt") else "//"
    lines = [l.split(mark)[0] for l in TEXT.sub('""', text).split("\n")]
    return "\n".join(lines)


def files(endings):
    for top in ("crates",):
        for folder, dirs, names in os.walk(top):
            dirs[:] = sorted(d for d in dirs if d != "out")
            for n in sorted(names):
                if n.endswith(endings):
                    yield os.path.join(folder, n)


def stand_apart():
    for pattern, new, names in APART:
        for name in names:
            path = os.path.join("crates", name + ".antt")
            text = read(path)
            with open(path, "w", encoding="utf-8") as f:
                f.write(re.sub(pattern, new, text))


def read(path):
    with open(path, encoding="utf-8") as f:
        return f.read()


def renames():
    found = {}
    for path in files((".antt",)):
        for word in WORD.findall(code_of(path, read(path))):
            new = respelt(word)
            if new != word:
                found[word] = new
    return found


def turned(text, names, quoted):
    """The text with its words respelt; where quoted is true, texts between quotes stay as they are."""
    def words(part):
        return WORD.sub(lambda m: names.get(m.group(0), m.group(0)), part)
    if not quoted:
        return words(text)
    out, at = [], 0
    for m in TEXT.finditer(text):
        out += [words(text[at:m.start()]), m.group(0)]
        at = m.end()
    return "".join(out + [words(text[at:])])


def main(argv):
    if "--try" not in argv:
        stand_apart()
    names = renames()
    clashes = 0
    for path in files((".antt", ".rt")):
        there = set(WORD.findall(code_of(path, read(path))))
        for old in sorted(there & names.keys()):
            if names[old] in there:
                clashes += 1
                print(f"{path}: {old} falls together with {names[old]}")
    print(f"{len(names)} names, {clashes} places to look at")
    if "--try" in argv:
        return 0
    pages = [p for p in ["README.md", "bench/README.md", "reference/README.md"] if os.path.exists(p)]
    pages += [os.path.join("docs", n) for n in sorted(os.listdir("docs")) if n.endswith(".md") and n not in ("PORT.md", "LANDINGS.md")]
    for path in list(files((".antt", ".rt", ".edit"))) + pages:
        old = read(path)
        new = turned(old, names, path.endswith((".antt", ".rt")))
        if new != old:
            with open(path, "w", encoding="utf-8") as f:
                f.write(new)
    return 0


if __name__ == "__main__":
    raise SystemExit(main(sys.argv[1:]))
