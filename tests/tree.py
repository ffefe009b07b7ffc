#!/usr/bin/env python3
"""Writes all that the tree of paths numbers, from the paths in crates/message/specs/Fields.antt.

The tree has the path of each kind's body, in the order of `body_of`, and then of each kind's fields in theirs. Its nodes stand breadth first;
node 0 is nowhere, node 1 stands above the outer element. Written are the tree's tables, in its definitions and in its code (crates/paths),
and the node of each body and of each field in the code of crates/message.
Run it after a change to the paths; with --check it writes nothing, and fails where a file is not what it would write.
"""
import pathlib
import re
import sys

ROOT = pathlib.Path(__file__).resolve().parent.parent
FIELDS = "crates/message/specs/Fields.antt"
TREE = "crates/paths/specs/Tree.antt"
TREE_CODE = "crates/paths/src/tree.rt"
KINDS_CODE = "crates/message/src/kinds.rt"
LINE_MOST = 120
# `rt fmt` fills the lines of a list of numbers in code up to here.
CODE_LINE_MOST = 100


def stop(said):
    sys.exit(f"tests/tree.py: {said}")


def once(file, pattern, text, put):
    """The text with the one place that the pattern fits put anew."""
    found = list(re.finditer(pattern, text, re.S | re.M))
    if len(found) != 1:
        stop(f"{file}: {len(found)} places are like `{pattern}`, and there must be one")
    start, end = found[0].span()
    return text[:start] + put(found[0]) + text[end:]


def read_kinds():
    """For each kind its name, the path of its body, and the paths of its fields."""
    text = (ROOT / FIELDS).read_text()
    bodies = re.findall(r'^body_of (\w+) = path_of "([^"]+)"$', text, re.M)
    tables = dict(re.findall(r"^fields_of (\w+) = (\w+)$", text, re.M))
    lists = {name: re.findall(r'"([^"]+)"', rows) for name, rows in re.findall(r"^(\w+) =\n((?: +.*\n)+)", text, re.M)}
    if not bodies or [kind for kind, _ in bodies] != list(tables):
        stop(f"{FIELDS}: `body_of` and `fields_of` have no clauses, or not the same kinds in one order")
    for kind, table in tables.items():
        if not lists.get(table):
            stop(f"{FIELDS}: {table}, the fields of {kind}, is no list of paths")
    return [(kind, body, lists[tables[kind]]) for kind, body in bodies]


def names_of(path):
    return path.split("/")[1:]


def numbered(paths):
    """The nodes' names, breadth first; the first node below each, and one more; and the node of each path and of each front of one."""
    below = {(): []}
    for names in map(names_of, paths):
        for k in range(len(names)):
            front, longer = tuple(names[:k]), tuple(names[: k + 1])
            if longer not in below:
                below[longer] = []
                below[front].append(longer)
    order = [()]
    for node in order:
        order.extend(below[node])
    names = ["", ""] + [path[-1] for path in order[1:]]
    firsts = [2]
    for node in [None, *order]:
        firsts.append(firsts[-1] + len(below[node] if node is not None else []))
    return names, firsts, {path: 1 + place for place, path in enumerate(order)}


def in_lines(words, most):
    """The words in lines that are not too long."""
    lines = ["   "]
    for word in words:
        if len(lines[-1]) + 1 + len(word) > most:
            lines.append("   ")
        lines[-1] += " " + word
    return "\n".join(lines)


def definitions(text, names, firsts, wide):
    rows = "".join(f'{"    " if k == 0 else "    ∷ "}bytes "{name:{wide}}"\n' for k, name in enumerate(names))
    list_of = in_lines([f"{n} ∷" for n in firsts] + ["[]"], LINE_MOST)
    text = once(TREE, r"^nodes = \d+$", text, lambda m: f"nodes = {len(names)}")
    text = once(TREE, r"^name_wide = \d+$", text, lambda m: f"name_wide = {wide}")
    text = once(TREE, r"^names =\n.*?\[\]$", text, lambda m: f"names =\n{rows}    ∷ []")
    return once(TREE, r"^firsts =\n.*?\[\]$", text, lambda m: f"firsts =\n{list_of}")


def tree_code(text, names, firsts, wide):
    rows = "".join(f'    *b"{name:{wide}}",\n' for name in names)
    numbers = in_lines([f"{n}," for n in firsts], CODE_LINE_MOST)
    text = once(TREE_CODE, r"^pub const NODES: usize = \d+;$", text, lambda m: f"pub const NODES: usize = {len(names)};")
    text = once(TREE_CODE, r"^const NAME_WIDE: usize = \d+;$", text, lambda m: f"const NAME_WIDE: usize = {wide};")
    text = once(TREE_CODE, r"^(static NAMES: [^=]*= \[\n).*?^\];$", text, lambda m: f"{m[1]}{rows}];")
    return once(TREE_CODE, r"^(static FIRSTS: [^=]*= \[\n).*?^\];$", text, lambda m: f"{m[1]}{numbers}\n];")


def kinds_code(text, kinds, node):
    for kind, body, fields in kinds:
        table = re.sub(r"(?<=[a-z])(?=\d)", "_", kind).upper()
        nodes = [node[tuple(names_of(path))] for path in fields]

        def entries(m):
            parts = re.split(r"\bnode: \d+,", m[2])
            if len(parts) != len(nodes) + 1:
                stop(f"{KINDS_CODE}: {table} has {len(parts) - 1} entries and {kind} {len(nodes)} fields; write the entries first")
            return m[1] + parts[0] + "".join(f"node: {n},{part}" for n, part in zip(nodes, parts[1:]))

        text = once(KINDS_CODE, rf"^(const {table}: [^=]*= \[\n)(.*?^\];)$", text, entries)
        place = node[tuple(names_of(body))]
        text = once(KINDS_CODE, rf"^const {table}_BODY: usize = \d+;$", text, lambda m: f"const {table}_BODY: usize = {place};")
    return text


def main(words):
    if words not in ([], ["--check"]):
        stop("asked for nothing or --check")
    kinds = read_kinds()
    names, firsts, node = numbered([body for _, body, _ in kinds] + [path for _, _, fields in kinds for path in fields])
    wide = max(map(len, names)) + 1
    texts = {file: (ROOT / file).read_text() for file in (TREE, TREE_CODE, KINDS_CODE)}
    written = {
        TREE: definitions(texts[TREE], names, firsts, wide),
        TREE_CODE: tree_code(texts[TREE_CODE], names, firsts, wide),
        KINDS_CODE: kinds_code(texts[KINDS_CODE], kinds, node),
    }
    stale = [file for file in texts if texts[file] != written[file]]
    if words and stale:
        stop(f"{', '.join(stale)}: not the tree of the paths in {FIELDS}; run tests/tree.py")
    for file in stale:
        (ROOT / file).write_text(written[file])
        print(f"tests/tree.py: {file} is written")


main(sys.argv[1:])
