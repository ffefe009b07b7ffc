#!/usr/bin/env python3
"""The drill of the centre: a script of calls, and what the program must print of it, worked out with the model of `centre.py`.

    tests/drill.py SCRIPT OUTPUT      writes the two files
    tests/drill.py                    compares them with crates/drill/stdin and crates/drill/stdout, from the project's root

Each scene says what it wants of a call. The drill fails where the model answers otherwise, and where a check or a refusal is never met.
"""
import sys

import answered
import failing
import judged
import limited
import refused
import seats
from script import asked, centre, met, printed
from slips import CAMT_050, ORDERS

# The refusals that each call can give.
REFUSALS = {"lay": [1], "open": [1, 2, 3, 4, 5, 6], "close": [1, 3], "set": [1, 2, 3, 6, 9], "submit": [1, 2, 3, 6, 7, 8, 9, 11, 12],
            "back": [1, 3, 10], "read": [1, 2, 3, 6], "write": [11], "slip": [11]}

# A script stays short enough to be read; the program takes 524,288 bytes.
LINES_MOST, BYTES_MOST = 1200, 400000


def whole():
    """Plays all scenes and gives both texts. Every check of a kind must have been the first to fail, but for 19, which cannot be;
    and each must have failed by itself, 19 too, where all that fail are listed."""
    for scene in (*judged.SCENES, *failing.SCENES, *refused.SCENES, *answered.SCENES, *seats.SCENES, *limited.SCENES):
        scene()
    checks = {(kind, check) for kind in ORDERS for check in [0, *ORDERS[kind]]} - {(CAMT_050, 19)}
    assert centre.reached == checks, checks ^ centre.reached
    every = {(kind, check) for kind in ORDERS for check in ORDERS[kind]}
    assert centre.alone == every, every ^ centre.alone
    refusals = {(call, number) for call in REFUSALS for number in [0, *REFUSALS[call]]}
    assert met == refusals, met ^ refusals
    texts = ["\n".join(lines) + "\n" for lines in (asked, printed)]
    assert len(asked) < LINES_MOST and len(texts[0]) < BYTES_MOST, (len(asked), len(texts[0]))
    return texts


def is_same(name, text):
    """Whether a file has this text; shows the first line that differs."""
    with open(name) as file:
        there, here = file.read().split("\n"), text.split("\n")
    differing = [k for k in range(max(len(there), len(here))) if there[k : k + 1] != here[k : k + 1]]
    if differing:
        k = differing[0]
        print(f"{name}, line {k + 1}", "is    " + "".join(there[k : k + 1]), "wants " + "".join(here[k : k + 1]), sep="\n")
    return not differing


texts = whole()
if len(sys.argv) == 3:
    for name, text in zip(sys.argv[1:], texts):
        with open(name, "w") as file:
            file.write(text)
    calls = [line for line in asked if not line.startswith("#")]
    pairs = [pair for pair in centre.reached if pair[1]]
    print(f"{len(calls)} calls, {len(pairs)} checks of a kind, {len(asked)} lines, {len(texts[0])} bytes")
elif all([is_same("crates/drill/stdin", texts[0]), is_same("crates/drill/stdout", texts[1])]):
    print("same")
else:
    sys.exit(1)
