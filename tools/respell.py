#!/usr/bin/env python3
"""Brings the repository's own definitions, fields and lemmas to today's spelling: words in snake case.

usage: python3 tools/respell.py        at the top, once, on what the toolchain's port script left

It goes by whole names, in specs/, proofs/ and the clauses of src/. Functions of src/, strings, inputs and outputs keep their names:
none of them is in camel case. Goals that are named after a variant (in-KeptSet) keep the variant's name.
"""

import os
import re

# names in camel case that are not only respelled, each with the reason
OTHER = {
    "fedMoves": "fed_move_count",  # planrecord has a field `fed_moves`
    "unitOver": "unit_over_limit",  # units has a function `unit_over`
    "threeMoves": "net_of_three_moves",  # examples has a function `three_moves`
    "twoMoves": "net_of_two_moves",
    "wordOf16": "word_of_16",
    "wordOf32": "word_of_32",
    "wordOf64": "word_of_64",
    "unitAtPlace0": "unit_at_place_0",
    "largestAtPlace0": "largest_at_place_0",
}

# the library has a word `sum` for lists; this repository's sums run over the numbers below a bound
SUMS = {"sum": "sum_below", "sum-none": "sum_below-none", "sum_more": "sum_below-more", "sum-add": "sum_below-add", "sum_same": "sum_below-same"}
SUMS_IN = {
    "crates/net/specs/Sums.antt",
    "crates/weigh/specs/Sums.antt",
    "crates/weigh/specs/Balance.antt",
    "crates/weigh/proofs/Sums.antt",
    "crates/weigh/proofs/Turns.antt",
    "crates/weigh/proofs/Laws.antt",
    "crates/weigh/proofs/weighing/Weighing/is_uneven/Answers.antt",
}

CAMEL = re.compile(r"(?<![A-Za-z0-9_'\-])[a-z][a-z0-9_]*[A-Z][A-Za-z0-9_]*(-more)?(?![A-Za-z0-9_'\-])")
NAME = re.compile(r"(?<![A-Za-z0-9_'.\-])[a-z][a-z_]*(?:-[a-z_]+)*(?![A-Za-z0-9_'\-])")


def snake(name):
    if name in OTHER:
        return OTHER[name]
    return re.sub(r"(?<=[a-z0-9])([A-Z])", lambda m: "_" + m.group(1).lower(), name)


def respelled(path, text):
    text = CAMEL.sub(lambda m: snake(m.group(0)), text)
    if path in SUMS_IN:
        lines = []
        for line in text.split("\n"):
            code, mark, comment = line.partition("--")
            lines.append(NAME.sub(lambda m: SUMS.get(m.group(0), m.group(0)), code) + mark + comment)
        text = "\n".join(lines)
    return text


def main():
    seen = {}
    for folder, dirs, files in os.walk("crates"):
        dirs[:] = sorted(d for d in dirs if d != "out")
        for name in sorted(files):
            if not name.endswith((".antt", ".rt")):
                continue
            path = os.path.join(folder, name)
            with open(path, encoding="utf-8") as f:
                old = f.read()
            for m in CAMEL.finditer(old):
                seen.setdefault(snake(m.group(0)), set()).add(m.group(0))
            new = respelled(path, old)
            if new != old:
                with open(path, "w", encoding="utf-8") as f:
                    f.write(new)
    for new, olds in sorted(seen.items()):
        print(f"{', '.join(sorted(olds))} -> {new}" + ("   FALLS TOGETHER" if len(olds) > 1 else ""))


main()
