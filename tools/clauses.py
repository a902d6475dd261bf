#!/usr/bin/env python3
"""Prints each line of a contract in crates/*/src/ that is longer than 120 columns, and fails if there is one."""
import pathlib
import re
import sys

import filters

COLUMNS = 120
CLAUSE = re.compile(r"(ensures|requires|invariant|decreases)\b")
NO_CLAUSE = re.compile(r"//|ghost use|use |pub |fn |\{|\}|let |#")


def long_lines(path):
    inside = False
    for number, line in enumerate(path.read_text(encoding="utf-8").split("\n"), 1):
        text = line.lstrip()
        if CLAUSE.match(text):
            inside = True
        elif NO_CLAUSE.match(text):
            inside = False
        if inside and len(line) > COLUMNS:
            yield f"{path}:{number}: {len(line)} columns"


def main():
    crates = pathlib.Path(__file__).parent.parent / "crates"
    said = [line for path in sorted(crates.glob("*/src/**/*.rt")) for line in long_lines(path)]
    print("".join(f"{line}\n" for line in said), end="")
    return 1 if said else 0


if __name__ == "__main__":
    filters.end(main)
