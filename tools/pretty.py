#!/usr/bin/env python3
"""Prints the text of a session for people: matrices row by row, zeros as dots.

    ./codes run < FILE | tools/pretty.py

Reads a text of `codes` from standard input. A matrix becomes a line for each row, and so do the rows of a certificate; of one by
construction each claim has its number, and is further to the right the deeper it is. The word of a query stands below the line that has it. All symbols of a matrix are as wide as its widest; between them is a blank, but for long rows of
single digits. Any other line is printed as it is.
"""
import json
import re
import sys

import filters

INDENT = "  "
LONGEST_WITH_BLANKS = 60
LIST = re.compile(r"\[[0-9,]*\]")


def shown(rows):
    """The rows, a line each."""
    width = max((len(str(a)) for row in rows for a in row), default=1)
    between = "" if width == 1 and max(map(len, rows), default=0) > LONGEST_WITH_BLANKS else " "
    return [INDENT + between.join(("." if a == 0 else str(a)).rjust(width) for a in row) for row in rows]


def of_certificate(value):
    lines = [f"certificate of distance {value['distance']} over GF({value['field']}), by {value['by']}", "rows", *shown(value["rows"]), "word", *shown([value["word"]])]
    return lines + of_sets(value)


def of_sets(value):
    lines = []
    for number, s in enumerate(value.get("sets", []), 1):
        basis, fresh = (json.dumps(s[key], separators=(",", ":")) for key in ("basis", "fresh"))
        lines.append(f"set {number} level {s['level']} basis {basis} fresh {fresh}")
    return lines


OWN = ("locator", "r", "points", "multipliers", "large", "places")


def of_claim(claim, indent, number):
    """The lines of a claim and of those below it, each two blanks further to the right; and the number of the next claim."""
    told = " ".join(f"{key} {json.dumps(claim[key], separators=(',', ':'))}" for key in OWN if key in claim)
    lines = [f"{indent}claim {number} {claim['kind']} {told}".rstrip()]
    if claim["kind"] == "search":
        lines = [f"{indent}claim {number} {line}" if i == 0 else indent + line for i, line in enumerate(of_search(claim))]
    elif "rows" in claim:
        lines += [indent + line for line in ("rows", *shown(claim["rows"]))]
    number += 1
    for key in ("left", "right", "outer", "inner", "of"):
        if key in claim:
            below, number = of_claim(claim[key], indent + INDENT, number)
            lines += below
    return lines, number


def of_tree(value):
    lines = [f"certificate by construction of distance {value['distance']} over GF({value['field']})", "word", *shown([value["word"]])]
    return lines + of_claim(value["claim"], "", 0)[0]


def of_search(value):
    lines = [f"search of distance {value['distance']} by {value['by']}", "rows", *shown(value["rows"]), "word", *shown([value["word"]])]
    return lines + of_sets(value)


def of_line(line):
    """The lines in place of a line of the text."""
    if line.startswith("[["):
        return shown(json.loads(line))
    if line.startswith("[") and line != "[]":
        return shown([json.loads(line)])
    if line.startswith('{"by"'):
        return of_certificate(json.loads(line))
    if line.startswith('{"claim"'):
        return of_tree(json.loads(line))
    word = LIST.search(line)
    if word and " word [" in line:
        return [line.replace(f" word {word.group()}", ""), *shown([json.loads(word.group())])]
    return [line]


def main():
    if len(sys.argv) > 1:
        print("usage: ./codes run < FILE | tools/pretty.py", file=sys.stderr)
        return 2
    sys.stdout.reconfigure(encoding="utf-8", errors="surrogateescape")  # other bytes are printed as they are
    text = filters.read_input().decode("utf-8", "surrogateescape")
    for line in text.removesuffix("\n").split("\n") if text else []:
        try:
            lines = of_line(line)
        except (ValueError, KeyError, TypeError, AttributeError):
            lines = [line]  # no line of `codes`
        print("\n".join(lines))
    return 0


if __name__ == "__main__":
    filters.end(main)
