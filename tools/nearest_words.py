#!/usr/bin/env python3
"""Nearest words, by going through all words of a code.

Stands beside the product and shares nothing with it: for each received word, all words of the code are listed, and the one is
taken whose error comes first, by weight and then lexicographically. Prints the tables that the tests of lc_syndrome hold.
"""
from itertools import product as tuples

from linear_algebra import Field, span

CODES = {
    "BINARY": (2, 7, [(1, 0, 0, 0, 0, 1, 1), (0, 1, 0, 0, 1, 0, 1), (0, 0, 1, 0, 1, 1, 0), (0, 0, 0, 1, 1, 1, 1)]),
    "TERNARY": (3, 4, [(1, 1, 0, 0), (0, 0, 1, 2)]),
}


def error(field, x, w):
    return tuple(field.add_scaled(x, field.p - 1, w))


def nearest(field, words, x):
    return min(words, key=lambda w: (sum(a != 0 for a in error(field, x, w)), error(field, x, w)))


def main():
    for name, (q, n, rows) in CODES.items():
        field = Field(q)
        words = span(field, n, rows)
        print(f"const {name}: [([u8; {n}], [u8; {n}]); {q**n}] = [")
        for x in tuples(range(q), repeat=n):
            print(f"    ({list(x)}, {list(nearest(field, words, x))}),")
        print("];")


if __name__ == "__main__":
    main()
