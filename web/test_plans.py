#!/usr/bin/env python3
"""Prints codes and the plans of their searches, as JSON, for web/test_plans.mjs: of each the size of its field, its rows, and for each phase of the
first levels where it ends and the bound there, by tools/search.py."""
import json
import random
import sys
from math import comb
from pathlib import Path

sys.path.insert(0, str(Path(__file__).resolve().parent.parent / "tools"))

import search  # noqa: E402
from linear_algebra import Field  # noqa: E402


def plan(q, n, rows, levels):
    field, k = Field(q), len(rows)
    sets = search.sets_of(field, n, rows)
    divisor, done, blocks = search.weights_divisor(field, sets), [0] * len(sets), 0
    for level in range(1, min(levels, k) + 1):
        for j in range(len(sets)):
            blocks += -(-comb(k, level) * (q - 1) ** (level - 1) // search.BLOCK)
            done[j] = level
            yield blocks, search.bound(divisor, k, sets, done, 999)


def main():
    chance = random.Random(1)
    codes = []
    for q in (2, 2, 2, 3, 3, 4, 5, 7, 8, 9, 11, 13, 16):
        n = chance.randrange(8, 30)
        rows = [[chance.randrange(q) if chance.random() < 0.6 else 0 for _ in range(n)] for _ in range(chance.randrange(1, n // 2))]
        rows = [row for row in search.systematic_in(Field(q), rows, range(n))[1]]
        if rows:
            codes.append((q, n, rows))
    golay = [[0] * i + [1, 0, 1, 0, 1, 1, 1, 0, 0, 0, 1, 1] + [0] * (11 - i) for i in range(12)]
    codes.append((2, 24, [row + [sum(row) % 2] for row in golay]))
    json.dump([{"size": q, "rows": rows, "ends": list(plan(q, n, rows, 6))} for q, n, rows in codes], sys.stdout)


if __name__ == "__main__":
    main()
