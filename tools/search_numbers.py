#!/usr/bin/env python3
"""The answers of the searches of crates/search_tests, read from the definitions, for codes over 2 elements.

Words are integers, bit c for column c. `tools/search.py` reads the same definitions over every field, more slowly. The answer at the
cut of a plan is that of its last blocks, whose first message is found by its rank.
"""
from itertools import islice
from math import comb

from search import BLOCK, CUT

# The codes by name: length, dimension, and the exponents of the word whose shifts are the rows.
CODES = {
    "HAMMING": (7, 4, [0, 1, 3]),
    "RESIDUES": (47, 24, [0, 1, 2, 3, 5, 6, 7, 9, 10, 12, 13, 14, 18, 19, 23]),
    "SHIFTS": (60, 26, [0, 3, 4, 5, 10, 12, 13, 15, 17, 18, 21, 22, 23, 25, 28, 30, 32, 33, 34]),
    "EVEN_SHIFTS": (60, 26, [0, 1, 2, 6, 8, 10, 16, 21, 23, 26, 32, 34]),
    "LATE_SHIFTS": (62, 34, [0, 2, 4, 6, 8, 11, 15, 21, 22, 24, 28]),
}

# The elements of the locator fields: their polynomials, as integers.
POLYNOMIALS = {6: 0b1000011, 8: 0b100011101}

BUDGETS = {"HAMMING": [100], "RESIDUES": [20, 2**40], "SHIFTS": [2**20], "EVEN_SHIFTS": [2**20], "LATE_SHIFTS": [102], "BCH_63": [300, 2**20]}


def generator(degree, zeros):
    """The exponents of the binary polynomial of least degree with these powers of a primitive element as zeros."""
    powers, x, n = [], 1, 2**degree - 1
    for _ in range(n):
        powers.append(x)
        x <<= 1
        x ^= POLYNOMIALS[degree] if x >> degree else 0
    logs = {x: i for i, x in enumerate(powers)}
    every, product = {z * 2**j % n for z in zeros for j in range(degree)}, [1]
    for z in every:
        times = [powers[(logs[a] + z) % n] if a else 0 for a in product] + [0]
        product = [a ^ b for a, b in zip(times, [0] + product)]
    return [i for i, a in enumerate(product) if a]


def systematic(rows, order):
    """The greedy first basis of the columns in this order, and the rows that are the identity on it, by its rising columns."""
    rows, pivots = list(rows), []
    for c in order:
        done = len(pivots)
        i = next((i for i in range(done, len(rows)) if rows[i] >> c & 1), None)
        if i is None:
            continue
        rows[done], rows[i] = rows[i], rows[done]
        rows = [row ^ rows[done] if j != done and row >> c & 1 else row for j, row in enumerate(rows)]
        pivots.append(c)
    turn = sorted(range(len(pivots)), key=lambda i: pivots[i])
    return sorted(pivots), [rows[i] for i in turn]


def sets_of(n, rows):
    """Of each information set the number of fresh columns, and its rows."""
    sets, used = [], []
    while True:
        order = [c for c in range(n) if c not in used] + [c for c in range(n) if c in used]
        basis, matrix = systematic(rows, order)
        fresh = [c for c in basis if c not in used]
        if sets and 2 * len(fresh) < len(rows):
            return sets
        sets.append((len(fresh), matrix))
        used += fresh


def weight(word):
    return bin(word).count("1")


def divisor(rows):
    if any(weight(row) % 2 for row in rows):
        return 1
    even = all(weight(u & v) % 2 == 0 for u in rows for v in rows)
    return 4 if even and all(weight(row) % 4 == 0 for row in rows) else 2


def bound(sets, levels, best):
    k = len(sets[0][1])
    if k in levels:
        return best
    by, least = divisor(sets[0][1]), max(1, sum(max(0, w + 1 - (k - fresh)) for (fresh, _), w in zip(sets, levels)))
    return -(-least // by) * by


def support_of(k, level, rank):
    """The support of a message of this level, by its rank."""
    support, x = [], 0
    for left in range(level, 0, -1):
        while rank >= comb(k - x - 1, left - 1):
            rank, x = rank - comb(k - x - 1, left - 1), x + 1
        support.append(x)
        x += 1
    return support


def words_from(rows, level, rank):
    """The words of a level from a rank on."""
    k, support = len(rows), support_of(len(rows), level, rank)
    sums = [0] * level  # at i the sum of the rows of the support before i
    changed = 0
    while True:
        for i in range(changed, level - 1):
            sums[i + 1] = sums[i] ^ rows[support[i]]
        for row in rows[support[-1] :]:
            yield sums[-1] ^ row
        changed = next((i for i in range(level - 2, -1, -1) if support[i] < k - level + i), None)
        if changed is None:
            return
        support[changed:] = range(support[changed] + 1, support[changed] + 1 + level - changed)


def phases(k, count):
    """Level, set, first block and end of each phase."""
    start = 0
    for level in range(1, k + 1):
        for j in range(count):
            end = start + -(-comb(k, level) // BLOCK)
            yield level, j, start, end
            start = end


def answer(n, rows, budget, first=0):
    """The answer of a search that has the word at place 0 for its best after `first` blocks."""
    sets = sets_of(n, rows)
    best, levels = (weight(sets[0][1][0]), 0), [0] * len(sets)
    for level, j, start, end in phases(len(rows), len(sets)):
        low = bound(sets, levels, best[0])
        if start >= first and low >= best[0]:
            return "exact", best, start
        begin, stop = max(start, first), min(end, budget, CUT)
        if begin < stop:
            found = islice(words_from(sets[j][1], level, (begin - start) * BLOCK), (stop - begin) * BLOCK)
            best = min(best, min((weight(word), begin * BLOCK + i) for i, word in enumerate(found)))
        if end > min(budget, CUT):
            return "bracket", low, best, min(budget, CUT)
        levels[j] = level
    return "exact", best, end


def main():
    codes = dict(CODES, BCH_63=(63, 45, generator(6, [1, 3, 5])), BCH_255=(255, 199, generator(8, [1, 3, 5, 7, 9, 11, 13])))
    for name, (n, k, exponents) in codes.items():
        rows = [sum(1 << e + i for e in exponents) for i in range(k)]
        for budget in BUDGETS.get(name, []):
            print(name, budget, *answer(n, rows, budget))
        if name not in BUDGETS:
            print(name, exponents, CUT, *answer(n, rows, CUT, CUT - 300))


if __name__ == "__main__":
    main()
