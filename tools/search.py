#!/usr/bin/env python3
"""The answer of a search for the minimum distance under a budget of blocks, read from the definitions.

Stands beside the product and shares nothing with it: it lists the messages of each phase from the start, keeps the least pair of
weight and place, and computes the bound anew at each end of a phase. Prints answers of some codes as a check by hand;
`tools/reference.py` uses it for `MinimumDistance` and for certificates.
"""
from functools import reduce
from itertools import combinations, islice, product
from math import comb
from operator import xor

from linear_algebra import Field, bit_count

BLOCK = 4096
CUT = 2**40
ROUND = 256


def inverse(field, a):
    return next(b for b in range(1, field.q) if field.products[a][b] == 1)


def negative(field, a):
    return next(b for b in range(field.q) if field.sums[a][b] == 0)


def systematic_in(field, rows, order):
    """The greedy first basis of the columns in this order, and the rows that are the identity on it, by its rising columns."""
    rows, pivots = [list(row) for row in rows], []
    for c in order:
        done = len(pivots)
        i = next((i for i in range(done, len(rows)) if rows[i][c]), None)
        if i is None:
            continue
        rows[done], rows[i] = rows[i], rows[done]
        scale = inverse(field, rows[done][c])
        rows[done] = [field.products[scale][a] for a in rows[done]]
        for j, row in enumerate(rows):
            if j != done and row[c]:
                rows[j] = field.add_scaled(row, negative(field, row[c]), rows[done])
        pivots.append(c)
    turn = sorted(range(len(pivots)), key=lambda i: pivots[i])
    return sorted(pivots), [rows[i] for i in turn]


def bases_of(field, n, rows):
    """The information sets: for each its columns, those of them that are fresh, and its systematic rows."""
    sets, used = [], []
    while True:
        order = [c for c in range(n) if c not in used] + [c for c in range(n) if c in used]
        basis, systematic = systematic_in(field, rows, order)
        fresh = [c for c in basis if c not in used]
        if sets and 2 * len(fresh) < len(rows):
            return sets
        sets.append((basis, fresh, systematic))
        used += fresh


def sets_of(field, n, rows):
    """The same, for each the number of fresh columns, and its systematic rows."""
    return [(len(fresh), systematic) for _, fresh, systematic in bases_of(field, n, rows)]


def levels_below(q, k, count, blocks):
    """For each of so many sets the last level whose phase ends at or before this block, or 0."""
    levels, end = [0] * count, 0
    for level in range(1, k + 1):
        for j in range(count):
            end += -(-comb(k, level) * (q - 1) ** (level - 1) // BLOCK)
            if end <= blocks:
                levels[j] = level
    return levels


def weights_divisor(field, sets):
    """What divides all weights: 4 or 2 over 2 elements, 3 over 3, else 1, by the weights and dots of some rows."""
    rows = sets[0][1]
    weights = [sum(1 for a in row if a) for row in rows]
    if field.q == 2:
        if any(w % 2 for w in weights):
            return 1
        even = all(field.dot(u, v) == 0 for u in rows for v in rows)
        return 4 if even and all(w % 4 == 0 for w in weights) else 2
    if field.q == 3 and all(w % 3 == 0 for w in weights):
        return 3 if all(field.dot(u, v) == 0 for u in rows for v in rows) else 1
    return 1


def words_of_level(field, n, rows, level):
    for support in combinations(range(len(rows)), level):
        for coefficients in product(range(1, field.q), repeat=level - 1):
            word = rows[support[0]]
            for i, c in zip(support[1:], coefficients):
                word = field.add_scaled(word, c, rows[i])
            yield word


def numbers_of_level(n, rows, level):
    """The same over 2 elements, each word as a number of n bits, so that millions of words take seconds."""
    numbers = [int("".join(map(str, row)), 2) for row in rows]
    return (reduce(xor, support) for support in combinations(numbers, level))


def bound(divisor, k, sets, levels, weight):
    if k in levels:
        return weight
    least = max(1, sum(max(0, w + 1 - (k - fresh)) for (fresh, _), w in zip(sets, levels)))
    return -(-least // divisor) * divisor


def weighed(field, n, rows, level):
    """The words of a level, how one of them is weighed, and how its symbols are read."""
    if field.q == 2:
        return numbers_of_level(n, rows, level), bit_count, lambda word: [int(bit) for bit in f"{word:0{n}b}"]
    return words_of_level(field, n, rows, level), lambda word: sum(1 for a in word if a), list


def search(q, n, rows, budget, longest=ROUND):
    """Of independent rows, at least one: whether the distance is exact, the lower end, the weight, the word and the blocks; and
    the records of the rounds of at most `longest` blocks: after each the blocks that are done, the bound and the least weight."""
    field, k = Field(q), len(rows)
    sets = sets_of(field, n, rows)
    divisor = weights_divisor(field, sets)
    first = sets[0][1][0]
    best = (sum(1 for a in first if a), 0, first)
    levels, blocks, records = [0] * len(sets), 0, []
    for level in range(1, k + 1):
        for j, (_, systematic) in enumerate(sets):
            low = bound(divisor, k, sets, levels, best[0])
            if low >= best[0]:
                return (True, low, best[0], best[2], blocks), records
            end = blocks + -(-comb(k, level) * (q - 1) ** (level - 1) // BLOCK)
            words, weigh, symbols = weighed(field, n, systematic, level)
            while blocks < min(end, budget, CUT):
                last = min(end, budget, CUT, blocks + longest)
                for place, word in enumerate(islice(words, (last - blocks) * BLOCK), blocks * BLOCK):
                    weight = weigh(word)
                    if weight < best[0]:
                        best = (weight, place, symbols(word))
                blocks = last
                if blocks == end:
                    levels[j] = level
                records.append((blocks, bound(divisor, k, sets, levels, best[0]), best[0]))
            if blocks < end:
                return (False, low, best[0], best[2], blocks), records
    low = bound(divisor, k, sets, levels, best[0])
    return (low >= best[0], low, best[0], best[2], blocks), records


def answer(q, n, rows, budget):
    """The first of them."""
    return search(q, n, rows, budget)[0]


def main():
    hamming = [[1, 0, 0, 0, 0, 1, 1], [0, 1, 0, 0, 1, 0, 1], [0, 0, 1, 0, 1, 1, 0], [0, 0, 0, 1, 1, 1, 1]]
    for budget in (0, 1, 2, 100):
        print(2, 7, budget, *answer(2, 7, hamming, budget))
    golay = [[0] * i + [1, 0, 1, 0, 1, 1, 1, 0, 0, 0, 1, 1] + [0] * (11 - i) for i in range(12)]
    print(2, 23, *answer(2, 23, golay, 2**20))
    print(2, 24, *answer(2, 24, [row + [sum(row) % 2] for row in golay], 2**20))


if __name__ == "__main__":
    main()
