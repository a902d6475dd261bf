#!/usr/bin/env python3
"""Information sets, their fresh columns, divisors of weights and bounds, from the list of all words.

Stands beside the product and shares nothing with it: a column is in the span of others if it is in the list of their sums, and
the divisor is that of the weights of all words. Prints the values that the tests of lc_infoset, and of the divisors of lc_matrix
and lc_code, hold.
"""
from linear_algebra import Field, reduced, span


def first_basis(field, rows, order):
    taken = []
    for c in order:
        if tuple(row[c] for row in rows) not in span(field, len(rows), [[row[t] for row in rows] for t in taken]):
            taken.append(c)
    return sorted(taken)


def sets_of(field, n, rows):
    sets, used = [], []
    while True:
        order = [c for c in range(n) if c not in used] + [c for c in range(n) if c in used]
        basis = first_basis(field, rows, order)
        fresh = [c for c in basis if c not in used]
        if sets and 2 * len(fresh) < len(rows):
            return sets
        sets.append((basis, fresh))
        used += fresh


def divisor(q, words):
    weights = [sum(1 for a in w if a) for w in words]
    for d in {2: [4, 2], 3: [3]}.get(q, []):
        if all(w % d == 0 for w in weights):
            return d
    return 1


def bound(d, k, sets, levels):
    t = max(1, sum(max(0, w + 1 - (k - len(fresh))) for (_, fresh), w in zip(sets, levels)))
    return -(-t // d) * d


def generated(text):
    return [[int(c) for c in row] for row in text.split()]


def cyclic(n, g, k):
    return [[0] * i + g + [0] * (n - len(g) - i) for i in range(k)]


def extended(rows, p):
    return [row + [-sum(row) % p] for row in rows]


CODES = [
    ("Hamming", 2, generated("1000011 0100101 0010110 0001111")),
    ("half", 2, generated("100010 010001 001011 000111")),
    ("one fewer than half", 2, generated("10001 01001 00101 00011")),
    ("repetition", 2, generated("11111")),
    ("repetition", 3, generated("1111")),
    ("repetition", 16, [[1, 1, 1]]),
    ("dimension 1", 2, generated("01011")),
    ("dimension n", 4, generated("100 010 001")),
    ("extended Hamming", 2, generated("10000111 01001011 00101101 00011110")),
    ("even weights", 2, generated("1001 0101 0011")),
    ("Golay, extended", 2, extended(cyclic(23, [1, 0, 1, 0, 1, 1, 1, 0, 0, 0, 1, 1], 12), 2)),
    ("ternary Golay", 3, cyclic(11, [2, 0, 1, 2, 1, 1], 6)),
    ("ternary Golay, extended", 3, extended(cyclic(11, [2, 0, 1, 2, 1, 1], 6), 3)),
    ("hexacode", 4, [[1, 0, 0, 1, 2, 2], [0, 1, 0, 2, 1, 2], [0, 0, 1, 2, 2, 1]]),
]
ROWS = [
    (2, generated("11110000 11101000")),
    (2, generated("11110000 11001100 10101010")),
    (2, generated("1100 0110")),
    (2, generated("1110 0111")),
    (3, generated("1110 0111")),
    (3, generated("1110 0121")),
    (3, generated("1200")),
    (4, generated("1100")),
    (2, generated("0000")),
]


def main():
    for name, q, rows in CODES:
        field, n = Field(q), len(rows[0])
        words = span(field, n, rows)
        rows = [list(w) for w in reduced(words)]
        sets = sets_of(field, n, rows)
        d, k = divisor(q, words), len(rows)
        levels = [[1] * len(sets), [2] + [1] * (len(sets) - 1), [2] * len(sets)] if k > 2 else [[0] * len(sets)]
        bounds = [(seen, bound(d, k, sets, seen)) for seen in levels]
        print(f"// {name}\n({q}, {n}, &{rows}, &{[(s, f) for s, f in sets]}, {d}, &{bounds}),")
    for q, rows in ROWS:
        print(q, rows, divisor(q, span(Field(q), len(rows[0]), rows)))


main()
