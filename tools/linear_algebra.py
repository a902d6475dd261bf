#!/usr/bin/env python3
"""Words and matrices over fields of up to 16 elements, by plain arithmetic.

Stands beside the product and shares nothing with it: products are remainders of long products of coefficient lists, and
spans, kernels and solutions are found by listing all words. Prints the values that the tests of lc_vec, lc_matrix, lc_code
and lc_basic hold.
"""
from itertools import product as tuples

# size: characteristic, coefficients of the monic polynomial from the constant upwards, without the leading 1
FIELDS = {
    2: (2, [0]), 3: (3, [0]), 4: (2, [1, 1]), 5: (5, [0]), 7: (7, [0]), 8: (2, [1, 1, 0]),
    9: (3, [2, 2]), 11: (11, [0]), 13: (13, [0]), 16: (2, [1, 1, 0, 0]),
}

# how many bits of a number are ones (Python 3.9 has no call for it)
bit_count = getattr(int, "bit_count", lambda number: bin(number).count("1"))


class Field:
    def __init__(self, q):
        self.q = q
        self.p, self.lower = FIELDS[q]
        self.s = len(self.lower)
        self.sums = [[self.sum_of(a, b) for b in range(q)] for a in range(q)]
        self.products = [[self.product_of(a, b) for b in range(q)] for a in range(q)]

    def polynomial(self, a):
        return [a // self.p**i % self.p for i in range(self.s)]

    def number(self, u):
        return sum(c % self.p * self.p**i for i, c in enumerate(u))

    def sum_of(self, a, b):
        return self.number([x + y for x, y in zip(self.polynomial(a), self.polynomial(b))])

    def product_of(self, a, b):
        long = [0] * (2 * self.s - 1)
        for i, x in enumerate(self.polynomial(a)):
            for j, y in enumerate(self.polynomial(b)):
                long[i + j] += x * y
        for k in range(2 * self.s - 2, self.s - 1, -1):
            for i in range(self.s):
                long[k - self.s + i] -= long[k] * self.lower[i]
            long[k] = 0
        return self.number(long[:self.s])

    def add_scaled(self, u, c, v):
        return [self.sums[x][self.products[c][y]] for x, y in zip(u, v)]

    def dot(self, u, v):
        total = 0
        for x, y in zip(u, v):
            total = self.sums[total][self.products[x][y]]
        return total


def span(field, n, rows):
    words = {(0,) * n}
    for row in rows:
        words = {tuple(field.add_scaled(w, c, row)) for w in words for c in range(field.q)}
    return words


def reduced(words):
    """The reduced matrix of a linear set of words: for each first place of a nonzero word, the word that begins there
    with a 1 and is 0 at the other first places."""
    places = sorted({next(i for i, a in enumerate(w) if a) for w in words if any(w)})
    rows = []
    for p in places:
        rows += [w for w in words if all(w[r] == (r == p) for r in places)]
    return [list(w) for w in rows]


def systematic(words, places):
    rows = []
    for p in places:
        rows += [w for w in words if all(w[r] == (r == p) for r in places)]
    return [list(w) for w in rows] if len(rows) == len(places) else None


def words_over_fields():
    for q in (3, 4, 9, 16):
        field = Field(q)
        c, to, from_ = q - 1, [0, 1, 2, q - 1], [1, 2, q - 1, q - 1]
        print("words", (q, c, field.add_scaled(to, c, from_), field.dot(to, from_)))


def matrices_over_fields():
    for q, rows, right in (
        (2, [[1, 1, 0, 1, 0], [0, 1, 1, 0, 1], [1, 0, 1, 1, 1]], [1, 0, 1]),
        (3, [[1, 2, 0], [2, 1, 1]], [1, 1]),
        (4, [[0, 2, 3, 1], [2, 1, 0, 3], [2, 3, 3, 2]], [2, 3, 1]),
        (9, [[3, 4, 5, 0], [6, 8, 7, 1]], [4, 2]),
        (16, [[0, 7, 9, 2], [5, 1, 0, 14]], [6, 11]),
    ):
        field, n = Field(q), len(rows[0])
        words = span(field, n, rows)
        kernel = [w for w in tuples(range(q), repeat=n) if all(field.dot(r, w) == 0 for r in rows)]
        solutions = [w for w in tuples(range(q), repeat=n) if [field.dot(r, w) for r in rows] == right]
        print("matrix", q, rows)
        print("  echelon", reduced(words))
        print("  kernel", reduced(set(kernel)))
        print("  solve", right, "one of", len(solutions))
        if q ** len(rows) == len(words):
            for set_ in ((0, 1), (0, 2), (1, 2), (2, 3), (0, 3)):
                if len(set_) == len(rows) and set_[-1] < n:
                    print("  systematic on", set_, systematic(words, set_))


def members_over_fields():
    for q, rows, words in (
        (3, [[1, 2, 0], [2, 1, 1]], ([2, 1, 2], [2, 2, 0])),
        (9, [[3, 4, 5, 0], [6, 8, 7, 1]], ([3, 4, 5, 8], [3, 4, 0, 8])),
        (16, [[0, 7, 9, 2], [5, 1, 0, 14]], ([1, 1, 13, 9], [1, 1, 13, 8])),
    ):
        members = span(Field(q), len(rows[0]), rows)
        print("members", q, rows, [(w, tuple(w) in members) for w in words])


def plain_codes():
    """Rows of Hamming, Reed-Muller and dual repetition codes, each from the list of its words."""
    for q, r in ((2, 3), (3, 2)):
        field = Field(q)
        columns = [u for u in tuples(range(q), repeat=r) if any(u) and next(a for a in u if a) == 1]
        checks = [[u[i] for u in columns] for i in range(r)]
        words = [w for w in tuples(range(q), repeat=len(columns)) if all(field.dot(c, w) == 0 for c in checks)]
        print("hamming", q, r, reduced(set(words)))
    rows = [[1] * 8] + [[i >> v & 1 for i in range(8)] for v in range(3)]
    print("reed_muller", 1, 3, reduced(span(Field(2), 8, rows)))
    words = [w for w in tuples(range(3), repeat=4) if sum(w) % 3 == 0]
    print("dual of repetition", 4, 3, reduced(set(words)))


if __name__ == "__main__":
    words_over_fields()
    matrices_over_fields()
    members_over_fields()
    plain_codes()
