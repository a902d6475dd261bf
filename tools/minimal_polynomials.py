#!/usr/bin/env python3
"""Minimal polynomials and cyclotomic sets, by products over the conjugates: the expected values of the tests of lc_poly.

Elements are numbers whose digits in base p are the coefficients of a polynomial, the constant lowest. A small field lies in a
large one by the least-numbered root of its polynomial.
"""
FIELDS = {
    2: (2, [0]), 3: (3, [0]), 4: (2, [1, 1]), 8: (2, [1, 1, 0]), 9: (3, [2, 2]),
    16: (2, [1, 1, 0, 0]), 27: (3, [1, 2, 0]), 81: (3, [2, 1, 0, 0]), 256: (2, [1, 0, 1, 1, 1, 0, 0, 0]),
}


def digits(a, p, s):
    return [a // p ** i % p for i in range(s)]


def number(u, p):
    return sum(c * p ** i for i, c in enumerate(u))


class Field:
    def __init__(self, q):
        self.q = q
        self.p, self.lower = FIELDS[q]
        self.s = len(self.lower)

    def add(self, a, b):
        return number([(x + y) % self.p for x, y in zip(digits(a, self.p, self.s), digits(b, self.p, self.s))], self.p)

    def neg(self, a):
        return number([-x % self.p for x in digits(a, self.p, self.s)], self.p)

    def mul(self, a, b):
        u, v = digits(a, self.p, self.s), digits(b, self.p, self.s)
        w = [0] * (2 * self.s)
        for i, x in enumerate(u):
            for j, y in enumerate(v):
                w[i + j] += x * y
        for k in reversed(range(self.s, 2 * self.s)):
            for i, c in enumerate(self.lower):
                w[k - self.s + i] -= w[k] * c
            w[k] = 0
        return number([c % self.p for c in w[:self.s]], self.p)

    def power(self, a, e):
        r = 1
        for _ in range(e):
            r = self.mul(r, a)
        return r

    def value(self, u, x):
        r = 0
        for c in reversed(u):
            r = self.add(c, self.mul(x, r))
        return r


def embedding(small, large):
    root = min(b for b in range(large.q) if large.value(small.lower + [1], b) == 0)
    return [large.value(digits(a, small.p, small.s), root) for a in range(small.q)]


def minimal(large, small, a):
    back = {b: i for i, b in enumerate(embedding(small, large))}
    conjugates, x = [], a
    while x not in conjugates:
        conjugates.append(x)
        x = large.power(x, small.q)
    u = [1]
    for c in conjugates:
        shifted, minus = [0] + u, [large.mul(large.neg(c), y) for y in u] + [0]
        u = [large.add(y, z) for y, z in zip(shifted, minus)]
    return [back[c] for c in u]


def cyclotomic(n, q, i):
    return sorted({i * q ** j % n for j in range(n)})


if __name__ == "__main__":
    for q, r in [(16, 2), (16, 4), (27, 3)]:
        print(q, r, [minimal(Field(q), Field(r), a) for a in range(q)])
    for n, q, i in [(15, 2, 1), (15, 2, 5), (23, 2, 1), (255, 2, 7), (13, 3, 2), (13, 3, 0)]:
        print(n, q, i, cyclotomic(n, q, i))
