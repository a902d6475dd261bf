#!/usr/bin/env python3
"""Sums, products and inverses of the eighteen fields, by plain polynomial arithmetic.

Stands beside the product and shares nothing with it: each product is the remainder of a long product of coefficient
lists, each inverse is found by trying all elements. Prints a line for each field: its size, and for sums, products and
inverses one number that every entry of the table moves:

    sum over all a, b of (a q + b + 1) times the entry, modulo 2^32      (sums, products)
    sum over all nonzero a of (a + 1) times the inverse, modulo 2^32     (inverses)
"""

# size: characteristic, coefficients of the monic polynomial from the constant upwards, without the leading 1
FIELDS = {
    2: (2, [0]), 3: (3, [0]), 4: (2, [1, 1]), 5: (5, [0]), 7: (7, [0]), 8: (2, [1, 1, 0]),
    9: (3, [2, 2]), 11: (11, [0]), 13: (13, [0]), 16: (2, [1, 1, 0, 0]), 25: (5, [2, 4]), 27: (3, [1, 2, 0]),
    32: (2, [1, 0, 1, 0, 0]), 64: (2, [1, 1, 0, 0, 0, 0]), 81: (3, [2, 1, 0, 0]),
    128: (2, [1, 1, 0, 0, 0, 0, 0]), 243: (3, [1, 2, 0, 0, 0]), 256: (2, [1, 0, 1, 1, 1, 0, 0, 0]),
}


def coefficients(p, s, a):
    return [a // p**i % p for i in range(s)]


def number(p, u):
    return sum(c * p**i for i, c in enumerate(u))


def product(p, lower, u, v):
    s = len(lower)
    long = [0] * (2 * s - 1)
    for i, x in enumerate(u):
        for j, y in enumerate(v):
            long[i + j] += x * y
    for k in range(2 * s - 2, s - 1, -1):
        for i in range(s):
            long[k - s + i] -= long[k] * lower[i]
        long[k] = 0
    return [c % p for c in long[:s]]


def main():
    for q, (p, lower) in FIELDS.items():
        s = len(lower)
        polys = [coefficients(p, s, a) for a in range(q)]
        sums = products = inverses = 0
        for a in range(q):
            for b in range(q):
                place = a * q + b + 1
                sums += place * number(p, [(x + y) % p for x, y in zip(polys[a], polys[b])])
                entry = number(p, product(p, lower, polys[a], polys[b]))
                products += place * entry
                if entry == 1:
                    inverses += (a + 1) * b
        print(q, sums % 2**32, products % 2**32, inverses % 2**32)


if __name__ == "__main__":
    main()
