#!/usr/bin/env python3
"""Prints the two quadratic residue codes of a length, as calls of a script.

    tools/residue_code.py N [Q]

N is an odd prime up to 255; Q, the size of a field of codes, 2 by default, is a square modulo N. Let S be the sum of the powers of x to
the squares modulo N that aren't 0. At a power of an element of order N it has one of two values, by whether the exponent is a square; so
the common divisors of x^N - 1 and S - c, for the constants c of the field, but for the factor x - 1, are the generator polynomials of
the two codes (MacWilliams and Sloane, The Theory of Error-Correcting Codes, chapter 16). With wrong arguments it ends with 2.
"""
import sys

import filters
import linear_algebra

LONGEST = 255


def is_odd_prime(n):
    return n > 2 and all(n % d for d in range(2, n))


def trimmed(a):
    while a and a[-1] == 0:
        a = a[:-1]
    return a


def remainder(field, a, b):
    """Of polynomials, as lists of coefficients from the constant upwards; and the quotient's coefficients."""
    a, quotient = list(a), [0] * max(0, len(a) - len(b) + 1)
    inverse = next(c for c in range(field.q) if field.products[b[-1]][c] == 1)
    for shift in range(len(a) - len(b), -1, -1):
        factor = field.products[a[shift + len(b) - 1]][inverse]
        quotient[shift] = factor
        for i, c in enumerate(b):
            negative = next(m for m in range(field.q) if field.sums[m][field.products[factor][c]] == 0)
            a[shift + i] = field.sums[a[shift + i]][negative]
    return trimmed(a), quotient


def common_divisor(field, a, b):
    """The one whose highest coefficient is 1."""
    while b:
        a, b = b, remainder(field, a, b)[0]
    inverse = next(c for c in range(field.q) if field.products[a[-1]][c] == 1)
    return [field.products[inverse][c] for c in a]


def residue_polynomials(n, q):
    """The generator polynomials of the two codes, the lesser list first."""
    field = linear_algebra.Field(q)
    minus_one = next(m for m in range(q) if field.sums[m][1] == 0)
    whole = [minus_one] + [0] * (n - 1) + [1]
    squares = {i * i % n for i in range(1, n)}
    found = set()
    for c in range(q):
        divisor = common_divisor(field, whole, trimmed([c] + [int(i in squares) for i in range(1, n)]))
        rest, quotient = remainder(field, divisor, [minus_one, 1])
        divisor = divisor if rest else quotient
        if len(divisor) == (n - 1) // 2 + 1:
            found.add(tuple(divisor))
    return sorted(found)


def residue_codes(n, q):
    return [f"GeneratorPolCode({list(polynomial)},{n},GF({q}))".replace(" ", "") for polynomial in residue_polynomials(n, q)]


def main():
    try:
        n, q = [int(word) for word in sys.argv[1:] + ["2"]][:2] if len(sys.argv) in (2, 3) else (0, 0)
    except ValueError:
        n = q = 0
    if not n:
        print("usage: tools/residue_code.py N [Q]", file=sys.stderr)
        return 2
    if not is_odd_prime(n) or n > LONGEST:
        print(f"the length {n} is no odd prime up to {LONGEST}", file=sys.stderr)
        return 2
    if q not in (2, 3, 4, 5, 7, 8, 9, 11, 13, 16) or q % n not in {i * i % n for i in range(1, n)}:
        print(f"{q} is not the size of a field of codes that is a square modulo {n}", file=sys.stderr)
        return 2
    print("\n".join(residue_codes(n, q)))
    return 0


if __name__ == "__main__":
    filters.end(main)
