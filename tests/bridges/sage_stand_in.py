"""The few calls of Sage that tools/sage/codes.py uses, for fields by any irreducible polynomial whose zero is a generator, or isn't."""
from itertools import product


class Field:
    """Elements are remainders of polynomials, by the coefficients of the modulus from the constant upwards."""

    def __init__(self, p, modulus):
        self.p, self.modulus_, self.degree = p, modulus, len(modulus) - 1

    def order(self):
        return self.p ** self.degree

    def __call__(self, n):
        return Element(self, (int(n) % self.p,) + (0,) * (self.degree - 1))

    def gen(self):
        return Element(self, (0, 1) + (0,) * (self.degree - 2)) if self.degree > 1 else self(1)

    def __iter__(self):
        return (Element(self, c) for c in product(range(self.p), repeat=self.degree))


class Element:
    def __init__(self, field, c):
        self.field, self.c = field, tuple(c)

    def __add__(self, other):
        other = self.field(other) if isinstance(other, int) else other
        return Element(self.field, [(a + b) % self.field.p for a, b in zip(self.c, other.c)])

    __radd__ = __add__

    def __mul__(self, other):
        p, modulus, degree = self.field.p, self.field.modulus_, self.field.degree
        total = [0] * (2 * degree)
        for i, a in enumerate(self.c):
            for j, b in enumerate(other.c):
                total[i + j] += a * b
        for i in range(2 * degree - 1, degree - 1, -1):
            for j in range(degree):
                total[i - degree + j] -= total[i] * modulus[j]
            total[i] = 0
        return Element(self.field, [a % p for a in total[:degree]])

    def __pow__(self, exponent):
        result = self.field(1)
        for _ in range(exponent):
            result = result * self
        return result

    def __eq__(self, other):
        return self.c == (self.field(other).c if isinstance(other, int) else other.c)

    def __hash__(self):
        return hash(self.c)

    def __repr__(self):
        return str(self.c)


class Matrix:
    def __init__(self, rows):
        self.rows_ = rows

    def rows(self):
        return self.rows_


class Word(list):
    def hamming_weight(self):
        return sum(1 for x in self if x != 0)


class Code:
    """All its words are listed, so it is small."""

    def __init__(self, field, rows):
        self.field, self.rows = field, rows
        self.words = {(field(0),) * len(rows[0])}
        for row in rows:
            self.words = {tuple(a + x * b for a, b in zip(word, row)) for word in self.words for x in field}

    def base_field(self):
        return self.field

    def generator_matrix(self):
        return Matrix(self.rows)

    def length(self):
        return len(self.rows[0])

    def dimension(self):
        return 0 if len(self.words) == 1 else 1

    def ambient_space(self):
        return Word

    def __contains__(self, word):
        return tuple(word) in self.words

    def distance(self):
        return min(Word(word).hamming_weight() for word in self.words if any(x != 0 for x in word))
