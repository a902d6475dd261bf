#!/usr/bin/env python3
"""Checks a certificate of a minimum distance, as `codes check` does, and shares nothing with it.

    tools/check_certificate.py [--quiet] [FILE]
    tools/check_certificate.py --cost [FILE]

FILE is the certificate, of a search or by construction; without it, or if it is -, the certificate comes from standard input. The
program prints `accepted distance D` and ends with 0, or `rejected N`, with the numbers that belong to the reason N after ` with`, and
ends with 11; with 4 if the file can't be read, with 12 if it is longer than a certificate may be. docs/FORMATS.md says what a
certificate is and which reason comes first. One file, the standard library of Python alone: whoever trusts neither `codes` nor the
prover that proved it can read it in half an hour.

Every word that a search of the certificate says was seen is looked at, so the time grows with its cost: about a million words a
second over two elements, a tenth of that over other fields. If it will take more than some seconds, lines on standard error say how
far it is. `--quiet` leaves them out. `--cost` checks nothing: it prints `cost N`, N the number of words that its searches look at,
or the line of a certificate that can't be read.
"""
import json
import math
import os
import re
import signal
import sys
import time
from dataclasses import dataclass
from functools import lru_cache
from itertools import combinations, count, product
from math import comb

# the fields of at most 16 elements: the characteristic, and the coefficients of the polynomial but for the leading 1
FIELDS = {2: (2, (0,)), 3: (3, (0,)), 4: (2, (1, 1)), 5: (5, (0,)), 7: (7, (0,)), 8: (2, (1, 1, 0)), 9: (3, (2, 2)), 11: (11, (0,)),
          13: (13, (0,)), 16: (2, (1, 1, 0, 0))}
# those that only points and multipliers are from
LARGER = {25: (5, (2, 4)), 27: (3, (1, 2, 0)), 32: (2, (1, 0, 1, 0, 0)), 64: (2, (1, 1, 0, 0, 0, 0)), 81: (3, (2, 1, 0, 0)),
          128: (2, (1, 1, 0, 0, 0, 0, 0)), 243: (3, (1, 2, 0, 0, 0)), 256: (2, (1, 0, 1, 1, 1, 0, 0, 0))}
LONGEST = 255
MOST_BOUND = 256
MOST_CLAIMS = 1024
MOST_NESTED = 32
MOST_WORDS = 2**32
WIDEST = 2**64 - 1
INPUT_LIMIT = 2**20
DEEPEST = 127


class Rejected(Exception):
    def __init__(self, number, *values):
        super().__init__(number)
        self.number, self.values = number, values

    def __str__(self):
        return f"rejected {self.number}" + (" with " + " ".join(map(str, self.values)) if self.values else "")


class Field:
    """Elements are numbers, whose digits in base p are the coefficients of a polynomial, the constant lowest."""

    def __init__(self, q):
        self.q, (self.p, self.lower) = q, (FIELDS | LARGER)[q]
        digits = [self.digits(a) for a in range(q)]
        self.sums = [[self.number([(a + b) % self.p for a, b in zip(u, v)]) for v in digits] for u in digits]
        # the elements times the powers of the variable, and with these the products, one more than a product before
        shifted = [list(range(q))]
        for _ in self.lower[1:]:
            shifted.append([self.times_variable(digits[a]) for a in shifted[-1]])
        self.products = [[0] * q]
        for a in range(1, q):
            top = max(i for i, c in enumerate(digits[a]) if c)
            self.products.append([self.sums[b][c] for b, c in zip(self.products[a - self.p**top], shifted[top])])
        self.negatives = [self.sums[a].index(0) for a in range(q)]
        self.inverses = [0] + [self.products[a].index(1) for a in range(1, q)]

    def digits(self, a):
        return [a // self.p**i % self.p for i in range(len(self.lower))]

    def number(self, digits):
        return sum(a * self.p**i for i, a in enumerate(digits))

    def times_variable(self, u):
        return self.number([(a - u[-1] * c) % self.p for a, c in zip([0, *u], self.lower)])

    def plus_multiple(self, word, c, row):
        """The word plus c times the row."""
        if c == 0:
            return word
        multiple = self.products[c]
        return [self.sums[a][multiple[b]] for a, b in zip(word, row)]

    def dot(self, u, v):
        total = 0
        for a, b in zip(u, v):
            total = self.sums[total][self.products[a][b]]
        return total

    def power(self, a, exponent):
        total = 1
        for _ in range(exponent):
            total = self.products[total][a]
        return total

    def order(self, a):
        return next(e for e in range(1, self.q) if self.power(a, e) == 1)


@lru_cache(maxsize=None)
def field_of(q):
    return Field(q)


@lru_cache(maxsize=None)
def powers_of_generator(q, number):
    """The first powers of the least element whose powers are all nonzero ones, from its power 0 up."""
    field = field_of(q)
    generator = next(a for a in range(1, q) if field.order(a) == q - 1)
    return [field.power(generator, i) for i in range(number)]


def weight(word):
    return sum(1 for a in word if a)


# ---- reading -----------------------------------------------------------------------------------------------------------

def is_number(value):
    return isinstance(value, int) and not isinstance(value, bool) and 0 <= value <= WIDEST


def is_numbers(value):
    return isinstance(value, list) and all(is_number(a) for a in value)


def fits(row, length, q):
    return is_numbers(row) and len(row) == length and all(a < q for a in row)


def are_columns(value, length):
    return is_numbers(value) and all(a < b for a, b in zip(value, value[1:])) and all(a < length for a in value)


# a string, and an escape in one that is well formed: a surrogate only with its pair
STRING = re.compile(r'"(?:[^"\\]|\\.)*"')
ESCAPE = re.compile(r"\\(?:u[dD][89abAB]..\\u[dD][c-fC-F]..|u(?![dD][89a-fA-F])....|[^u])")


def finite(digits):
    """The float that the digits spell. One that is too large is refused."""
    value = float(digits)
    if not math.isfinite(value):
        raise ValueError
    return value


def whole(digits):
    """A number without a fraction and an exponent. One that is too large for a float is refused too, and `-0` is a float."""
    value = finite(digits)
    return value if digits == "-0" else int(digits)


def no_constant(name):
    raise ValueError


def depth(text):
    """How deep arrays and objects nest."""
    deepest = level = 0
    for sign in re.findall(r"[][{}]", STRING.sub("", text)):
        level += 1 if sign in "[{" else -1
        deepest = max(deepest, level)
    return deepest


def parsed(text):
    """The value that the text is, by the rules of JSON and the limits of docs/FORMATS.md. Of two equal keys the last counts."""
    try:
        value = json.loads(text, parse_constant=no_constant, parse_float=finite, parse_int=whole)
    except (ValueError, RecursionError):
        raise Rejected(30) from None
    if depth(text) > DEEPEST or "\\" in ESCAPE.sub("", text):
        raise Rejected(30)
    return value


def field_at(value):
    q = value.get("field")
    if not (is_number(q) and q in FIELDS):
        raise Rejected(31, 3)
    return q


def need_distance(value):
    if not (is_number(value.get("distance")) and value["distance"] >= 1):
        raise Rejected(31, 6)


def read_search(value, q):
    """The rules 4 to 10: the rows, the word, the distance, and the sets, which are None for a scan."""
    rows = value.get("rows")
    if not (isinstance(rows, list) and rows and isinstance(rows[0], list) and rows[0] and all(fits(row, len(rows[0]), q) for row in rows)):
        raise Rejected(31, 4)
    length = len(rows[0])
    if not fits(value.get("word"), length, q):
        raise Rejected(31, 5)
    need_distance(value)
    by = value.get("by")
    if by not in ("levels", "scan") or not isinstance(by, str):
        raise Rejected(31, 7)
    sets = value.get("sets")
    if by == "scan" and "sets" in value or by == "levels" and not (isinstance(sets, list) and sets and all(isinstance(s, dict) for s in sets)):
        raise Rejected(31, 8)
    if by == "levels":
        if not all(are_columns(s.get("basis"), length) and are_columns(s.get("fresh"), length) and is_number(s.get("level")) for s in sets):
            raise Rejected(31, 9)
        if not all(set(s["fresh"]) <= set(s["basis"]) for s in sets):
            raise Rejected(31, 10)
    return rows, value["word"], value["distance"], sets


def is_long_search(rows, sets):
    return len(rows[0]) > LONGEST or len(rows) > LONGEST or len(sets or []) > LONGEST


def are_closed(sets):
    return all(len(s) == 3 for s in sets or [])


def version_of(value):
    """The version of an object: 1 or 2."""
    if not isinstance(value, dict):
        raise Rejected(31, 1)
    if not (is_number(value.get("version")) and value["version"] in (1, 2)):
        raise Rejected(31, 2)
    return value["version"]


def read_plain(value):
    """The parts of an object of version 1; the first rule of shape that is broken comes first."""
    q = field_at(value)
    rows, word, distance, sets = read_search(value, q)
    if len(value) != (6 if sets is None else 7) or not are_closed(sets):
        raise Rejected(31, 11)
    if is_long_search(rows, sets):
        raise Rejected(32)
    return field_of(q), rows, word, distance, sets


def read(text):
    """The parts of the certificate of a search."""
    value = parsed(text)
    if version_of(value) != 1:
        raise Rejected(31, 2)
    return read_plain(value)


# ---- reading a tree ----------------------------------------------------------------------------------------------------

@dataclass
class Claim:
    """A claim over q elements: its kind, its parts in order, and what it says itself."""
    kind: str
    q: int
    parts: list
    own: dict

    def nested(self):
        return 1 + max((part.nested() for part in self.parts), default=0)

    def all(self):
        """The claim and those below it, in the order of their numbers."""
        yield self
        for part in self.parts:
            yield from part.all()


@dataclass
class Tree:
    q: int
    claim: Claim
    word: list
    distance: int


# for each kind but a search the keys of its parts, and its other keys
KINDS = {"alternant": ((), ("locator", "points", "multipliers", "r")), "uuv": (("left", "right"), ()), "sum": (("left", "right"), ()),
         "product": (("left", "right"), ()), "concat": (("outer", "inner"), ("large",)), "subcode": (("of",), ("rows",)),
         "puncture": (("of",), ("places",)), "shorten": (("of",), ("places",)), "extend": (("of",), ())}


def is_own(key, value, q):
    """Whether a value may stand at this key of a claim over q elements."""
    if key in ("points", "multipliers"):
        return is_numbers(value) and all(a <= 255 for a in value)
    if key == "places":
        return is_numbers(value)
    if key == "rows":
        return isinstance(value, list) and all(is_numbers(row) and all(a < q for a in row) for row in value)
    return is_number(value) and (key != "large" or value in FIELDS)


def read_claim(value, q):
    """A claim over q elements, by rule 12."""
    kind = value.get("kind") if isinstance(value, dict) else None
    if not isinstance(kind, str):
        raise Rejected(31, 12)
    if kind == "search":
        return read_search_claim(value, q)
    keys, others = KINDS.get(kind, ((), None))
    if others is None or set(value) != {"kind", *keys, *others} or not all(is_own(key, value[key], q) for key in others):
        raise Rejected(31, 12)
    parts = [read_claim(value[key], value["large"] if key == "outer" else q) for key in keys]
    return Claim(kind, q, parts, {key: value[key] for key in others})


def read_search_claim(value, q):
    try:
        rows, word, distance, sets = read_search(value, q)
    except Rejected:
        raise Rejected(31, 12) from None
    if len(value) != (5 if sets is None else 6):
        raise Rejected(31, 12)
    return Claim("search", q, [], {"rows": rows, "word": word, "distance": distance, "sets": sets})


def is_long(claim):
    """Whether a list of the claim itself is too long."""
    own = claim.own
    if claim.kind == "search":
        return is_long_search(own["rows"], own["sets"])
    return any(len(own.get(key, ())) > LONGEST for key in ("rows", "points", "multipliers", "places")) or any(len(row) > LONGEST for row in own.get("rows", ()))


def read_tree(value):
    """The tree of an object of version 2."""
    q = field_at(value)
    claim = read_claim(value.get("claim"), q)
    word = value.get("word")
    if not (is_numbers(word) and word and fits(word, len(word), q)):
        raise Rejected(31, 5)
    need_distance(value)
    claims = list(claim.all())
    if len(value) != 5 or not all(are_closed(c.own.get("sets")) for c in claims):
        raise Rejected(31, 11)
    if len(word) > LONGEST or any(map(is_long, claims)) or len(claims) > MOST_CLAIMS or claim.nested() > MOST_NESTED:
        raise Rejected(32)
    return Tree(q, claim, word, value["distance"])


# ---- checking ----------------------------------------------------------------------------------------------------------

def systematic(field, rows, columns):
    """Rows of the same span, each with a 1 at one of the columns, where the others are 0: the columns that have such a row, and
    the rows. Columns are tried in this order."""
    left, done, pivots = [list(row) for row in rows], [], []
    for column in columns:
        pivot = next((row for row in left if row[column]), None)
        if pivot is None:
            continue
        left.remove(pivot)
        pivot = [field.products[field.inverses[pivot[column]]][a] for a in pivot]
        for others in (left, done):
            for i, row in enumerate(others):
                others[i] = field.plus_multiple(row, field.negatives[row[column]], pivot)
        done.append(pivot)
        pivots.append(column)
    return pivots, done


def is_in_span(field, rows, pivots, word):
    for column, row in zip(pivots, rows):
        word = field.plus_multiple(word, field.negatives[word[column]], row)
    return not any(word)


def divisor(field, rows):
    """What divides all weights of the span: 4 or 2 over 2 elements, 3 over 3, else 1."""
    weights = [weight(row) for row in rows]
    if field.q == 2 and all(w % 2 == 0 for w in weights):
        orthogonal = all(field.dot(u, v) == 0 for u in rows for v in rows)
        return 4 if orthogonal and all(w % 4 == 0 for w in weights) else 2
    if field.q == 3 and all(w % 3 == 0 for w in weights):
        return 3 if all(field.dot(u, v) == 0 for u in rows for v in rows) else 1
    return 1


class Progress:
    def __init__(self, total, quiet):
        self.total, self.seen, self.start, self.quiet, self.told = total, 0, time.monotonic(), quiet, 0

    def count(self, more):
        self.seen += more
        past = time.monotonic() - self.start
        if not self.quiet and past > self.told + 5:
            self.told = past
            print(f"{self.seen} of {self.total} words, some {past * (self.total - self.seen) / self.seen:.0f} seconds left", file=sys.stderr)


def look_at_binary(rows, level, distance, progress):
    """The first word of this level that is lighter than the distance and not zero. Words are integers, coordinate 0 lowest."""
    bits = [sum(a << i for i, a in enumerate(row)) for row in rows]
    for head in combinations(range(len(bits)), level - 1):
        prefix = 0
        for i in head:
            prefix ^= bits[i]
        for last in range(head[-1] + 1 if head else 0, len(bits)):
            word = prefix ^ bits[last]
            if word and bin(word).count("1") < distance:
                return [word >> i & 1 for i in range(len(rows[0]))]
        progress.count(len(bits) - (head[-1] + 1 if head else 0))
    return None


def look_at(field, rows, level, distance, progress):
    """The same over any field."""
    if field.q == 2:
        return look_at_binary(rows, level, distance, progress)
    for support in combinations(range(len(rows)), level):
        for symbols in product(range(1, field.q), repeat=level - 1):
            word = rows[support[0]]
            for i, c in zip(support[1:], symbols):
                word = field.plus_multiple(word, c, rows[i])
            if 0 < weight(word) < distance:
                return word
        progress.count((field.q - 1) ** (level - 1))
    return None


def messages(k, q, level):
    return comb(k, level) * (q - 1) ** (level - 1)


def levels_and_cost(k, q, sets):
    """Up to which level the messages of each set are looked at, and how many words these are."""
    if sets is None:
        return [k], q**k
    levels = [min(s["level"], k) for s in sets]
    return levels, sum(messages(k, q, w) for level in levels for w in range(1, level + 1))


def dimension(field, rows):
    return len(systematic(field, rows, range(len(rows[0])))[1])


def search_cost(field, rows, sets):
    return levels_and_cost(dimension(field, rows), field.q, sets)[1]


def check_search(field, rows, word, distance, sets, progress):
    """Raises the first reason against a search."""
    columns = range(len(word))
    pivots, echelon = systematic(field, rows, columns)
    k, q = len(echelon), field.q
    levels, cost = levels_and_cost(k, q, sets)
    if cost > MOST_WORDS:
        raise Rejected(39, min(cost, WIDEST))
    if not is_in_span(field, echelon, pivots, word):
        raise Rejected(33)
    if weight(word) != distance:
        raise Rejected(34, weight(word))
    matrices = [echelon]
    if sets:
        matrices = []
        for number, s in enumerate(sets, 1):
            found, matrix = systematic(field, rows, s["basis"])
            if len(s["basis"]) != k or found != s["basis"]:
                raise Rejected(35, number)
            matrices.append(matrix)
        for column in columns:
            if sum(column in s["fresh"] for s in sets) > 1:
                raise Rejected(36, column)
        total, unit = sum(max(0, s["level"] + 1 - max(0, k - len(s["fresh"]))) for s in sets), divisor(field, echelon)
        bound = -(-max(1, total) // unit) * unit
        if all(s["level"] < k for s in sets) and bound < distance:
            raise Rejected(38, bound)
    for matrix, most in zip(matrices, levels):
        for level in range(1, most + 1):
            lighter = look_at(field, matrix, level, distance, progress)
            if lighter is not None:
                raise Rejected(37, *lighter)


# ---- the codes of a tree -----------------------------------------------------------------------------------------------

class Refused(Exception):
    """Why a claim defines no code, tried after its parts: the number."""


class Code:
    """The words of a length that rows span, with a bound of the weights of the nonzero ones."""

    def __init__(self, field, length, rows, bound):
        self.field, self.length, self.bound = field, length, min(bound, MOST_BOUND)
        self.pivots, self.rows = systematic(field, rows, range(length))

    def has(self, word):
        return len(word) == self.length and is_in_span(self.field, self.rows, self.pivots, word)


def need(holds, refusal):
    if not holds:
        raise Refused(refusal)


def need_length(length):
    need(1 <= length <= LONGEST, 2)


def of_search(claim, progress):
    own, field = claim.own, field_of(claim.q)
    try:
        check_search(field, own["rows"], own["word"], own["distance"], own["sets"], progress)
    except Rejected as reason:
        raise Refused(reason.number) from None
    return Code(field, len(own["word"]), own["rows"], own["distance"])


def degree_over(q, large):
    """The number from 1 to 8 whose power of q the other size is, or None."""
    return next((s for s in range(1, 9) if q**s == large), None)


@lru_cache(maxsize=None)
def coefficients(q, large):
    """For each element of the large field its coefficients, elements of the field of q: the element is the sum of the images of the
    coefficients times the powers of the generator, from 0 up."""
    small, field, degree = field_of(q), field_of(large), degree_over(q, large)

    def value_at(polynomial, x):
        total = 0
        for i, a in enumerate(polynomial):
            total = field.sums[total][field.products[a][field.power(x, i)]]
        return total

    zero = next(x for x in range(large) if value_at([*small.lower, 1], x) == 0)
    images = [value_at(small.digits(a), zero) for a in range(q)]
    powers = powers_of_generator(large, degree)
    return {field.dot([images[c] for c in all_of], powers): all_of for all_of in product(range(q), repeat=degree)}


def kernel(field, length, checks):
    """Rows that span the words whose product with each check is 0."""
    pivots, rows = systematic(field, checks, range(length))
    words = []
    for free in sorted(set(range(length)) - set(pivots)):
        word = [int(i == free) for i in range(length)]
        for pivot, row in zip(pivots, rows):
            word[pivot] = field.negatives[row[free]]
        words.append(word)
    return words


def of_alternant(claim):
    large, points, multipliers, r = (claim.own[key] for key in ("locator", "points", "multipliers", "r"))
    q, length = claim.q, len(points)
    need(large in FIELDS | LARGER, 1)
    need(degree_over(q, large), 10)
    need_length(length)
    need(len(multipliers) == length, 12)
    need(r <= length, 3)
    need(all(a < large for a in points) and all(0 < a < large for a in multipliers), 3)
    need(len(set(points)) == length, 8)
    field, told, checks, products = field_of(large), coefficients(q, large), [], multipliers
    for _ in range(r):
        checks += [[told[a][i] for a in products] for i in range(degree_over(q, large))]
        products = [field.products[a][b] for a, b in zip(products, points)]
    return Code(field_of(q), length, kernel(field_of(q), length, checks), r + 1)


def of_uuv(a, b):
    need(a.length == b.length, 12)
    need_length(2 * a.length)
    return Code(a.field, 2 * a.length, [u + u for u in a.rows] + [[0] * a.length + v for v in b.rows], min(2 * a.bound, b.bound))


def of_sum(a, b):
    need_length(a.length + b.length)
    rows = [u + [0] * b.length for u in a.rows] + [[0] * a.length + v for v in b.rows]
    return Code(a.field, a.length + b.length, rows, min(a.bound, b.bound))


def of_product(a, b):
    need_length(a.length * b.length)
    rows = [[a.field.products[x][y] for x in u for y in v] for u in a.rows for v in b.rows]
    return Code(a.field, a.length * b.length, rows, a.bound * b.bound)


def of_concat(outer, inner):
    field, large = inner.field, outer.field
    degree = degree_over(field.q, large.q)
    need(degree, 11)
    need(len(inner.rows) == degree, 14)
    need_length(outer.length * inner.length)
    told = coefficients(field.q, large.q)
    images = []
    for a in range(large.q):
        image = [0] * inner.length
        for c, row in zip(told[a], inner.rows):
            image = field.plus_multiple(image, c, row)
        images.append(image)
    multiples = [[large.products[power][a] for a in row] for row in outer.rows for power in powers_of_generator(large.q, degree)]
    return Code(field, outer.length * inner.length, [[b for a in word for b in images[a]] for word in multiples], outer.bound * inner.bound)


def of_subcode(code, rows):
    need(all(len(row) == code.length for row in rows), 12)
    need(all(map(code.has, rows)), 33)
    return Code(code.field, code.length, rows, code.bound)


def need_places(places, length):
    need(are_columns(places, length) and len(places) < length, 13)


def without(word, places):
    return [a for i, a in enumerate(word) if i not in places]


def of_puncture(code, places):
    need_places(places, code.length)
    return Code(code.field, code.length - len(places), [without(row, places) for row in code.rows], max(1, code.bound - len(places)))


def of_shorten(code, places):
    need_places(places, code.length)
    others = [column for column in range(code.length) if column not in places]
    pivots, rows = systematic(code.field, code.rows, [*places, *others])
    # a word that is 0 at the places takes none of the rows whose pivot is one
    rows = [without(row, places) for pivot, row in zip(pivots, rows) if pivot not in places]
    return Code(code.field, code.length - len(places), rows, code.bound)


def of_extend(code):
    need_length(code.length + 1)
    rows = [[*row, code.field.negatives[code.field.dot(row, [1] * code.length)]] for row in code.rows]
    return Code(code.field, code.length + 1, rows, code.bound + code.bound % 2 if code.field.q == 2 else code.bound)


MAKERS = {"uuv": of_uuv, "sum": of_sum, "product": of_product, "concat": of_concat, "subcode": of_subcode, "puncture": of_puncture,
          "shorten": of_shorten, "extend": of_extend}


def code_of(claim, numbers, progress):
    """The code that a claim defines. A claim is numbered before its parts, and tried after them."""
    number = next(numbers)
    parts = [code_of(part, numbers, progress) for part in claim.parts]
    try:
        if claim.kind == "search":
            return of_search(claim, progress)
        if claim.kind == "alternant":
            return of_alternant(claim)
        own = [value for key, value in claim.own.items() if key != "large"]
        return MAKERS[claim.kind](*parts, *own)
    except Refused as refusal:
        raise Rejected(48, number, *refusal.args) from None


def check_tree(tree, progress):
    code = code_of(tree.claim, count(), progress)
    if not code.has(tree.word):
        raise Rejected(33)
    if weight(tree.word) != tree.distance:
        raise Rejected(34, weight(tree.word))
    if code.bound < tree.distance:
        raise Rejected(49, code.bound)


def tree_cost(tree):
    return sum(search_cost(field_of(c.q), c.own["rows"], c.own["sets"]) for c in tree.claim.all() if c.kind == "search")


# ---- either ------------------------------------------------------------------------------------------------------------

def read_either(text):
    """The certificate: the parts of one of a search, or a tree."""
    value = parsed(text)
    return read_plain(value) if version_of(value) == 1 else read_tree(value)


def cost_of(certificate):
    """How many words its searches look at."""
    if isinstance(certificate, Tree):
        return tree_cost(certificate)
    field, rows, _, _, sets = certificate
    return search_cost(field, rows, sets)


def check(text, quiet=True):
    """The distance that the certificate proves. Raises the first reason against it."""
    certificate = read_either(text)
    progress = Progress(0 if quiet else cost_of(certificate), quiet)
    if isinstance(certificate, Tree):
        check_tree(certificate, progress)
        return certificate.distance
    check_search(*certificate, progress)
    return certificate[3]


def bytes_of(files):
    """The bytes of the file, or of standard input; one more than a certificate may have is enough."""
    if not files or files == ["-"]:
        return sys.stdin.buffer.read(INPUT_LIMIT + 1)
    with open(files[0], "rb") as opened:
        return opened.read(INPUT_LIMIT + 1)


def ended(text, asked):
    """Prints what the check of these bytes gives, or their cost; the status."""
    if len(text) > INPUT_LIMIT:
        print("input too long", file=sys.stderr)
        return 12
    try:
        if "--cost" in asked:
            print(f"cost {cost_of(read_either(text.decode()))}")
        else:
            print(f"accepted distance {check(text.decode(), '--quiet' in asked)}")
        return 0
    except UnicodeDecodeError:
        print(Rejected(30))
    except Rejected as reason:
        print(reason)
    return 11


def main():
    asked = {word for word in sys.argv[1:] if word in ("--quiet", "--cost")}
    files = [word for word in sys.argv[1:] if word not in asked]
    if "--help" in files or "-h" in files:
        print(__doc__.strip())
        return 0
    if len(files) > 1 or any(word.startswith("-") and word != "-" for word in files):
        print("usage: check_certificate.py [--quiet] [--cost] [FILE]", file=sys.stderr)
        return 2
    try:
        text = bytes_of(files)
    except (OSError, AttributeError) as error:  # (where standard input is closed there is no `sys.stdin`)
        print(f"{files[0]}: {error.strerror}" if files and files != ["-"] else "standard input can't be read", file=sys.stderr)
        return 4
    return ended(text, asked)


if __name__ == "__main__":
    for name in ("SIGINT", "SIGPIPE"):  # Ctrl-C and a pipe whose reader has gone end it silently, as they end any program
        if hasattr(signal, name):
            signal.signal(getattr(signal, name), signal.SIG_DFL)
    try:
        status = main()
        sys.stdout.flush()
    except OSError as error:
        print(f"standard output: {error.strerror}", file=sys.stderr, flush=True)
        os._exit(5)  # without a second try to write
    sys.exit(status)
