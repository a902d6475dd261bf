#!/usr/bin/env python3
"""A second reader of scripts: what `codes run` must print, found in the plainest way.

    tools/reference.py [run [workers=N] [round=N] [budget=N]] < SCRIPT
    tools/reference.py summary seed=N [workers=N] [round=N] [budget=N]

writes the text of the script to standard output and the records of its searches to standard error, and ends with its status: 0,
or 1 where the last line is a fault line, or 2 where a word is refused, or 12 where the script has more than 1,048,576 bytes. It
keeps no checkpoints. It follows docs/FORMATS.md, stands beside the product and shares nothing with it. It is slow and easy to
read: tokens are found one at a time, a fault ends everything at once, codes are made by plain elimination, and least words are
found by listing all words.
"""
import json
import re
import sys
from collections import Counter
from dataclasses import dataclass
from functools import lru_cache
from itertools import combinations, product as tuples
from math import comb

import field_tables
import linear_algebra
import near_search
import search
from linear_algebra import Field, bit_count, span

linear_algebra.FIELDS = field_tables.FIELDS

INPUT_LIMIT = 1048576
DEEPEST = 32
WIDEST = 2**64 - 1
SYMBOL_SIZES = (2, 3, 4, 5, 7, 8, 9, 11, 13, 16)
FIELD_SIZES = SYMBOL_SIZES + (25, 27, 32, 64, 81, 128, 243, 256)
LONGEST = 255
MOST_WORDS = 2**16
MOST_COSETS = 2**20
MOST_COUNTED, MOST_VECTORS = 2**24, 2**63  # of a weight distribution
BUDGET = 2**20  # blocks of a search
MOST_BLOCKS = 2**40


class Fault(Exception):
    """The fault that ends a text: its number, its place in the script, and the numbers that it carries."""

    def __init__(self, number, place, values=()):
        super().__init__(number, place, values)
        self.number, self.place, self.values = number, place, values

    def line(self):
        carried = " with" + "".join(f" {n}" for n in self.values) if self.values else ""
        return f"fault {self.number} at {self.place}{carried}"


class Refused(Exception):
    """A call's own refusal, which stands at the call's name."""

    def __init__(self, number, *values):
        super().__init__(number, values)
        self.number, self.values = number, values


# ---- tokens -------------------------------------------------------------------------------------------------------

LETTERS = b"ABCDEFGHIJKLMNOPQRSTUVWXYZabcdefghijklmnopqrstuvwxyz"
DIGITS = b"0123456789"
NAME_BYTES = LETTERS + DIGITS + b"_"
BLANKS = b" \t\r\n"
END_OF_SCRIPT = "end of script"


def number_of(digits):
    """Its value; of more than twenty digits behind the leading zeros the first twenty-one are enough to be too wide."""
    return int(b"0" + digits.lstrip(b"0")[:21])


@dataclass
class Token:
    kind: str  # "name", "number", a sign itself, or the end of the script
    place: int
    text: bytes


class Tokens:
    """The tokens of a script, one at a time. Only the next token is ever looked at, so that a fault is the first."""

    def __init__(self, script):
        self.script, self.at, self.open = script, 0, 0
        self.next = None

    def run_of(self, allowed, start):
        end = start
        while end < len(self.script) and self.script[end] in allowed:
            end += 1
        return end

    def skip_blanks(self):
        while self.at < len(self.script):
            if self.script[self.at] in BLANKS:
                self.at += 1
            elif self.script[self.at] == ord("#"):
                newline = self.script.find(b"\n", self.at)
                self.at = len(self.script) if newline < 0 else newline
            else:
                return

    def read(self):
        self.skip_blanks()
        start = self.at
        if start == len(self.script):
            return Token(END_OF_SCRIPT, start, b"")
        first = self.script[start]
        if first in LETTERS:
            kind, end = "name", self.run_of(NAME_BYTES, start)
        elif first in DIGITS:
            kind, end = "number", self.run_of(DIGITS, start)
        elif self.script[start:start + 2] == b":=":
            kind, end = ":=", start + 2
        elif first in b"()[],;":
            kind, end = chr(first), start + 1
        else:
            raise Fault(40, start)
        text = self.script[start:end]
        if kind == "number" and number_of(text) > WIDEST:
            raise Fault(43, start)
        self.at = end
        return Token(kind, start, text)

    def peek(self):
        if self.next is None:
            self.next = self.read()
            if self.next.kind in ("(", "[") and self.open == DEEPEST:
                raise Fault(42, self.next.place)
        return self.next

    def take(self, *allowed):
        """The next token, which is of one of these kinds."""
        token = self.peek()
        if token.kind not in allowed:
            raise Fault(41, token.place)
        self.next = None
        self.open += (token.kind in ("(", "[")) - (token.kind in (")", "]"))
        return token


# ---- trees --------------------------------------------------------------------------------------------------------

@dataclass
class Expr:
    kind: str  # "number", "name", "call" or "list"
    place: int
    value: object  # the number, or the name's text
    parts: list  # the arguments or elements


@dataclass
class Statement:
    target: object  # the name that is assigned to, or None
    expr: Expr


def read_parts(tokens, closing):
    """Expressions with commas between them, and the closing sign; the opening sign is behind us."""
    parts = []
    if tokens.peek().kind == closing:
        tokens.take(closing)
        return parts
    while True:
        parts.append(read_expr(tokens))
        if tokens.take(",", closing).kind == closing:
            return parts


def read_after_name(tokens, name):
    if tokens.peek().kind == "(":
        tokens.take("(")
        return Expr("call", name.place, name.text, read_parts(tokens, ")"))
    return Expr("name", name.place, name.text, [])


def read_expr(tokens):
    first = tokens.take("number", "name", "[")
    if first.kind == "number":
        return Expr("number", first.place, number_of(first.text), [])
    if first.kind == "[":
        return Expr("list", first.place, None, read_parts(tokens, "]"))
    return read_after_name(tokens, first)


def read_statement(tokens):
    target = None
    if tokens.peek().kind == "name":
        name = tokens.take("name")
        if tokens.peek().kind == ":=":
            tokens.take(":=")
            target, expr = name.text, read_expr(tokens)
        else:
            expr = read_after_name(tokens, name)
    else:
        expr = read_expr(tokens)
    tokens.take(";")
    return Statement(target, expr)


def read_script(script):
    tokens, statements = Tokens(script), []
    while tokens.peek().kind != END_OF_SCRIPT:
        statements.append(read_statement(tokens))
    return statements


# ---- fields, matrices, codes --------------------------------------------------------------------------------------

@dataclass
class FieldValue:
    size: int


@dataclass
class Form:
    """An alternant form: the locator field's size, the points, a multiplier for each, and the number of checks."""
    locator: int
    points: list
    multipliers: list
    r: int


@dataclass
class Code:
    size: int  # of the field
    length: int
    rows: list  # the reduced generator matrix
    form: object = None  # the alternant form, if the code was made with one


@lru_cache(maxsize=None)
def arithmetic(size):
    return Field(size)


def first_nonzero(row):
    return next((i for i, a in enumerate(row) if a), None)


def inverse(field, a):
    return next(b for b in range(field.q) if field.products[a][b] == 1)


def negative(field, a):
    return next(b for b in range(field.q) if field.sums[a][b] == 0)


def reduce_rows(size, length, rows):
    """The reduced matrix with the same words: column by column, a row that isn't 0 there is taken, scaled so that its
    entry is 1, and taken away from all others."""
    field = arithmetic(size)
    left, done = [list(row) for row in rows], []
    for column in range(length):
        pivot = next((row for row in left if row[column]), None)
        if pivot is None:
            continue
        left.remove(pivot)
        scale = inverse(field, pivot[column])
        pivot = [field.products[scale][a] for a in pivot]
        for others in (left, done):
            for i, row in enumerate(others):
                if row[column]:
                    others[i] = field.add_scaled(row, negative(field, row[column]), pivot)
        done.append(pivot)
    return done


def code_of_rows(size, length, rows):
    return Code(size, length, reduce_rows(size, length, rows))


def code_of_checks(size, length, checks):
    """The words whose dot product with each check is 0. Where the checks are reduced, the symbols at their first places follow from
    the others: one word for each other place, which is 1 there and 0 at the rest of them."""
    field = arithmetic(size)
    reduced = reduce_rows(size, length, checks)
    pivots = [first_nonzero(row) for row in reduced]
    words = []
    for free in range(length):
        if free in pivots:
            continue
        word = [0] * length
        word[free] = 1
        for pivot, row in zip(pivots, reduced):
            word[pivot] = negative(field, row[free])
        words.append(word)
    return code_of_rows(size, length, words)


def dual_of(code):
    return code_of_checks(code.size, code.length, code.rows)


def is_in(code, word):
    """Whether the word is the sum of the multiples of rows that its symbols at the rows' first places name."""
    field = arithmetic(code.size)
    total = [0] * code.length
    for row in code.rows:
        total = field.add_scaled(total, word[first_nonzero(row)], row)
    return total == list(word)


def weight_of(word):
    return sum(1 for a in word if a)


# ---- larger fields ------------------------------------------------------------------------------------------------

def power(field, a, exponent):
    result = 1
    for _ in range(exponent % (field.q - 1) if a and exponent else exponent and 1):
        result = field.products[result][a]
    return result


@lru_cache(maxsize=None)
def primitive(size):
    """The least element whose powers are all nonzero elements."""
    field = arithmetic(size)
    return next(a for a in range(1, size) if len({power(field, a, e) for e in range(size - 1)}) == size - 1)


def value_at(field, polynomial, x):
    total = 0
    for a in reversed(polynomial):
        total = field.sums[a][field.products[x][total]]
    return total


def is_subfield(small, large):
    return any(small**s == large for s in range(1, 9))


def embed(small, large, a):
    """The image of an element: the value of its polynomial at the least zero of the small field's polynomial."""
    field, large_field = arithmetic(small), arithmetic(large)
    zero = next(x for x in range(large) if value_at(large_field, field.lower + [1], x) == 0)
    return value_at(large_field, field.polynomial(a), zero)


@lru_cache(maxsize=None)
def expansions(small, large):
    """For each element of the large field its coefficients c_i, elements of the small one: the element is the sum of c_i times
    the i-th power of the primitive element."""
    field, gamma = arithmetic(large), primitive(large)
    degree = next(s for s in range(1, 9) if small**s == large)
    powers, images = [power(field, gamma, i) for i in range(degree)], [embed(small, large, c) for c in range(small)]
    found = {}
    for c in tuples(range(small), repeat=degree):
        total = 0
        for a, b in zip(c, powers):
            total = field.sums[total][field.products[images[a]][b]]
        found[total] = c
    return found


def code_of_large_checks(small, large, length, checks):
    """The words over the small field whose sums of w_i h_i are 0 for each check h over the large one: so is each coefficient."""
    told = expansions(small, large)
    rows = [[told[a][i] for a in check] for check in checks for i in range(len(told[0]))]
    return code_of_checks(small, length, rows)


def code_of_form(size, form):
    field = arithmetic(form.locator)
    checks = [[field.products[y][power(field, a, j)] for a, y in zip(form.points, form.multipliers)]
              for j in range(min(form.r, len(form.points)))]
    code = code_of_large_checks(size, form.locator, len(form.points), checks)
    code.form = form
    return code


# ---- calls --------------------------------------------------------------------------------------------------------
# Each call is a function of its arguments' values, which are of its kinds. It raises its refusals in their order.

def need_symbol_field(field):
    if field.size not in SYMBOL_SIZES:
        raise Refused(17)


def need_length(length):
    if not 1 <= length <= LONGEST:
        raise Refused(2)


def need_entries(entries, field_size, argument):
    if any(a >= field_size for a in entries):
        raise Refused(3, argument)


def need_matrix(rows, field):
    """Its length, which is how many entries the first row has."""
    need_symbol_field(field)
    length = len(rows[0]) if rows else 0
    need_length(length)
    if any(len(row) != length for row in rows):
        raise Refused(12)
    need_entries([a for row in rows for a in row], field.size, 1)
    return length


def gf(size):
    if size not in FIELD_SIZES:
        raise Refused(1)
    return FieldValue(size)


def generator_mat_code(rows, field):
    length = need_matrix(rows, field)
    return code_of_rows(field.size, length, rows)


def check_mat_code(rows, field):
    length = need_matrix(rows, field)
    return code_of_checks(field.size, length, rows)


def repetition_code(length, field):
    need_symbol_field(field)
    need_length(length)
    return code_of_rows(field.size, length, [[1] * length])


def whole_space_code(length, field):
    need_symbol_field(field)
    need_length(length)
    return code_of_rows(field.size, length, [[int(i == j) for j in range(length)] for i in range(length)])


def null_code(length, field):
    need_symbol_field(field)
    need_length(length)
    return code_of_rows(field.size, length, [])


def hamming_code(r, field):
    need_symbol_field(field)
    if r < 2:
        raise Refused(3, 1)
    # the number of points, summed up to the first sum that is too long
    length = 0
    for i in range(r):
        length += field.size**i
        if length > LONGEST:
            break
    need_length(length)
    columns = [u for u in tuples(range(field.size), repeat=r) if any(u) and u[first_nonzero(u)] == 1]
    checks = [[column[i] for column in columns] for i in range(r)]
    return code_of_checks(field.size, length, checks)


def reed_muller_code(r, m):
    need_length(2**m if m < 64 else 2**64)
    if r > m:
        raise Refused(3, 1)
    length = 2**m
    rows = []
    for degree in range(r + 1):
        for variables in combinations(range(m), degree):
            rows.append([int(all(place >> v & 1 for v in variables)) for place in range(length)])
    return code_of_rows(2, length, rows)


def trimmed(polynomial):
    last = max((i for i, a in enumerate(polynomial) if a), default=-1)
    return polynomial[:last + 1]


def divides(field, divisor, polynomial):
    """Long division from the highest coefficient down: nothing is left."""
    left, scale = list(polynomial), inverse(field, divisor[-1])
    for top in range(len(left) - 1, len(divisor) - 2, -1):
        factor = negative(field, field.products[scale][left[top]])
        for i, a in enumerate(divisor):
            at = top - len(divisor) + 1 + i
            left[at] = field.sums[left[at]][field.products[factor][a]]
    return not any(left)


def need_divisor(polynomial, length, field):
    """The polynomial modulo x^n - 1, as n coefficients."""
    need_symbol_field(field)
    need_length(length)
    need_entries(polynomial, field.size, 1)
    divisor, numbers = trimmed(polynomial), arithmetic(field.size)
    if not divisor:
        raise Refused(3, 1)
    if not divides(numbers, divisor, [negative(numbers, 1)] + [0] * (length - 1) + [1]):
        raise Refused(4)
    folded = [0] * length
    for i, a in enumerate(divisor):
        folded[i % length] = numbers.sums[folded[i % length]][a]
    return folded


def generator_pol_code(polynomial, length, field):
    g = need_divisor(polynomial, length, field)
    return code_of_rows(field.size, length, [[g[(i - j) % length] for i in range(length)] for j in range(length)])


def check_pol_code(polynomial, length, field):
    h = need_divisor(polynomial, length, field)
    return code_of_checks(field.size, length, [[h[(i - j) % length] for j in range(length)] for i in range(length)])


def squares_modulo(n):
    return {i * i % n for i in range(1, n)} - {0}


def qr_code(length, field):
    """The shifts of the word of the squares, less a constant, and the word of ones."""
    need_symbol_field(field)
    need_length(length)
    squares = squares_modulo(length)
    if length < 3 or not all(length % d for d in range(2, length)) or field.size % length not in squares:
        raise Refused(53)
    numbers = arithmetic(field.size)
    one_by_one = lambda n: 0 if n == 0 else numbers.sums[one_by_one(n - 1)][1]
    constant = one_by_one((length + 1) // 4) if length % 4 == 3 else negative(numbers, one_by_one((length - 1) // 4))
    t = next(t for t in range(field.size) if numbers.sums[numbers.sums[numbers.products[t][t]][t]][constant] == 0)
    word = [int(i in squares) if i else negative(numbers, t) for i in range(length)]
    return code_of_rows(field.size, length, [[1] * length] + [[word[(i - j) % length] for i in range(length)] for j in range(length)])


def binary_golay_code():
    return generator_pol_code([1, 0, 1, 0, 1, 1, 1, 0, 0, 0, 1, 1], 23, FieldValue(2))


def ternary_golay_code():
    return generator_pol_code([2, 0, 1, 2, 1, 1], 11, FieldValue(3))


def locator_size(size, length):
    """The least field that holds this one and has an element of that order."""
    return next((q for q in FIELD_SIZES if is_subfield(size, q) and (q - 1) % length == 0), None)


def bch_code(length, *rest):
    first, distance, field = (1,) + rest if len(rest) == 2 else rest
    need_symbol_field(field)
    need_length(length)
    large = locator_size(field.size, length)
    if large is None:
        raise Refused(5)
    if not 2 <= distance <= length:
        raise Refused(6)
    numbers = arithmetic(large)
    beta = power(numbers, primitive(large), (large - 1) // length)
    checks = [[power(numbers, beta, e * i) for i in range(length)] for e in range(first, first + distance - 1)]
    code = code_of_large_checks(field.size, large, length, checks)
    points = [power(numbers, beta, i) for i in range(length)]
    code.form = Form(large, points, [power(numbers, a, first % length) for a in points], distance - 1)
    return code


def reed_solomon_code(length, distance):
    if length + 1 not in SYMBOL_SIZES:
        raise Refused(7)
    if not 1 <= distance <= length:
        raise Refused(6)
    numbers, size = arithmetic(length + 1), length + 1
    points = [power(numbers, primitive(size), i) for i in range(length)]
    code = code_of_checks(size, length, [[power(numbers, a, e) for a in points] for e in range(1, distance)])
    code.form = Form(size, points, list(points), distance - 1)
    return code


def need_subfield(field, locator, points):
    need_symbol_field(field)
    if not is_subfield(field.size, locator.size):
        raise Refused(10)
    need_length(len(points))


def need_distinct(points):
    for second, a in enumerate(points):
        if points.index(a) < second:
            raise Refused(8, points.index(a), second)


def goppa_code(polynomial, points, locator, field):
    need_subfield(field, locator, points)
    need_entries(polynomial, locator.size, 1)
    g = trimmed(polynomial)
    if not 2 <= len(g) <= 256:
        raise Refused(3, 1)
    need_entries(points, locator.size, 2)
    need_distinct(points)
    numbers = arithmetic(locator.size)
    values = [value_at(numbers, g, a) for a in points]
    if 0 in values:
        raise Refused(9, values.index(0))
    return code_of_form(field.size, Form(locator.size, points, [inverse(numbers, v) for v in values], len(g) - 1))


def alternant_code(r, points, multipliers, locator, field):
    need_subfield(field, locator, points)
    if len(points) != len(multipliers):
        raise Refused(12)
    if not 1 <= r <= len(points):
        raise Refused(3, 1)
    need_entries(points, locator.size, 2)
    need_entries(multipliers, locator.size, 3)
    if 0 in multipliers:
        raise Refused(3, 3)
    need_distinct(points)
    return code_of_form(field.size, Form(locator.size, points, multipliers, r))


def extended_code(code):
    need_length(code.length + 1)
    field, rows = arithmetic(code.size), []
    for row in code.rows:
        total = 0
        for a in row:
            total = field.sums[total][a]
        rows.append(row + [negative(field, total)])
    return code_of_rows(code.size, code.length + 1, rows)


def without(word, places):
    return [a for i, a in enumerate(word) if i not in places]


def need_places(places, length):
    if places != sorted(set(places)) or any(p >= length for p in places) or len(places) == length:
        raise Refused(13)


def punctured_code(code, places):
    need_places(places, code.length)
    return code_of_rows(code.size, code.length - len(places), [without(row, places) for row in code.rows])


def with_checks(code, checks):
    """The words of a code whose dot product with each check is 0 besides."""
    return code_of_checks(code.size, code.length, dual_of(code).rows + checks)


def shortened_code(code, places):
    need_places(places, code.length)
    zeros = with_checks(code, [[int(i == p) for i in range(code.length)] for p in places])
    return code_of_rows(code.size, code.length - len(places), [without(row, places) for row in zeros.rows])


def even_weight_subcode(code):
    if code.size != 2:
        raise Refused(3, 1)
    return with_checks(code, [[1] * code.length])


def need_same_field(a, b):
    if a.size != b.size:
        raise Refused(11)


def need_same_length(a, b):
    if a.length != b.length:
        raise Refused(12)


def direct_sum_code(a, b):
    need_same_field(a, b)
    need_length(a.length + b.length)
    rows = [u + [0] * b.length for u in a.rows] + [[0] * a.length + v for v in b.rows]
    return code_of_rows(a.size, a.length + b.length, rows)


def uuv_code(a, b):
    need_same_field(a, b)
    need_same_length(a, b)
    need_length(2 * a.length)
    return code_of_rows(a.size, 2 * a.length, [u + u for u in a.rows] + [[0] * a.length + v for v in b.rows])


def direct_product_code(a, b):
    need_same_field(a, b)
    need_length(a.length * b.length)
    field = arithmetic(a.size)
    rows = [[field.products[x][y] for x in u for y in v] for u in a.rows for v in b.rows]
    return code_of_rows(a.size, a.length * b.length, rows)


def intersection_code(a, b):
    need_same_field(a, b)
    need_same_length(a, b)
    return with_checks(a, dual_of(b).rows)


def concatenated_code(outer, inner):
    if not is_subfield(inner.size, outer.size):
        raise Refused(11)
    degree = next(s for s in range(1, 9) if inner.size**s == outer.size)
    if len(inner.rows) != degree:
        raise Refused(14, len(inner.rows), degree)
    need_length(outer.length * inner.length)
    small, large, told = arithmetic(inner.size), arithmetic(outer.size), expansions(inner.size, outer.size)
    rows = []
    for row in outer.rows:
        for c in range(1, outer.size):  # all multiples, so that no basis of the large field is needed
            word = []
            for a in row:
                image = [0] * inner.length
                for factor, inner_row in zip(told[large.products[c][a]], inner.rows):
                    image = small.add_scaled(image, factor, inner_row)
                word += image
            rows.append(word)
    return code_of_rows(inner.size, outer.length * inner.length, rows)


def need_word(code, word):
    if len(word) != code.length:
        raise Refused(12)
    need_entries(word, code.size, 2)


def is_codeword(code, word):
    need_word(code, word)
    return is_in(code, word)


@lru_cache(maxsize=1)
def words_by_rows(size, length, rows):
    return [list(word) for word in span(arithmetic(size), length, [list(row) for row in rows])]


def errors_of_weight(code, word, weight):
    """The errors of this weight that differ from the word by a word of the code, in any order: by all words of the code if they
    are few, else by all errors."""
    field = arithmetic(code.size)
    if code.size ** len(code.rows) <= 5000:
        for other in words_by_rows(code.size, code.length, tuple(map(tuple, code.rows))):
            error = field.add_scaled(list(word), negative(field, 1), other)
            if weight_of(error) == weight:
                yield list(error)
        return
    for support in combinations(range(code.length), weight):
        for symbols in tuples(range(1, code.size), repeat=weight):
            error = [0] * code.length
            for i, a in zip(support, symbols):
                error[i] = a
            if is_in(code, field.add_scaled(list(word), negative(field, 1), error)):
                yield error


# ---- what words and codes have to do with each other --------------------------------------------------------------

def dot(field, u, v):
    total = 0
    for a, b in zip(u, v):
        total = field.sums[total][field.products[a][b]]
    return total


def syndrome(code, word):
    need_word(code, word)
    field = arithmetic(code.size)
    return [dot(field, row, word) for row in dual_of(code).rows]


def is_subcode(a, b):
    need_same_field(a, b)
    need_same_length(a, b)
    return all(is_in(b, row) for row in a.rows)


def is_same_code(a, b):
    return is_subcode(a, b) and is_subcode(b, a)


def is_self_orthogonal_code(code):
    return is_subcode(code, dual_of(code))


def is_self_dual_code(code):
    return is_same_code(code, dual_of(code))


def is_cyclic_code(code):
    return all(is_in(code, row[-1:] + row[:-1]) for row in code.rows)


def need_equal_lengths(x, y):
    if len(x) != len(y):
        raise Refused(12)


def add_words(x, y, field):
    need_symbol_field(field)
    need_equal_lengths(x, y)
    need_entries(x, field.size, 1)
    need_entries(y, field.size, 2)
    sums = arithmetic(field.size).sums
    return [sums[a][b] for a, b in zip(x, y)]


def scale_word(c, x, field):
    need_symbol_field(field)
    need_entries([c], field.size, 1)
    need_entries(x, field.size, 2)
    products = arithmetic(field.size).products
    return [products[c][a] for a in x]


def distance_codeword(x, y):
    need_equal_lengths(x, y)
    return sum(1 for a, b in zip(x, y) if a != b)


def encode(code, message):
    need_equal_lengths(message, code.rows)
    need_entries(message, code.size, 2)
    field, total = arithmetic(code.size), [0] * code.length
    for a, row in zip(message, code.rows):
        total = field.add_scaled(total, a, row)
    return list(total)


def information_word(code, word):
    """Each row is alone in the column of its first symbol, so the word has the row's coefficient there."""
    need_word(code, word)
    if not is_in(code, word):
        raise Refused(50)
    return [word[first_nonzero(row)] for row in code.rows]


def fill_erasures_line(code, word, erased):
    """The one codeword with the symbols of the word off the erased coordinates, or `none`, or `many`: the rows without these
    coordinates are reduced, each with the whole row beside it; a row that is 0 there leaves a choice."""
    need_word(code, word)
    if erased != sorted(set(erased)) or any(p >= code.length for p in erased):
        raise Refused(13)
    kept = [i for i in range(code.length) if i not in erased]
    rows = reduce_rows(code.size, len(kept) + code.length, [[row[i] for i in kept] + row for row in code.rows])
    field, rest, total, several = arithmetic(code.size), [word[i] for i in kept], [0] * code.length, False
    for row in rows:
        place = first_nonzero(row)
        if place >= len(kept):
            several = True
            continue
        c = rest[place]
        rest = field.add_scaled(rest, negative(field, c), row[:len(kept)])
        total = field.add_scaled(total, c, row[len(kept):])
    if any(rest):
        return "none"
    return "many" if several else text_of(list(total))


def need_field_inside(code, field):
    need_symbol_field(field)
    if not is_subfield(field.size, code.size):
        raise Refused(10)


@lru_cache(maxsize=None)
def trace(small, large, a):
    """The element of the small field that stands for a + a^q + a^(q^2) + .., with as many terms as the degree."""
    field, total, exponent = arithmetic(large), 0, 1
    while exponent < large:
        total = field.sums[total][power(field, a, exponent)]
        exponent *= small
    return next(b for b in range(small) if embed(small, large, b) == total)


def trace_code(code, field):
    """The traces of all multiples of the rows generate it."""
    need_field_inside(code, field)
    large = arithmetic(code.size)
    multiples = [[large.products[c][a] for a in row] for row in code.rows for c in range(1, code.size)]
    return code_of_rows(field.size, code.length, [[trace(field.size, code.size, a) for a in row] for row in multiples])


def subfield_subcode(code, field):
    """A word over the small field has dot product 0 with a row of the dual if the dot products with the traces of all multiples of
    this row are 0."""
    need_field_inside(code, field)
    return dual_of(trace_code(dual_of(code), field))


def union_code(a, b):
    need_same_field(a, b)
    need_same_length(a, b)
    return code_of_rows(a.size, a.length, a.rows + b.rows)


def augmented_code(code, rows):
    for row in rows:
        need_equal_lengths(row, range(code.length))
    for row in rows:
        need_entries(row, code.size, 2)
    return code_of_rows(code.size, code.length, code.rows + rows)


def shifted_by(word, i):
    return word[len(word) - i:] + word[:len(word) - i]


def circulant_code(word, n, field):
    need_symbol_field(field)
    need_length(n)
    need_equal_lengths(word, range(n))
    need_entries(word, field.size, 1)
    return code_of_rows(field.size, n, [shifted_by(word, i) for i in range(n)])


def quasi_cyclic_code(words, n, field):
    need_symbol_field(field)
    need_length(n * len(words))
    for word in words:
        need_equal_lengths(word, range(n))
    need_entries([a for word in words for a in word], field.size, 1)
    return code_of_rows(field.size, n * len(words), [[a for word in words for a in shifted_by(word, i)] for i in range(n)])


def construction_x_code(code, part, tails):
    """The words of the code that are 0 where a row of the part begins are as many as the code has for each word of the part."""
    need_same_field(code, part)
    need_same_field(code, tails)
    need_same_length(code, part)
    if not all(is_in(code, row) for row in part.rows):
        raise Refused(51)
    wanted = len(code.rows) - len(part.rows)
    if len(tails.rows) != wanted:
        raise Refused(14, len(tails.rows), wanted)
    need_length(code.length + tails.length)
    leads = [first_nonzero(row) for row in part.rows]
    others = with_checks(code, [[int(i == p) for i in range(code.length)] for p in leads])
    rows = [row + [0] * tails.length for row in part.rows] + [u + v for u, v in zip(others.rows, tails.rows)]
    return code_of_rows(code.size, code.length + tails.length, rows)


def residue_code(code, word):
    need_word(code, word)
    if not is_in(code, word):
        raise Refused(50)
    need_length(word.count(0))
    return code_of_rows(code.size, word.count(0), [without(row, [i for i, a in enumerate(word) if a]) for row in code.rows])


def less(code, word, error):
    field = arithmetic(code.size)
    return list(field.add_scaled(list(word), negative(field, 1), error))


def decode(code, word):
    """The word less the first error, by weight and then lexicographically, that leads into the code."""
    need_word(code, word)
    checks = code.length - len(code.rows)
    if code.size**checks > MOST_COSETS:
        raise Refused(15, checks)
    for weight in range(code.length + 1):
        error = min(errors_of_weight(code, word, weight), default=None)
        if error is not None:
            return less(code, word, error)


def algebraic_decode_line(code, word):
    """The one word of the code within half of the checks of its form."""
    if code.form is None:
        raise Refused(18)
    need_word(code, word)
    for weight in range(min(code.form.r // 2, code.length) + 1):
        error = next(errors_of_weight(code, word, weight), None)
        if error is not None:
            return text_of(less(code, word, error))
    return "none"


def alternant_certificate_line(code, word):
    """The certificate by construction of one claim, the form of the code."""
    if code.form is None:
        raise Refused(18)
    need_word(code, word)
    form, weight = code.form, weight_of(word)
    if not is_in(code, word) or weight != form.r + 1:
        raise Refused(19, weight, form.r + 1)
    claim = {"kind": "alternant", "locator": form.locator, "multipliers": form.multipliers, "points": form.points, "r": form.r}
    parts = {"claim": claim, "distance": weight, "field": code.size, "version": 2, "word": word}
    return json.dumps(parts, separators=(",", ":"), sort_keys=True)


def least_word_line(rows, field):
    length = need_matrix(rows, field)
    if field.size**len(rows) > MOST_WORDS:
        raise Refused(16)
    nonzero = [word for word in span(arithmetic(field.size), length, rows) if any(word)]
    if not nonzero:
        return "least none"
    word = min(nonzero, key=lambda w: (weight_of(w), w))
    return f"least {weight_of(word)} word {text_of(list(word))}"


@lru_cache(maxsize=16)
def search_by_rows(size, length, rows, budget, longest):
    return search.search(size, length, [list(row) for row in rows], budget, longest)


class Session:
    """The budget of the searches of a script, the most blocks of a round, and the records of the searches that are done."""

    def __init__(self, budget=BUDGET, longest=search.ROUND):
        self.budget, self.longest, self.searches, self.records = budget, longest, 0, []

    def answer(self, code):
        found, rounds = search_by_rows(code.size, code.length, tuple(map(tuple, code.rows)), self.budget, self.longest)
        self.records += [(self.searches, *record) for record in rounds]
        self.searches += 1
        return found

    def lines(self):
        return "".join("query %d blocks %d bound %d best %d\n" % record for record in self.records).encode()


def minimum_distance_line(session, code):
    if not code.rows:
        return "distance none"
    is_exact, low, weight, word, blocks = session.answer(code)
    distance = f"{weight}" if is_exact else f"between {low} and {weight}"
    return f"distance {distance} word {text_of(list(word))} blocks {blocks}"


def cost_of(code, levels):
    """How many words a checker looks at: by levels those of each set up to its level, by a scan all."""
    q, k = code.size, len(code.rows)
    if levels is None:
        return q**k
    return sum(comb(k, w) * (q - 1) ** (w - 1) for level in levels for w in range(1, min(level, k) + 1))


def certificate_line(session, code, by):
    if not code.rows:
        return "certificate none"
    is_exact, low, weight, word, blocks = session.answer(code)
    if not is_exact:
        return f"certificate none between {low} and {weight}"
    field, k = arithmetic(code.size), len(code.rows)
    parts = {"by": by, "distance": weight, "field": code.size, "rows": [list(row) for row in code.rows]}
    levels = None
    if by == "levels":
        bases = search.bases_of(field, code.length, code.rows)
        levels = search.levels_below(code.size, k, len(bases), blocks)
        parts["sets"] = [{"basis": basis, "fresh": fresh, "level": level} for (basis, fresh, _), level in zip(bases, levels)]
    parts |= {"version": 1, "word": list(word)}
    cost = cost_of(code, levels)
    if cost > 2**32:
        return f"certificate none cost {min(cost, 2**64 - 1)}"
    text = json.dumps(parts, separators=(",", ":"))
    if len(text) + 1 > INPUT_LIMIT:
        return f"certificate none length {len(text) + 1}"
    return text


def counts_by_weight(code):
    """How many words of each weight the code has, by all sums of multiples of its rows."""
    if code.size == 2:
        return counts_of_binary_words(code)
    field, counts = arithmetic(code.size), [0] * (code.length + 1)

    def visit(word, rows):
        if not rows:
            counts[weight_of(word)] += 1
            return
        for c in range(code.size):
            visit(field.add_scaled(word, c, rows[0]), rows[1:])

    visit([0] * code.length, code.rows)
    return counts


def binary_sums(rows):
    """All sums of rows over two elements, each as a number."""
    sums = [0]
    for row in rows:
        number = int("".join(map(str, row)), 2)
        sums += [number ^ other for other in sums]
    return sums


def counts_of_binary_words(code):
    """The same over two elements: each word is a sum of some of the first rows plus one of some of the others."""
    half, counts = len(code.rows) // 2, [0] * (code.length + 1)
    others = binary_sums(code.rows[half:])
    for first in binary_sums(code.rows[:half]):
        for weight, count in Counter(map(bit_count, map(first.__xor__, others))).items():
            counts[weight] += count
    return counts


def krawtchouk(q, n, k, j):
    return sum((-1) ** i * (q - 1) ** (k - i) * comb(j, i) * comb(n - j, k - i) for i in range(k + 1))


def weight_distribution_line(code):
    """The words of the code, or of its dual if these are fewer; then by the identity of MacWilliams."""
    q, n, k = code.size, code.length, len(code.rows)
    if q**k > MOST_COUNTED and (q ** (n - k) > MOST_COUNTED or q**n > MOST_VECTORS):
        raise Refused(47, k, n - k)
    if 2 * k <= n:
        return text_of(counts_by_weight(code))
    dual = counts_by_weight(dual_of(code))
    return text_of([sum(dual[j] * krawtchouk(q, n, w, j) for j in range(n + 1)) // q ** (n - k) for w in range(n + 1)])


def nearest_word_line(session, code, word):
    """The nearest word and its distance, or two numbers between which it lies, by error patterns under the session's budget."""
    need_word(code, word)
    is_exact, low, distance, near, blocks = near_search.nearest(code.size, code.length, code.rows, word, session.budget)
    if is_exact:
        return f"nearest {text_of(near)} at {distance} blocks {blocks}"
    return f"nearest between {low} and {distance} word {text_of(near)} blocks {blocks}"


# name: the kinds of the arguments in each form of the call, and the function
CALLS = {
    "GF": ([("number",)], gf),
    "GeneratorMatCode": ([("lists", "field")], generator_mat_code),
    "CheckMatCode": ([("lists", "field")], check_mat_code),
    "RepetitionCode": ([("number", "field")], repetition_code),
    "WholeSpaceCode": ([("number", "field")], whole_space_code),
    "NullCode": ([("number", "field")], null_code),
    "HammingCode": ([("number", "field")], hamming_code),
    "ReedMullerCode": ([("number", "number")], reed_muller_code),
    "GeneratorPolCode": ([("numbers", "number", "field")], generator_pol_code),
    "CheckPolCode": ([("numbers", "number", "field")], check_pol_code),
    "QRCode": ([("number", "field")], qr_code),
    "BinaryGolayCode": ([()], binary_golay_code),
    "TernaryGolayCode": ([()], ternary_golay_code),
    "ExtendedBinaryGolayCode": ([()], lambda: extended_code(binary_golay_code())),
    "ExtendedTernaryGolayCode": ([()], lambda: extended_code(ternary_golay_code())),
    "BCHCode": ([("number", "number", "field"), ("number", "number", "number", "field")], bch_code),
    "ReedSolomonCode": ([("number", "number")], reed_solomon_code),
    "GoppaCode": ([("numbers", "numbers", "field", "field")], goppa_code),
    "AlternantCode": ([("number", "numbers", "numbers", "field", "field")], alternant_code),
    "DualCode": ([("code",)], dual_of),
    "ExtendedCode": ([("code",)], extended_code),
    "PuncturedCode": ([("code", "numbers")], punctured_code),
    "ShortenedCode": ([("code", "numbers")], shortened_code),
    "EvenWeightSubcode": ([("code",)], even_weight_subcode),
    "DirectSumCode": ([("code", "code")], direct_sum_code),
    "UUVCode": ([("code", "code")], uuv_code),
    "DirectProductCode": ([("code", "code")], direct_product_code),
    "IntersectionCode": ([("code", "code")], intersection_code),
    "ConcatenatedCode": ([("code", "code")], concatenated_code),
    "Dimension": ([("code",)], lambda code: len(code.rows)),
    "WordLength": ([("code",)], lambda code: code.length),
    "GeneratorMat": ([("code",)], lambda code: code.rows),
    "CheckMat": ([("code",)], lambda code: dual_of(code).rows),
    "Weight": ([("numbers",)], weight_of),
    "IsCodeword": ([("code", "numbers")], is_codeword),
    "Decode": ([("code", "numbers")], decode),
    "Syndrome": ([("code", "numbers")], syndrome),
    "IsSubcode": ([("code", "code")], is_subcode),
    "IsSameCode": ([("code", "code")], is_same_code),
    "IsSelfOrthogonalCode": ([("code",)], is_self_orthogonal_code),
    "IsSelfDualCode": ([("code",)], is_self_dual_code),
    "IsCyclicCode": ([("code",)], is_cyclic_code),
    "AddWords": ([("numbers", "numbers", "field")], add_words),
    "ScaleWord": ([("number", "numbers", "field")], scale_word),
    "DistanceCodeword": ([("numbers", "numbers")], distance_codeword),
    "Encode": ([("code", "numbers")], encode),
    "InformationWord": ([("code", "numbers")], information_word),
    "UnionCode": ([("code", "code")], union_code),
    "AugmentedCode": ([("code", "lists")], augmented_code),
    "TraceCode": ([("code", "field")], trace_code),
    "SubfieldSubcode": ([("code", "field")], subfield_subcode),
    "CirculantCode": ([("numbers", "number", "field")], circulant_code),
    "QuasiCyclicCode": ([("lists", "number", "field")], quasi_cyclic_code),
    "ConstructionXCode": ([("code", "code", "code")], construction_x_code),
    "ResidueCode": ([("code", "numbers")], residue_code),
}
# these print a line of their own, and stand only as a whole statement; the functions get the session first
QUERIES = {
    "AlgebraicDecode": ([("code", "numbers")], lambda _, code, word: algebraic_decode_line(code, word)),
    "AlternantCertificate": ([("code", "numbers")], lambda _, code, word: alternant_certificate_line(code, word)),
    "LeastWord": ([("lists", "field")], lambda _, rows, field: least_word_line(rows, field)),
    "MinimumDistance": ([("code",)], minimum_distance_line),
    "Certificate": ([("code",)], lambda session, code: certificate_line(session, code, "levels")),
    "ScanCertificate": ([("code",)], lambda session, code: certificate_line(session, code, "scan")),
    "WeightDistribution": ([("code",)], lambda _, code: weight_distribution_line(code)),
    "NearestWord": ([("code", "numbers")], nearest_word_line),
    "FillErasures": ([("code", "numbers", "numbers")], lambda _, code, word, erased: fill_erasures_line(code, word, erased)),
}


# ---- values and lines ---------------------------------------------------------------------------------------------
# A number is an int, a truth value a bool, a list of numbers and a list of lists are lists: the empty list is both.

def is_number(value):
    return isinstance(value, int) and not isinstance(value, bool)


def is_numbers(value):
    return isinstance(value, list) and all(is_number(a) for a in value)


def is_of_kind(kind, value):
    if kind == "number":
        return is_number(value)
    if kind == "numbers":
        return is_numbers(value)
    if kind == "lists":
        return isinstance(value, list) and all(isinstance(a, list) for a in value)
    return isinstance(value, {"field": FieldValue, "code": Code}[kind])


def text_of(value):
    if isinstance(value, bool):
        return "true" if value else "false"
    if isinstance(value, list):
        return "[" + ",".join(text_of(a) for a in value) + "]"
    if isinstance(value, FieldValue):
        return f"GF({value.size})"
    if isinstance(value, Code):
        return f"code [{value.length},{len(value.rows)}] GF({value.size})"
    return str(value)


# ---- evaluation ---------------------------------------------------------------------------------------------------

def list_value(parts, names):
    """From the left: each element is evaluated, and must then be of the kind that the first one says, a number or a list
    of numbers."""
    values = []
    for part in parts:
        value = value_of(part, names)
        wants_lists = is_numbers(values[0] if values else value)
        if not (is_numbers(value) if wants_lists else is_number(value)):
            raise Fault(45, part.place)
        values.append(value)
    return values


def call_value(expr, table, names, *before):
    """What a call of this table gives; its name stands in the table."""
    forms, function = table[expr.value.decode()]
    kinds = next((form for form in forms if len(form) == len(expr.parts)), None)
    if kinds is None:
        raise Fault(46, expr.place)
    values = [value_of(part, names) for part in expr.parts]
    for kind, part, value in zip(kinds, expr.parts, values):
        if not is_of_kind(kind, value):
            raise Fault(45, part.place)
    try:
        return function(*before, *values)
    except Refused as refusal:
        raise Fault(refusal.number, expr.place, refusal.values) from None


def value_of(expr, names):
    if expr.kind == "number":
        return expr.value
    if expr.kind == "list":
        return list_value(expr.parts, names)
    if expr.kind == "name":
        if expr.value not in names:
            raise Fault(44, expr.place)
        return names[expr.value]
    name = expr.value.decode()
    if name in QUERIES:
        raise Fault(45, expr.place)
    if name not in CALLS:
        raise Fault(44, expr.place)
    return call_value(expr, CALLS, names)


def is_query(statement):
    expr = statement.expr
    return statement.target is None and expr.kind == "call" and expr.value.decode() in QUERIES


def text_and_status(script, session=None):
    """The text of a script, as bytes, and the status."""
    if len(script) > INPUT_LIMIT:
        return b"", 12
    session = session or Session()
    lines, names, status = [], {}, 0
    try:
        for statement in read_script(script):
            if is_query(statement):
                lines.append(call_value(statement.expr, QUERIES, names, session))
            elif statement.target is None:
                lines.append(text_of(value_of(statement.expr, names)))
            else:
                names[statement.target] = value_of(statement.expr, names)
    except Fault as fault:
        lines.append(fault.line())
        status = 1
    return "".join(line + "\n" for line in lines).encode(), status


# ---- the command line ---------------------------------------------------------------------------------------------

KEYS = {
    "run": ("workers", "round", "budget", "slice", "keep"),
    "resume": ("workers", "round", "budget", "slice", "keep"),
    "check": (),
    "summary": ("seed", "workers", "round", "budget"),
}
RANGES = {
    "workers": (1, 256),
    "round": (1, 2**20),
    "budget": (0, MOST_BLOCKS),
    "slice": (1, MOST_BLOCKS),
    "seed": (0, WIDEST),
}


class Usage(Exception):
    """The index of the word that is refused."""


def setting(key, text):
    """What the text after the sign says, or None."""
    if key == "keep":
        return {"yes": True, "no": False}.get(text)
    if re.fullmatch("0|[1-9][0-9]{0,19}", text) is None:
        return None
    least, most = RANGES[key]
    return int(text) if least <= int(text) <= most else None


def settings_of(words):
    """The command, and what the words after it say."""
    if not words or words[0] not in KEYS:
        raise Usage(0)
    said = {}
    for i, word in enumerate(words[1:], 1):
        key, _, text = word.partition("=")
        value = setting(key, text) if key in KEYS[words[0]] else None
        if value is None or key in said:
            raise Usage(i)
        said[key] = value
    if "slice" in said and not said.get("keep"):
        raise Usage(1 + list(said).index("slice"))
    if words[0] == "summary" and "seed" not in said:
        raise Usage(len(words))
    return words[0], said


def rotated(word, count):
    return (word >> count | word << (32 - count)) & 0xFFFFFFFF


def pcg_output(state):
    return rotated(((state >> 18 ^ state) >> 27) & 0xFFFFFFFF, state >> 59)


def pcg_words(number, count):
    """The first words of Pcg32 from this seed (O'Neill, PCG; the crates rand_core and rand_pcg say how a seed is made)."""
    def step(state, increment):
        return (state * 6364136223846793005 + increment) & WIDEST

    seed, state = [], number
    for _ in range(4):
        state = step(state, 11634580027462260723)
        seed.append(pcg_output(state))
    increment = seed[2] | seed[3] << 32 | 1
    state = step((seed[0] | seed[1] << 32) + increment & WIDEST, increment)
    words = []
    for _ in range(count):
        words.append(pcg_output(state))
        state = step(state, increment)
    return words


def summary_line(session, number):
    """The line of the code of length 48 that is made from the number."""
    half = 24
    rows = [[int(i == j) for j in range(half)] + [word >> j & 1 for j in range(half)]
            for i, word in enumerate(pcg_words(number, half))]
    line = minimum_distance_line(session, Code(2, 2 * half, rows))
    return f"summary seed {number} {line} rounds {len(session.records)}"


def ended(words, script):
    """The text, the status and standard error of `codes` with these words; None for what isn't done here."""
    try:
        command, said = settings_of(words)
    except Usage as refused:
        return b"", 2, b"codes: word %d refused\n" % refused.args[0]
    if command in ("resume", "check") or said.get("keep"):
        return None
    session = Session(said.get("budget", BUDGET), said.get("round", search.ROUND))
    if command == "summary":
        return (summary_line(session, said["seed"]) + "\n").encode(), 0, session.lines()
    text, status = text_and_status(script, session)
    return text, status, session.lines() + (b"codes: input too long\n" if status == 12 else b"")


def main():
    words = sys.argv[1:] or ["run"]
    found = ended(words, b"" if words[0] == "summary" else sys.stdin.buffer.read(INPUT_LIMIT + 1))
    if found is None:
        sys.exit("reference.py: checkpoints and certificates are not read here")
    text, status, error = found
    sys.stderr.buffer.write(error)
    sys.stderr.buffer.flush()
    sys.stdout.buffer.write(text)
    sys.stdout.buffer.flush()
    sys.exit(status)


if __name__ == "__main__":
    main()
