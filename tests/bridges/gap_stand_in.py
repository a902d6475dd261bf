"""Runs a file of GAP where GAP is missing, by the few functions of GAP and GUAVA that tools/gap/codes.g and with_guava.g use.

    gap_stand_in.py FILE

A field element is a number, as the second program (tools/linear_algebra.py) numbers them, and the powers of Z(q) are taken there; so
what codes.g says of the numbers is held against that program. A code is its rows, and its distance is found by listing its words.
"""
import itertools
import os
import random
import re
import subprocess
import sys
from functools import lru_cache
from pathlib import Path

HERE = Path(__file__).resolve().parent
sys.path.insert(0, str(HERE.parent.parent / "tools"))
import linear_algebra
from gap_language import FAIL, GapError, Text, run, value_in

@lru_cache(maxsize=None)
def field(q):
    return linear_algebra.Field(q)


class Element:
    """A field element."""

    def __init__(self, q, number):
        self.q, self.number = q, number

    def __eq__(self, other):
        return isinstance(other, Element) and (self.q, self.number) == (other.q, other.number)

    def __repr__(self):
        return f"{self.number} of GF({self.q})"

    def __mul__(self, other):
        if isinstance(other, list):
            return [self * a for a in other]
        number = other.number if isinstance(other, Element) else other % characteristic(self.q)
        return Element(self.q, field(self.q).products[self.number][number])

    __rmul__ = __mul__

    def __pow__(self, exponent):
        power = Element(self.q, 1)
        for _ in range(exponent):
            power = power * self
        return power


def characteristic(q):
    return next(p for p in (2, 3, 5, 7, 11, 13) if q % p == 0)


def generator(q):
    """Z(q): the smallest primitive root modulo a prime, else x."""
    def order(number):
        power, count = number, 1
        while power != 1:
            power, count = field(q).products[power][number], count + 1
        return count
    return Element(q, next(a for a in range(1, q) if order(a) == q - 1) if characteristic(q) == q else characteristic(q))


class Code:
    def __init__(self, rows, q, length):
        self.q, self.length, self.parts = q, length, {}
        self.rows = independent(rows, q) if q in linear_algebra.FIELDS else rows

    def words(self):
        """All words, or one of each line where the first coefficient is 1."""
        tables = field(self.q)
        for message in itertools.product(range(self.q), repeat=len(self.rows)):
            if next((a for a in message if a), 0) == 1:
                word = [0] * self.length
                for a, row in zip(message, self.rows):
                    if a:
                        word = [tables.sums[x][tables.products[a][y]] for x, y in zip(word, row)]
                yield word

    def distance(self):
        return min(sum(map(bool, word)) for word in self.words())

    def __contains__(self, word):
        return len(independent(self.rows + [[a.number for a in word]], self.q)) == len(self.rows)


def independent(rows, q):
    """Rows with the same span, none of which is superfluous."""
    tables, found = field(q), []
    for row in rows:
        row = list(row)
        for pivot, other in found:
            while row[pivot]:  # there is a multiple that takes it away
                row = [tables.sums[a][b] for a, b in zip(row, other)] if characteristic(q) == q else next(
                    sums for c in range(q) if not (sums := [tables.sums[a][tables.products[c][b]] for a, b in zip(row, other)])[pivot])
        if any(row):
            found.append((next(i for i, a in enumerate(row) if a), row))
    return [row for _, row in found]


# --- the functions of GAP and GUAVA

def code_of(rows, f):
    if rows and isinstance(rows[0][0], int):
        raise GapError("elements are wanted")
    return Code([[a.number for a in row] for row in rows], f, len(rows[0]))


def hamming(checks, f):
    columns = [c for c in itertools.product(range(f), repeat=checks) if next((a for a in c if a), 0) == 1]
    check = Code([list(row) for row in zip(*columns)], f, len(columns))
    words = itertools.product(range(f), repeat=len(columns))
    return Code([word for word in words if all(not dot(word, row, f) for row in check.rows)], f, len(columns))


def dot(word, row, q):
    total = 0
    for a, b in zip(word, row):
        total = field(q).sums[total][field(q).products[a][b]]
    return total


def error(*parts):
    raise GapError("".join(map(str, parts)))


def split(text, separators, blanks):
    """By each of the signs; those of the last list are left out at both ends of a part."""
    return [Text(part.strip(str(blanks))) for part in re.split("[" + re.escape(str(separators)) + "]", str(text))]


def process(_folder, program, source, sink, arguments):
    done = subprocess.run([str(program), *map(str, arguments)], input=str(source), stdout=subprocess.PIPE, text=True, check=False)
    sink.text += done.stdout
    return done.returncode


def in_path(name):
    found = [os.path.join(folder, str(name)) for folder in os.environ.get("PATH", "").split(":")]
    return next((Text(path) for path in found if os.access(path, os.X_OK)), FAIL)


def shown(value):
    if isinstance(value, list):
        return "[ " + ", ".join(map(shown, value)) + " ]"
    return str(value)


def joined(first, *others):
    if isinstance(first, list):
        return sum(others, first)
    return Text("".join(map(str, [first, *others])))


def filtered(values, wanted):
    found = [a for a in values if wanted(a)]
    return Text("".join(found)) if isinstance(values, Text) else found


def caught(function, arguments):
    try:
        return [True, function(*arguments)]
    except GapError:
        return [False]


FUNCTIONS = {
    "Add": lambda values, a: values.append(a), "BreakOnError": True, "CALL_WITH_CATCH": caught, "Chomp": lambda text: Text(str(text).removesuffix("\n")),
    "CloseStream": lambda stream: None, "Codeword": lambda values, f: values, "Concatenation": joined, "Dimension": lambda code: len(code.rows),
    "DirectoriesSystemPrograms": lambda: None, "DirectoryCurrent": lambda: None, "Error": error, "EvalString": lambda text: value_in(str(text), {}),
    "Filename": lambda folders, name: in_path(name), "Filtered": filtered, "First": lambda values, wanted: next((a for a in values if wanted(a)), FAIL), "GF": lambda q: q,
    "GeneratorMat": lambda code: [[Element(code.q, a) for a in row] for row in code.rows], "GeneratorMatCode": code_of, "HammingCode": hamming,
    "InputTextString": lambda text: text, "Int": lambda text: int(str(text)), "IntFFE": lambda a: a.number,
    "IsExecutableFile": lambda path: os.access(str(path), os.X_OK), "IsInt": lambda a: isinstance(a, int) and not isinstance(a, bool),
    "IsLinearCode": lambda a: isinstance(a, Code), "IsPrimeInt": lambda n: n > 1 and all(n % d for d in range(2, n)), "IsRecord": lambda a: isinstance(a, dict),
    "IsString": lambda a: isinstance(a, Text), "IsZero": lambda a: a.number == 0, "LeftActingDomain": lambda code: code.q, "Length": len,
    "List": lambda values, function: list(map(function, values)), "LoadPackage": lambda name: True,
    "LogFFE": lambda a, base: next(i for i in range(a.q) if base ** i == a), "MinimumDistance": Code.distance,
    "NullCode": lambda n, f: Code([], f, n), "OutputTextString": lambda text, appends: text, "Position": lambda values, a: values.index(a) + 1,
    "PositionSublist": lambda text, part: str(text).find(str(part)) + 1 or FAIL, "Print": lambda *parts: print("".join(map(shown, parts)), end=""),
    "Process": process, "Random": lambda f: Element(f, random.randrange(f)), "Read": lambda path: run(Path(str(path)).read_text(encoding="utf-8"), FUNCTIONS),
    "RecNames": lambda record: list(map(Text, record)), "RepetitionCode": lambda n, f: Code([[1] * n], f, n), "Size": lambda f: f, "SplitString": split,
    "StartsWith": lambda text, part: str(text).startswith(str(part)), "String": lambda a: Text(shown(a)), "WeightCodeword": lambda word: sum(a.number != 0 for a in word),
    "WordLength": lambda code: code.length, "Z": generator, "fail": FAIL, "GAPInfo": {"SystemEnvironment": {"CODES": Text(os.environ.get("CODES", ""))}},
}


if __name__ == "__main__":
    random.seed(1)
    try:
        run(Path(sys.argv[1]).read_text(encoding="utf-8"), FUNCTIONS)
    except GapError as mistake:
        sys.exit(f"Error, {mistake}")
