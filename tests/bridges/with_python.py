"""tools/python/codes_bridge.py: distances, certificates, scripts, progress and mistakes. The program is $CODES.

Prints what fails, and ends with 1 if something does.
"""
import os
import random
import sys
from itertools import product
from pathlib import Path

sys.path.insert(0, str(Path(__file__).resolve().parent.parent.parent / "tools" / "python"))
import codes_bridge
from codes_bridge import Answers, CodesError, Distance, Fault, Refusal, Verdict, certificate, check, minimum_distance, run

failed = []
HAMMING = [[1, 0, 0, 0, 0, 1, 1], [0, 1, 0, 0, 1, 0, 1], [0, 0, 1, 0, 1, 1, 0], [0, 0, 0, 1, 1, 1, 1]]


def same(found, wanted):
    if found != wanted:
        failed.append(f"{found}, wanted {wanted}")


def raises(kind, wanted, call, *words, **how):
    try:
        failed.append(f"no error: {call(*words, **how)}")
    except kind as error:
        if wanted not in str(error):
            failed.append(f"{error}, wanted {wanted}")


class Number:
    """A number that is none of Python's, as the entries of an array are when it is looked through."""

    def __init__(self, value):
        self.value = value

    def __int__(self):
        return int(self.value)

    def __eq__(self, other):
        return self.value == (other.value if isinstance(other, Number) else other)


class Array:
    """What an array of numpy does when it is looked through: its rows are arrays, its entries Numbers, and it is neither true nor false."""

    def __init__(self, values):
        self.values = values

    def __iter__(self):
        return (Array(value) if isinstance(value, list) else Number(value) for value in self.values)

    def __len__(self):
        return len(self.values)

    def __bool__(self):
        raise ValueError("The truth value of an array with more than one element is ambiguous")

    def __eq__(self, other):
        return Array([value == other for value in self.values])


class ArrayWithLists(Array):
    """The same with `tolist`."""

    def tolist(self):
        return self.values


def listed(rows, p):
    """The least weight of a nonzero word over a prime field, by listing all."""
    words = ([sum(c * a for c, a in zip(message, column)) % p for column in zip(*rows)] for message in product(range(p), repeat=len(rows)))
    return min((sum(map(bool, word)) for word in words if any(word)), default=None)


def distances():
    same(minimum_distance(HAMMING, 2), Distance(3, 3, [1, 0, 0, 0, 0, 1, 1], 2))
    same(minimum_distance(HAMMING, 2, budget=1, workers=2).is_exact, False)
    same(minimum_distance(tuple(map(tuple, HAMMING)), 2, workers=2).word, HAMMING[0])
    random.seed(2)
    for p in (2, 3, 5, 7):
        for _ in range(10):
            rows = [[random.randrange(p) for _ in range(8)] for _ in range(3)]
            if listed(rows, p):
                same((minimum_distance(rows, p).low, minimum_distance(rows, p).high), (listed(rows, p),) * 2)
    raises(Refusal, "no nonzero word", minimum_distance, [[0, 0]], 2)
    raises(ValueError, "not over 6", minimum_distance, HAMMING, 6)
    raises(ValueError, "row 1 has 1 entries", minimum_distance, [[1, 0], [1]], 2)
    raises(ValueError, "from 0 to 1", minimum_distance, [[1, 2]], 2)
    raises(ValueError, "rows of 1 to 255", minimum_distance, [], 2)
    raises(CodesError, "word 1 refused", minimum_distance, HAMMING, 2, budget=-1)


def arrays():
    """Arrays, rows that are arrays, generators and numbers of other types are what lists are."""
    wanted, floats = minimum_distance(HAMMING, 2), [[float(a) for a in row] for row in HAMMING]
    for rows in (Array(HAMMING), ArrayWithLists(HAMMING), [ArrayWithLists(row) for row in HAMMING], [Array(row) for row in HAMMING], tuple(map(tuple, HAMMING)),
                 (iter(row) for row in HAMMING), floats, Array(floats), [[bool(a) for a in row] for row in HAMMING]):
        same(minimum_distance(rows, 2), wanted)
    same(minimum_distance(HAMMING, Number(2).value, workers=Number(2), budget=Number(100)), wanted)
    same(check(certificate(Array(HAMMING), 2)).distance, 3)
    raises(ValueError, "row 1 has an entry that is no whole number: 0.5", minimum_distance, [[1, 0], [0.5, 1]], 2)
    raises(ValueError, "no whole number: nan", minimum_distance, [[1, float("nan")]], 2)
    raises(ValueError, "no whole number: '1'", minimum_distance, [["1"]], 2)
    raises(ValueError, "row 0 is no list of numbers", minimum_distance, ["1011"], 2)
    raises(ValueError, "row 0 is no list of numbers", minimum_distance, Array([1, 0, 1]), 2)
    raises(ValueError, "a matrix is a list of rows", minimum_distance, 5, 2)


def arrays_of_numpy():
    try:
        import numpy
    except ImportError:
        return  # it is no part of what this needs: the arrays above stand for its own
    wanted = minimum_distance(HAMMING, 2)
    for kind in (numpy.uint8, numpy.int64, numpy.bool_, numpy.float64, object):
        same(minimum_distance(numpy.array(HAMMING, dtype=kind), 2), wanted)
        same(minimum_distance(list(numpy.array(HAMMING, dtype=kind)), 2), wanted)
    same(minimum_distance(numpy.asfortranarray(HAMMING)[::-1], numpy.int64(2), workers=numpy.int32(2), budget=numpy.int64(100)), minimum_distance(HAMMING[::-1], 2))
    same(minimum_distance(numpy.eye(3), 16), minimum_distance([[1, 0, 0], [0, 1, 0], [0, 0, 1]], 16))
    raises(ValueError, "no whole number", minimum_distance, numpy.array([[0.5]]), 2)
    raises(ValueError, "row 0 is no list of numbers", minimum_distance, numpy.array([1, 0]), 2)
    raises(ValueError, "a matrix is a list of rows", minimum_distance, numpy.array(1), 2)
    raises(ValueError, "rows of 1 to 255", minimum_distance, numpy.zeros((0, 4)), 2)
    raises(ValueError, "no whole number", minimum_distance, numpy.zeros((2, 2, 2)), 2)


def certificates():
    line = certificate(HAMMING, 2)
    same(check(line), Verdict(True, 3, None, ()))
    same(check(line.replace('"distance":3', '"distance":4')), Verdict(False, None, 34, (3,)))
    raises(Refusal, "between", certificate, HAMMING, 2, budget=0)


def scripts():
    same(run("C := HammingCode(3, GF(2)); C;"), Answers(["code [7,4] GF(2)"], None))
    same(run("12; GF(6);"), Answers(["12"], Fault(1, 4, ())))
    same(run("[[1,0]]; GeneratorMatCode([[2]],GF(2));").fault, Fault(3, 9, (1,)))
    same(len(run("GeneratorMat(WholeSpaceCode(255,GF(2)));").lines[0]), 255 * 512 + 1)  # more than a pipe holds
    raises(CodesError, "input too long", run, " " * (2**20 + 1))


def rounds():
    seen = []
    minimum_distance([[int(i == j) for j in range(20)] + [(i * j + i // 3 + j) % 5 % 2 for j in range(20)] for i in range(20)], 2, progress=seen.append)
    if not seen or any(a.blocks > b.blocks for a, b in zip(seen, seen[1:])) or seen[-1].bound < seen[-1].best:
        failed.append(f"{seen[-3:]}")

    def stop(_):
        raise KeyboardInterrupt("enough")
    raises(KeyboardInterrupt, "enough", minimum_distance, HAMMING, 2, progress=stop)


for part in (distances, arrays, arrays_of_numpy, certificates, scripts, rounds):
    part()
os.environ.pop("CODES")
same(codes_bridge.program_or("here"), "here")
print("\n".join(failed) or "done")
sys.exit(1 if failed else 0)
