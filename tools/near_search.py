#!/usr/bin/env python3
"""A nearest word by error patterns under a budget of blocks, read from the definitions.

Stands beside the product and shares nothing with it: for each set and level it lists the errors on the set from the start, finds
the word of the code with that error, keeps the least pair of distance and place, and computes the bound anew at each end of a
phase. `tools/reference.py` uses it for `NearestWord`; run, it prints the answers for one word under each budget from 0 to 60, beside
the least distance by all words of the code.
"""
from functools import reduce
from itertools import combinations, islice, product
from math import comb
from operator import xor

from linear_algebra import Field, bit_count, span
from search import BLOCK, CUT, bases_of, negative


def weight(word):
    return sum(1 for a in word if a)


def less(field, u, v):
    return field.add_scaled(list(u), negative(field, 1), list(v))


def rest_of(field, n, x, basis, systematic):
    """What the word of the code that equals x on the basis leaves of x."""
    word = [0] * n
    for c, row in zip(basis, systematic):
        word = field.add_scaled(word, x[c], row)
    return less(field, x, word)


def errors_of_level(field, rest, systematic, level):
    """What the words that differ from x by so many symbols on a basis leave of x: the supports in lexicographic order, and for each
    the symbols."""
    for support in combinations(range(len(systematic)), level):
        for symbols in product(range(1, field.q), repeat=level):
            error = rest
            for i, a in zip(support, symbols):
                error = field.add_scaled(error, a, systematic[i])
            yield error


def binary_errors(rest, systematic, level):
    """The same over 2 elements, each error as a number."""
    first, *rows = (int("".join(map(str, row)), 2) for row in (rest, *systematic))
    for support in combinations(rows, level):
        yield reduce(xor, support, first)


def weighed(field, n, rest, systematic, level):
    """The errors of a level, how one is weighed, and how its symbols are read."""
    if field.q == 2:
        return binary_errors(rest, systematic, level), bit_count, lambda error: [int(bit) for bit in f"{error:0{n}b}"]
    return errors_of_level(field, rest, systematic, level), weight, list


def bound(k, sets, done, distance):
    """No word is nearer than the lesser of this and the distance; `done` has for each set the number of levels that are done."""
    if k + 1 in done:
        return distance
    return sum(max(0, n - (k - len(fresh))) for (_, fresh, _), n in zip(sets, done))


def nearest(q, n, rows, x, budget):
    """Of independent rows and a word x: whether the answer is exact, the lower end, the distance, the word and the blocks."""
    field, k = Field(q), len(rows)
    if not rows:
        return True, weight(x), weight(x), [0] * n, 0
    sets = bases_of(field, n, rows)
    rests = [rest_of(field, n, x, basis, systematic) for basis, _, systematic in sets]
    best = (weight(rests[0]), 0, rests[0])
    done, blocks = [0] * len(sets), 0
    for level in range(k + 1):
        for j, (_, _, systematic) in enumerate(sets):
            low = bound(k, sets, done, best[0])
            if best[0] <= low:
                return True, best[0], best[0], less(field, x, best[2]), blocks
            end = blocks + -(-comb(k, level) * (q - 1) ** level // BLOCK)
            errors, weigh, symbols = weighed(field, n, rests[j], systematic, level)
            for place, error in enumerate(islice(errors, (min(end, budget, CUT) - blocks) * BLOCK), blocks * BLOCK):
                distance = weigh(error)
                if distance < best[0]:
                    best = (distance, place, symbols(error))
            if end > budget or end >= CUT:
                return False, low, best[0], less(field, x, best[2]), budget
            blocks = end
            done[j] = level + 1
    return True, best[0], best[0], less(field, x, best[2]), blocks


def main():
    rows = [[1, 0, 0, 0, 0, 1, 1], [0, 1, 0, 0, 1, 0, 1], [0, 0, 1, 0, 1, 1, 0], [0, 0, 0, 1, 1, 1, 1]]
    x = [1, 1, 0, 0, 0, 1, 1]
    print(min(weight(less(Field(2), x, word)) for word in span(Field(2), 7, rows)))
    for budget in range(61):
        print(budget, *nearest(2, 7, rows, x, budget))


if __name__ == "__main__":
    main()
