#!/usr/bin/env python3
"""The answers of the searches for nearest words of crates/kernel_tests, read from the definitions.

Stands beside the product and shares nothing with it: for each phase it lists the error patterns of a level on an information set in
their order, adds up what each leaves of the given word, and keeps the least pair of distance and place; before each phase it computes
the bound anew. The codes and words are pseudo-random, from the generator that the tests have too.
"""
from itertools import combinations, islice
from math import comb

from linear_algebra import Field
from search import BLOCK, bases_of, negative

# The size of the field, the length, the dimension, the first state of the generator, and the budget in blocks.
CASES = [
    (2, 63, 40, 1, 60), (2, 64, 40, 2, 60), (2, 65, 40, 3, 60), (2, 127, 36, 4, 90), (2, 200, 40, 5, 70), (2, 250, 50, 6, 60),
    (2, 254, 50, 7, 60), (2, 255, 60, 8, 40), (2, 255, 17, 9, 40), (2, 31, 16, 10, 1000), (3, 63, 15, 11, 90), (3, 40, 20, 12, 70),
    (4, 65, 12, 13, 120), (4, 127, 14, 14, 100), (9, 64, 8, 15, 60), (9, 127, 7, 16, 90), (16, 64, 6, 17, 100), (16, 30, 8, 18, 60),
    (16, 254, 5, 19, 70), (5, 64, 9, 20, 60),
]


def generator(state):
    while True:
        state = (state * 6364136223846793005 + 1442695040888963407) % 2**64
        yield state >> 33


def code_and_word(q, n, k, state):
    numbers = generator(state)
    words = [[next(numbers) % q for _ in range(n)] for _ in range(k + 1)]
    return words[:k], words[k]


def sums(field, left, rows, support, i):
    """What `left` and all multiples of the rows of a support add up to, from its entry i on, in the order of the coefficients."""
    if i == len(support):
        yield left
        return
    for c in range(1, field.q):
        yield from sums(field, field.add_scaled(left, c, rows[support[i]]), rows, support, i + 1)


def left_by_patterns(field, left, rows, level):
    for support in combinations(range(len(rows)), level):
        yield from sums(field, left, rows, support, 0)


def left_of(field, x, basis, rows):
    for column, row in zip(basis, rows):
        x = field.add_scaled(x, negative(field, x[column]), row)
    return x


def near(q, n, k, state, budget):
    """Whether the answer is exact, the lower end, the distance, the blocks, and the word."""
    field = Field(q)
    rows, x = code_and_word(q, n, k, state)
    sets = bases_of(field, n, rows)
    lefts = [left_of(field, x, basis, systematic) for basis, _, systematic in sets]
    best, blocks = (n - lefts[0].count(0), 0, lefts[0]), 0
    for level in range(k + 1):
        for j, (_, _, systematic) in enumerate(sets):
            done = [level + (i < j) for i in range(len(sets))]
            low = sum(max(0, w - (k - len(fresh))) for w, (_, fresh, _) in zip(done, sets))
            if best[0] <= low:
                return (True, best[0], best[0], blocks), field.add_scaled(x, negative(field, 1), best[2])
            count = -(-comb(k, level) * (q - 1) ** level // BLOCK)
            words = islice(left_by_patterns(field, lefts[j], systematic, level), min(count, budget - blocks) * BLOCK)
            for place, word in enumerate(words, blocks * BLOCK):
                distance = n - word.count(0)
                if distance < best[0]:
                    best = (distance, place, word)
            if budget < blocks + count:
                return (False, low, best[0], budget), field.add_scaled(x, negative(field, 1), best[2])
            blocks += count
    return (True, best[0], best[0], blocks), field.add_scaled(x, negative(field, 1), best[2])


def mark(word):
    """The word as a number, in which a changed symbol shows."""
    number = 0
    for a in word:
        number = (number * 31 + a) % 2**64
    return number


def main():
    for q, n, k, state, budget in CASES:
        (exact, low, weight, blocks), word = near(q, n, k, state, budget)
        print(f"    ([{q}, {n}, {k}, {state}, {budget}], [{int(exact)}, {low}, {weight}, {blocks}, {mark(word):_}]),", flush=True)


if __name__ == "__main__":
    main()
