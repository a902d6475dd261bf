#!/usr/bin/env python3
"""Numbers of plans, counted without the product, for the tests of the plan.

A message of level w over q elements is a support of w places below k, rising, and w nonzero elements, the
first one 1. The phases are level 1 with each of m sets, then level 2 with each, and so on; each phase is cut
into blocks of 4,096 messages, numbered from 0 through all phases, and blocks from 2^40 on are cut off.

    plan_numbers.py phases K Q M LEVELS      each phase up to a level: level, set, first block, block after the last
    plan_numbers.py total K Q M              the number of blocks
    plan_numbers.py messages K Q W FIRST N   N messages of a level from number FIRST on
    plan_numbers.py steps K Q W              from each message to the next, the least index that changed
    plan_numbers.py counts N                 levels whose number of messages is N, or is 1 more than a multiple of N
"""
import itertools
import math
import sys

BLOCK = 4096
CUT = 2 ** 40


def count(k, q, w):
    return math.comb(k, w) * (q - 1) ** (w - 1)


def phases(k, q, m):
    start = 0
    for level in range(1, k + 1):
        for which in range(m):
            end = start + -(-count(k, q, level) // BLOCK)
            yield level, which, min(start, CUT), min(end, CUT)
            start = end
            if end >= CUT:
                return


def messages(k, q, w):
    for support in itertools.combinations(range(k), w):
        for rest in itertools.product(range(1, q), repeat=w - 1):
            yield support, (1,) + rest


def first_change(old, new):
    return next(i for i in range(len(old[0])) if (old[0][i], old[1][i]) != (new[0][i], new[1][i]))


def main(words):
    what, numbers = words[0], [int(word) for word in words[1:]]
    if what == "phases":
        k, q, m, levels = numbers
        for phase in phases(k, q, m):
            if phase[0] <= levels:
                print(*phase)
    elif what == "total":
        k, q, m = numbers
        print(max(end for _, _, _, end in phases(k, q, m)))
    elif what == "messages":
        k, q, w, first, many = numbers
        for support, entries in itertools.islice(messages(k, q, w), first, first + many):
            print(*support, "|", *entries)
    elif what == "steps":
        k, q, w = numbers
        level = list(messages(k, q, w))
        print(*[first_change(a, b) for a, b in zip(level, level[1:])], "None")
    elif what == "counts":
        (n,) = numbers
        for k in range(1, 256):
            for q in (2, 3, 4, 5, 7, 8, 9, 11, 13, 16):
                for w in range(1, k + 1):
                    number = count(k, q, w)
                    if number == n or (number > n and number % n == 1 and number < n * 1000):
                        print(k, q, w, number)


if __name__ == "__main__":
    main(sys.argv[1:])
