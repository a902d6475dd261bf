#!/usr/bin/env python3
"""Searches of codes over each field at lengths around the borders of the kernel's words of 64 columns.

    tools/kernel_codes.py PROGRAM [MORE]

Pseudo-random codes over each of the ten fields, of lengths 1 to 255 around 64, 128 and 192, with budgets that end inside a
phase, and codes with many words of least weight; and MORE codes, none without the word, of random fields, lengths and dimensions,
most of them of such lengths. The distance, the word, which is the first of least weight, and the blocks
must be those of the reference program, which lists the messages one after another. Prints each code on which they differ,
and ends with 1 if there is one.
"""
import random
import subprocess
import sys
from concurrent.futures import ProcessPoolExecutor
from functools import partial

from reference import Session, text_and_status

LANES = 4
LENGTHS = (1, 2, 63, 64, 65, 127, 128, 129, 192, 193, 255)
DIMENSIONS = {2: 11, 3: 6, 4: 5, 5: 4, 7: 4, 8: 3, 9: 3, 11: 3, 13: 3, 16: 3}
# over each of some fields a code whose levels have several blocks
WIDE = {2: 17, 3: 9, 4: 8, 5: 7}


def matrix(rng, q, n, k, weight=None):
    """k rows of n symbols; of so many nonzero symbols at most, if a weight is given."""
    rows = []
    for _ in range(k):
        row = [rng.randrange(q) for _ in range(n)]
        if weight is not None:
            kept = set(rng.sample(range(n), min(n, weight)))
            row = [a if i in kept else 0 for i, a in enumerate(row)]
        rows.append("[" + ",".join(map(str, row)) + "]")
    return "[" + ",".join(rows) + "]"


def searches():
    """Each script with its budget."""
    rng = random.Random(2)
    for q, k in DIMENSIONS.items():
        for n in LENGTHS:
            yield f"MinimumDistance(GeneratorMatCode({matrix(rng, q, n, min(n, k))},GF({q})));", 1 << 20
        # rows of few nonzero symbols: many words have the least weight
        yield f"MinimumDistance(GeneratorMatCode({matrix(rng, q, 70, k, 3)},GF({q})));", 1 << 20
        yield f"MinimumDistance(GeneratorMatCode({matrix(rng, q, 130, k, 4)},GF({q})));", 1 << 20
    for q, k in WIDE.items():
        for n in (k + 63, k + 64, k + 65):
            for budget, weight in ((3, None), (11, None), (1 << 20, 16)):
                yield f"MinimumDistance(GeneratorMatCode({matrix(rng, q, n, k, weight)},GF({q})));", budget


def more(count):
    """So many scripts of random fields, lengths and dimensions, with budgets."""
    rng = random.Random(3)
    for _ in range(count):
        q = rng.choice(list(DIMENSIONS))
        n = min(255, max(1, rng.choice((64, 128, 192, 255)) + rng.randint(-3, 12))) if rng.randrange(4) else rng.randint(1, 255)
        k = rng.randint(1, min(n, DIMENSIONS[q]))
        weight = rng.choice((None, None, 3, n // 4 + 1, n // 2 + 1))
        yield f"MinimumDistance(GeneratorMatCode({matrix(rng, q, n, k, weight)},GF({q})));", rng.choice((1, 2, 3, 5, 1 << 20, 1 << 20))


def compared(program, script, budget):
    """What differs, if anything."""
    done = subprocess.run([program, "run", f"budget={budget}", "workers=2"], input=script.encode(), capture_output=True, timeout=300)
    wanted = text_and_status(script.encode(), Session(budget))
    if (done.stdout, done.returncode) == wanted:
        return None
    return f"budget {budget} {script}\n  program    {done.returncode} {done.stdout}\n  reference  {wanted}"


def main():
    if len(sys.argv) < 2 or sys.argv[1] in ("-h", "--help"):
        sys.exit(__doc__.strip())
    program, made = sys.argv[1], list(searches()) + list(more(int(sys.argv[2]) if len(sys.argv) > 2 else 0))
    with ProcessPoolExecutor(LANES) as lanes:
        differ = [said for said in lanes.map(partial(compared, program), *zip(*made), chunksize=8) if said]
    print("\n".join(differ[:20] + [f"{len(made)} searches, {len(differ)} differ"]))
    sys.exit(1 if differ else 0)


if __name__ == "__main__":
    main()
