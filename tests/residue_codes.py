"""The calls of tools/residue_code.py, run by `codes`.

    tests/residue_codes.py PROGRAM

For each odd prime up to 255 and each size of a field of codes that is a square modulo it there are two polynomials, and their product
times x - 1 is x^n - 1; PROGRAM takes each call with n up to 127 over up to four elements, and says that its code has dimension
(n + 1)/2, and that `QRCode` gives one of the two. The distances of some are those of MacWilliams and Sloane, chapter 16. Prints what
fails, and ends with 1 if something does.
"""
import subprocess
import sys
from pathlib import Path

sys.path.insert(0, str(Path(__file__).resolve().parent.parent / "tools"))
import linear_algebra
import residue_code

DISTANCES = {(7, 2): 3, (17, 2): 5, (23, 2): 7, (31, 2): 7, (41, 2): 9, (47, 2): 11, (71, 2): 11, (11, 3): 5, (13, 3): 5, (23, 3): 8, (5, 4): 3}
LONGEST_RUN, LARGEST_RUN = 127, 4


def product(field, a, b):
    total = [0] * (len(a) + len(b) - 1)
    for i, x in enumerate(a):
        for j, y in enumerate(b):
            total[i + j] = field.sums[total[i + j]][field.products[x][y]]
    return total


def lengths_and_sizes():
    for n in filter(residue_code.is_odd_prime, range(3, 256)):
        for q in (2, 3, 4, 5, 7, 8, 9, 11, 13, 16):
            if q % n in {i * i % n for i in range(1, n)}:
                yield n, q


def polynomials(n, q):
    """What is wrong with the polynomials of a length over q elements."""
    found, field = residue_code.residue_polynomials(n, q), linear_algebra.Field(q)
    minus_one = next(m for m in range(q) if field.sums[m][1] == 0)
    whole = [minus_one] + [0] * (n - 1) + [1]
    if len(found) != 2 or product(field, product(field, found[0], found[1]), [minus_one, 1]) != whole:
        yield f"{n} over {q} elements: {found}"


def answers(program, script):
    done = subprocess.run([program, "run", "budget=100000"], input=script.encode(), capture_output=True, timeout=100)
    return done.stdout.decode().splitlines()


def main():
    program, failed = sys.argv[1], []
    some = [(n, q) for n, q in lengths_and_sizes() if n <= LONGEST_RUN and q <= LARGEST_RUN or n < 32]
    for n, q in some:
        failed += polynomials(n, q)
    calls = [(n, q, call) for n, q in some for call in residue_code.residue_codes(n, q)]
    for (n, q, call), line in zip(calls, answers(program, "".join(f"{call};" for _, _, call in calls))):
        if line != f"code [{n},{(n + 1) // 2}] GF({q})":
            failed.append(f"{call}: {line}")
    pairs = [(n, q, residue_code.residue_codes(n, q)) for n, q in some]
    asked = "".join(f"IsSameCode(QRCode({n},GF({q})),{call});" for n, q, both in pairs for call in both)
    said = iter(answers(program, asked))
    for n, q, _ in pairs:
        if {next(said, ""), next(said, "")} != {"true", "false"}:
            failed.append(f"QRCode({n},GF({q})) is not one of the two codes")
    told = [(n, q, call, d) for (n, q), d in DISTANCES.items() for call in residue_code.residue_codes(n, q)]
    for (n, q, call, d), line in zip(told, answers(program, "".join(f"MinimumDistance({call});" for _, _, call, _ in told))):
        if not line.startswith(f"distance {d} "):
            failed.append(f"{call}: {line}")
    print("\n".join(failed) or f"{len(calls)} codes")
    return 1 if failed else 0


if __name__ == "__main__":
    sys.exit(main())
