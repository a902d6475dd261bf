#!/usr/bin/env python3
"""Makes the gallery of certificates, examples/certificates, and checks it.

    tools/gallery.py --make PROGRAM
    tools/gallery.py --check PROGRAM

PROGRAM is the path of `codes`. The first form runs the query `Certificate` on each code of the first table below and
tools/tree_certificate.py on each script of the second one, writes what they print to examples/certificates/NAME.json, and the page
README.md there. The second form writes nothing: it sees that each file is still printed, that `codes check` and
tools/check_certificate.py accept it with the distance of the table, and that the page is up to date. check_certificate.py is left out
where it would have to look at more than a million words. Prints what is wrong, and ends with 1 if there is something.
"""
import subprocess
import sys
from itertools import count
from pathlib import Path

import check_certificate
import compare_certificates
import tree_certificate

FOLDER = Path(__file__).resolve().parent.parent / "examples" / "certificates"
MOST_FOR_PYTHON = 1_000_000


# ---- polynomials over 2 elements, as numbers whose bits are the coefficients -----------------------------------------

def remainder(a, b):
    while a.bit_length() >= b.bit_length():
        a ^= b << a.bit_length() - b.bit_length()
    return a


def common(a, b):
    while b:
        a, b = b, remainder(a, b)
    return a


def residue_code(p):
    """The code of the quadratic residues modulo the prime p: its generator polynomial is the common divisor of x^p - 1 and
    the sum of the powers of x to the residues, or that sum plus 1."""
    squares = sum(1 << r for r in sorted({i * i % p for i in range(1, p)}))
    whole = 1 << p | 1
    g = next(g for g in (common(whole, squares), common(whole, squares | 1)) if g.bit_length() - 1 == (p - 1) // 2)
    return f"GeneratorPolCode({[g >> i & 1 for i in range(g.bit_length())]},{p},GF(2))".replace(" ", "")


MS = "MacWilliams and Sloane, The Theory of Error-Correcting Codes"
LOCATORS_32 = str(list(range(32))).replace(" ", "")

# file, name, expression, minimum distance, source
CODES = [
    ("repetition_9", "repetition code", "RepetitionCode(9,GF(2))", 9, f"{MS}, chapter 1"),
    ("parity_10", "even-weight code", "EvenWeightSubcode(WholeSpaceCode(10,GF(2)))", 2, f"{MS}, chapter 1"),
    ("hamming_7", "Hamming code", "HammingCode(3,GF(2))", 3, f"{MS}, chapter 1"),
    ("hamming_31", "Hamming code", "HammingCode(5,GF(2))", 3, f"{MS}, chapter 1"),
    ("extended_hamming_8", "extended Hamming code", "ExtendedCode(HammingCode(3,GF(2)))", 4, f"{MS}, chapter 1"),
    ("simplex_31", "simplex code", "DualCode(HammingCode(5,GF(2)))", 16, f"{MS}, chapter 1"),
    ("golay_23", "binary Golay code", "BinaryGolayCode()", 7, f"{MS}, chapter 20"),
    ("golay_24", "extended binary Golay code", "ExtendedBinaryGolayCode()", 8, f"{MS}, chapter 20"),
    ("reed_muller_1_5", "first-order Reed–Muller code", "ReedMullerCode(1,5)", 16, f"{MS}, chapter 13"),
    ("reed_muller_2_5", "second-order Reed–Muller code", "ReedMullerCode(2,5)", 8, f"{MS}, chapter 13"),
    ("bch_15_5", "BCH code", "BCHCode(15,5,GF(2))", 5, f"{MS}, chapter 9"),
    ("bch_31_7", "BCH code", "BCHCode(31,7,GF(2))", 7, f"{MS}, chapter 9"),
    ("residues_17", "quadratic residue code", residue_code(17), 5, f"{MS}, chapter 16"),
    ("residues_31", "quadratic residue code", residue_code(31), 7, f"{MS}, chapter 16"),
    ("goppa_8", "Goppa code", "GoppaCode([1,1,1],[0,1,2,3,4,5,6,7],GF(8),GF(2))", 5, f"{MS}, chapter 12"),
    ("goppa_32", "Goppa code of z^3 + z + 1", f"GoppaCode([1,1,0,1],{LOCATORS_32},GF(32),GF(2))", 7, f"{MS}, chapter 12"),
    ("product_49", "product of two Hamming codes", "DirectProductCode(HammingCode(3,GF(2)),HammingCode(3,GF(2)))", 9, f"{MS}, chapter 18"),
    ("tetracode", "tetracode", "HammingCode(2,GF(3))", 3, "Conway and Sloane, Sphere Packings, Lattices and Groups, chapter 3"),
    ("ternary_golay_11", "ternary Golay code", "TernaryGolayCode()", 5, f"{MS}, chapter 20"),
    ("ternary_golay_12", "extended ternary Golay code", "ExtendedTernaryGolayCode()", 6, f"{MS}, chapter 20"),
    ("ternary_hamming_13", "ternary Hamming code", "HammingCode(3,GF(3))", 3, f"{MS}, chapter 7"),
    ("ternary_bch_26", "ternary BCH code", "BCHCode(26,5,GF(3))", 5, f"{MS}, chapter 9"),
    ("hexacode", "hexacode", "CheckMatCode([[1,0,0,1,1,1],[0,1,0,1,2,3],[0,0,1,1,3,2]],GF(4))", 4, "Conway and Sloane, Sphere Packings, Lattices and Groups, chapter 3"),
    ("quaternary_hamming_21", "quaternary Hamming code", "HammingCode(3,GF(4))", 3, f"{MS}, chapter 7"),
    ("reed_solomon_4", "Reed–Solomon code over 5 elements", "ReedSolomonCode(4,3)", 3, f"{MS}, chapter 10"),
    ("reed_solomon_6", "Reed–Solomon code over 7 elements", "ReedSolomonCode(6,4)", 4, f"{MS}, chapter 10"),
    ("reed_solomon_7", "Reed–Solomon code over 8 elements", "ReedSolomonCode(7,4)", 4, f"{MS}, chapter 10"),
    ("reed_solomon_10", "Reed–Solomon code over 11 elements", "ReedSolomonCode(10,7)", 7, f"{MS}, chapter 10"),
    ("reed_solomon_15", "Reed–Solomon code over 16 elements", "ReedSolomonCode(15,11)", 11, f"{MS}, chapter 10"),
    ("hamming_17", "Hamming code over 16 elements, which is MDS", "HammingCode(2,GF(16))", 3, f"{MS}, chapters 7 and 11"),
]

GOLAY = f"{MS}, chapters 18 and 20"

# file, name, script, minimum distance, source: a tree for each kind of claim, and then deep ones
TREES = [
    ("tree_search", "tetracode, by one search", "HammingCode(2,GF(3));", 3, "Conway and Sloane, Sphere Packings, Lattices and Groups, chapter 3"),
    ("tree_alternant", "Goppa code, by the form of the square of its polynomial", f"GoppaCode([1,1,0,1],{LOCATORS_32},GF(32),GF(2));", 7, f"{MS}, chapter 12"),
    ("tree_uuv", "(u\\|u+v)", "UUVCode(EvenWeightSubcode(WholeSpaceCode(8,GF(2))),RepetitionCode(8,GF(2)));", 4, f"{MS}, chapter 2"),
    ("tree_sum", "direct sum", "DirectSumCode(BinaryGolayCode(),BCHCode(15,7,GF(2)));", 7, f"{MS}, chapter 2"),
    ("tree_product", "product of two Hamming codes", "DirectProductCode(HammingCode(3,GF(2)),HammingCode(4,GF(2)));", 9, f"{MS}, chapter 18"),
    ("tree_concat", "concatenation of a Reed–Solomon code and a simplex code", "ConcatenatedCode(ReedSolomonCode(7,5),DualCode(HammingCode(3,GF(2))));", 20, f"{MS}, chapter 10"),
    ("tree_subcode", "words of even weight of a sum", "EvenWeightSubcode(DirectSumCode(ExtendedCode(HammingCode(3,GF(2))),BCHCode(15,5,GF(2))));", 4, f"{MS}, chapter 1"),
    ("tree_puncture", "punctured Golay code", "PuncturedCode(ExtendedBinaryGolayCode(),[0,5]);", 6, f"{MS}, chapters 1 and 20"),
    ("tree_shorten", "shortened Reed–Solomon code", "ShortenedCode(ReedSolomonCode(15,7),[12,13,14]);", 7, f"{MS}, chapters 1 and 10"),
    ("tree_extend", "extended BCH code", "ExtendedCode(BCHCode(63,5,GF(2)));", 6, f"{MS}, chapters 1 and 9"),
    ("tree_golay_product", "product of the ternary Golay codes", "DirectProductCode(TernaryGolayCode(),ExtendedTernaryGolayCode());", 30, GOLAY),
    ("tree_concat_255", "concatenation of an MDS code over 16 elements and a simplex code", "ConcatenatedCode(BCHCode(17,14,8,GF(16)),DualCode(HammingCode(4,GF(2))));", 64, f"{MS}, chapter 10"),
    ("tree_shortened_bch", "shortened extended BCH code", "ShortenedCode(ExtendedCode(BCHCode(63,11,GF(2))),[0,1,2,3,4,5,6,7]);", 12, f"{MS}, chapters 1 and 9"),
    ("tree_reed_muller_2_5", "Reed–Muller code, by (u\\|u+v) down to length 2", "ReedMullerCode(2,5);", 8, f"{MS}, chapter 13"),
    ("tree_reed_muller_2_7", "Reed–Muller code, by (u\\|u+v) down to length 2", "ReedMullerCode(2,7);", 32, f"{MS}, chapter 13"),
]

HEAD = """# Certificates of well-known codes

Each file is a certificate that `codes` prints for the code: one line of JSON, which [docs/FORMATS.md](../../docs/FORMATS.md#certificates) describes. Check one by either program:

```sh
./codes check < examples/certificates/golay_23.json
python3 tools/check_certificate.py < examples/certificates/golay_23.json
```

Both print `accepted distance 7`. *Words* is what a checker has to look at. `tools/gallery.py` makes the files and this page, and the gate checks that both programs accept each file, the second one if there are at most a million words.

| File | Code | [n, k, d] | over | Words | Call | Source |
|---|---|---|---|---|---|---|
"""


TREES_HEAD = """
## By construction

These are [certificates by construction](../../docs/FORMATS.md#certificates-by-construction): trees of claims, one for each kind of claim and then deeper ones. `tools/tree_certificate.py` makes them of the scripts. `codes check` and `tools/check_certificate.py` accept each.

| File | Code | [n, k, d] | over | Claims | Words | Script | Source |
|---|---|---|---|---|---|---|---|
"""


def printed(program, expression):
    done = subprocess.run([program, "run", "budget=1099511627776"], input=f"Certificate({expression});".encode(), capture_output=True, timeout=600)
    return done.stdout.decode()


def numbers(text):
    """The length, the dimension, the size of the field and the cost of a certificate."""
    field, rows, word, _, sets = check_certificate.read(text)
    k = len(check_certificate.systematic(field, rows, range(len(word)))[1])
    return len(word), k, field.q, check_certificate.levels_and_cost(k, field.q, sets)[1]


def page(texts):
    lines = []
    for name, title, expression, distance, source in CODES:
        n, k, q, cost = numbers(texts[name])
        call = expression if len(expression) <= 60 else expression.split("(")[0] + "(..)"
        lines.append(f"| `{name}.json` | {title} | [{n}, {k}, {distance}] | GF({q}) | {cost:,} | `{call}` | {source} |\n")
    for name, title, script, distance, source in TREES:
        tree = check_certificate.read_either(texts[name])
        code = check_certificate.code_of(tree.claim, count(), check_certificate.Progress(0, True))
        shown = f"[{code.length}, {len(code.rows)}, {distance}] | GF({tree.q}) | {len(list(tree.claim.all()))} | {check_certificate.tree_cost(tree):,}"
        lines.append(f"{TREES_HEAD if name == TREES[0][0] else ''}| `{name}.json` | {title} | {shown} | `{script if len(script) <= 100 else script.split('(')[0] + '(..);'}` | {source} |\n")
    return HEAD + "".join(lines)


def tree_of(program, script):
    """The certificate by construction of the code that a script makes."""
    code = tree_certificate.code_of_script(script.encode())
    return tree_certificate.certificate_of(code, tree_certificate.Asked(program)) + "\n"


def make(program):
    FOLDER.mkdir(exist_ok=True)
    texts = {}
    for name, _, expression, distance, _ in CODES:
        texts[name] = printed(program, expression)
        if not texts[name].startswith("{"):
            sys.exit(f"{name}: {texts[name]}")
        (FOLDER / f"{name}.json").write_text(texts[name])
    for name, _, script, _, _ in TREES:
        texts[name] = tree_of(program, script)
        (FOLDER / f"{name}.json").write_text(texts[name])
    (FOLDER / "README.md").write_text(page(texts))


def faults(program):
    texts = {}
    for name, _, expression, distance, _ in CODES:
        text = (FOLDER / f"{name}.json").read_text()
        texts[name] = text
        if printed(program, expression) != text:
            yield f"{name}: `codes` prints another certificate"
        done = subprocess.run([program, "check"], input=text.encode(), capture_output=True, timeout=100)
        if (done.stdout.decode(), done.returncode) != (f"accepted distance {distance}\n", 0):
            yield f"{name}: `codes check` says {done.stdout.decode().strip()}"
        if numbers(text)[3] <= MOST_FOR_PYTHON and check_certificate.check(text) != distance:
            yield f"{name}: tools/check_certificate.py accepts another distance"
    yield from tree_faults(program, texts)
    if (FOLDER / "README.md").read_text() != page(texts):
        yield "README.md isn't up to date"
    if {path.stem for path in FOLDER.glob("*.json")} != set(texts):
        yield "a file belongs to no code of the table"


def tree_faults(program, texts):
    """What is wrong with the trees; their texts are kept in `texts`."""
    for name, _, script, distance, _ in TREES:
        text = texts[name] = (FOLDER / f"{name}.json").read_text()
        if tree_of(program, script) != text:
            yield f"{name}: tools/tree_certificate.py makes another certificate"
        if check_certificate.check(text) != distance:
            yield f"{name}: tools/check_certificate.py accepts another distance"
        if compare_certificates.run(program, text) != (f"accepted distance {distance}\n", 0):
            yield f"{name}: `codes check` says something else"


def main():
    if len(sys.argv) != 3 or sys.argv[1] not in ("--make", "--check"):
        sys.exit(__doc__)
    if sys.argv[1] == "--make":
        make(sys.argv[2])
        return
    found = list(faults(sys.argv[2]))
    print("\n".join(found) or f"{len(CODES) + len(TREES)} certificates")
    sys.exit(1 if found else 0)


if __name__ == "__main__":
    main()
