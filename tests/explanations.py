"""What tools/explain.py says where a stored case would be much for a little: signs that begin no token, and names of other systems.

    tests/explanations.py PROGRAM

Each sign that can't begin a token has a sentence. Each name in back quotes in the tables and the last list of docs/FROM_GUAVA.md leads
to a sentence, unless it is a call of the language too, and each name in the sentences of the first table is one. Each fault of three hundred scripts that are made at random is explained: the
last line is another one than the caret for the faults of calls, names and signs. So is each rejection of as many certificates, and of as
many by construction. Prints what fails, and ends with 1 if something does.
"""
import json
import re
import sys
from pathlib import Path
from random import Random

sys.path.insert(0, str(Path(__file__).resolve().parent.parent / "tools"))
import compare_certificates
import explain
import explain_bytes
import explain_certificate
import foreign_names
import random_trees
from random_scripts import scripts
from reference import CALLS, LETTERS, DIGITS, QUERIES, ended

OURS = set(CALLS) | set(QUERIES)
# sign, script, what the sentence has in it; the fault is at the sign
SIGNS = [
    ("=", b"C = 1;", "`:=`"), ("^", b"2^10;", "1024"), ("^", b"x^2;", "no powers"), ("^", b"Z(2)^0;", "FROM_GUAVA"), ("-", b"[-1],GF(13)", "12"),
    ("-", b"-1;", "no negative"), ('"', b'"01"', "[0,1]"), ('"', b'"a"', "no strings"), ("/", b"/* a */", "`#`"), ("/", b"1/2;", "no quotients"),
    (".", b"[1..5];", "no ranges"), (".", b"C.1;", "whole"), (".", b"codes.HammingCode(F,3);", "`HammingCode(..)` alone"), (".", b"C.dual_code();", "`DualCode(C)`"), ("{", b"{1};", "brackets"), ("\x00", b"\x00", "byte 0"), ("\u00a0", "\u00a0".encode(), "NO-BREAK SPACE"),
    ("\u200b", "\u200b".encode(), "ZERO WIDTH SPACE"), ("\u201c", "\u201c".encode(), "LEFT DOUBLE QUOTATION MARK"), ("\u03b1", "\u03b1".encode(), "GREEK SMALL LETTER ALPHA"),
]
TOKENS = [(b"1;;", 2, "one `;`"), (b"if x then", 3, "no loops"), (b"for x in C do", 6, "no loops"), (b"x in C;", 2, "`IsCodeword(C, x)`"), (b"Weight [1];", 7, "`Weight(..)`"), (b"C D;", 2, "")]


def signs():
    for sign, script, wanted in SIGNS:
        sentence = explain_bytes.of_byte(script, script.index(sign.encode()))
        if wanted not in sentence:
            yield f"{sign!r} in {script}: {sentence}"
    for byte in range(256):
        if byte not in LETTERS + DIGITS + b"()[],; \t\r\n#" and not explain_bytes.of_byte(bytes([byte]) + b" ", 0):
            yield f"nothing is said of the byte {byte}"
    for script, place, wanted in TOKENS:
        if wanted not in explain_bytes.of_token(script, place):
            yield f"{script}: {explain_bytes.of_token(script, place)}"


def names():
    parts = foreign_names.sections(foreign_names.PAGE.read_text(encoding="utf-8"))
    for heading in ("Coming from GUAVA, Sage or Magma", "What is not here"):
        for line in parts[heading]:
            for snippet in foreign_names.QUOTED.findall(line.split("|", 2)[-1]) if line[:1] in "|-" else []:
                name = foreign_names.name_in(snippet)
                if name and name not in OURS and not foreign_names.said_of(name):
                    yield f"nothing is said of `{name}`"
    for name in ("RootsCode", "CoveringRadius", "dual_code", "BKLC", "Z", "Codeword", "CyclicCode"):
        if not foreign_names.said_of(name):
            yield f"nothing is said of `{name}`"
    for name, wanted in (("Dual", "`DualCode(C)`"), ("LinearCode", "`GeneratorMatCode(M, F)`")):
        if wanted not in foreign_names.said_of(name):
            yield f"of `{name}` it is said: {foreign_names.said_of(name)}"
    for name, sentence in foreign_names.table().items():
        written = re.search(r" write (.*)", sentence)
        for call in re.findall(r"`(\w+)\(", written.group(1)) if written else []:
            if call not in OURS:
                yield f"of `{name}` it is said: {sentence}"


def nearest():
    for name, known, wanted in (("minimumdistance", sorted(OURS), "MinimumDistance"), ("c", ["C", "GF"], "C"), ("HamingCode", sorted(OURS), "HammingCode")):
        if wanted not in explain.near(name, known):
            yield f"{name}: {explain.near(name, known)}"


def faults():
    for kind in ("refused", "unfit", "cut", "altered", "noise"):
        for script in scripts(kind, 60):
            text, status, _ = ended(["run", "budget=0"], script)
            if status != 1:
                continue
            fault = explain.fault_of(text)
            lines = explain.explanation([sys.argv[1]], script, fault)
            if len(lines) < 4 and fault.number not in (42, 43):
                yield f"{script}: fault {fault.number}: {lines}"


ROWS = {"kind": "search", "by": "scan", "distance": 2, "rows": [[1, 1]], "word": [1, 1]}
# a claim, and what the sentence has in it
CLAIMS = [
    ({"kind": "sum", "left": ROWS}, "its keys are `kind`, `left`, `right`; here are `kind`, `left`"),
    ({"kind": "extend", "of": {"kind": "span"}}, '`kind` of `claim.of` is one of search, alternant, uuv'),
    ({"kind": "subcode", "of": ROWS, "rows": [[1, 2]]}, "`rows` of `claim` is a list of lists of whole numbers below 2; here is [[1, 2]]"),
    (ROWS | {"distance": 0}, "of the search `claim`, `distance` is a whole number of at least 1"),
    (ROWS | {"version": 1}, "its keys are `by`, `distance`, `kind`, `rows`, `word`; here are"),
    ({"kind": "sum", "left": ROWS, "right": {"kind": "puncture", "of": ROWS, "places": [2]}}, "claim 2, counted from 0 in the order of the tree, is the `puncture` at `claim.right`. Its refusal is 13"),
    ({"kind": "extend", "of": ROWS | {"distance": 1}}, "the `search` at `claim.of`. Its refusal is 34: the weight of the word"),
    ({"kind": "puncture", "of": ROWS, "places": list(range(256))}, "`places` of `claim` has 256 entries"),
    ({"kind": "sum", "left": ROWS, "right": ROWS}, "the word is no codeword: it has another length"),
]


def trees():
    for claim, wanted in CLAIMS:
        text = json.dumps({"version": 2, "field": 2, "claim": claim, "word": [1, 1], "distance": 2})
        said = explain_certificate.lines(text.encode(), compare_certificates.expected(text)[0].encode())
        if wanted not in " ".join(said):
            yield f"{claim}: {said}"


def certificates():
    lines = list(compare_certificates.certificates())
    trees = list(random_trees.lines(Random(6), 30))
    altered = compare_certificates.some_altered(Random(5), lines, 300)
    altered_trees = compare_certificates.some_altered(Random(7), trees, 300, random_trees.altered)
    for text in [*lines, *altered, *trees, *altered_trees]:
        printed, status = compare_certificates.expected(text)
        said = explain_certificate.lines(text.encode(), printed.encode())
        if len(said) < (2 if status and not printed.startswith("rejected 33") else 1 if status else 0):
            yield f"{text}: {said}"


def main():
    failed = [line for part in (signs, names, nearest, faults, trees, certificates) for line in part()]
    print("\n".join(failed) or "the sentences are there")
    return 1 if failed else 0


if __name__ == "__main__":
    sys.exit(main())
