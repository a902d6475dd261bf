"""tools/from_matrix.py on matrices as other systems print them, and on what it refuses.

    tests/from_matrix.py PROGRAM

Random matrices over each field are written in each form and read back; forms of GAP, Sage and Magma are texts that these print. Over 4, 8,
9 and 16 elements the numbers are those of the table of docs/FROM_GUAVA.md. PROGRAM runs one script. Prints what fails, and ends
with 1 if something does.
"""
import random
import re
import subprocess
import sys
from pathlib import Path

TOP = Path(__file__).resolve().parent.parent
sys.path.insert(0, str(TOP / "tools"))
import from_matrix
import linear_algebra

failed = []
POWERS = {int(q): [int(a) for a in powers.split(", ")] for q, powers in re.findall(r"^\| (4|8|9|16) \| (1, [\d, ]+) \|$", (TOP / "docs/FROM_GUAVA.md").read_text(), re.M)}
CASES = [
    ("1000011\n0100101\n", None, (2, [[1, 0, 0, 0, 0, 1, 1], [0, 1, 0, 0, 1, 0, 1]])),
    (" 1 . 2\n . 1 1\n", 3, (3, [[1, 0, 2], [0, 1, 1]])),
    ("1,0,2\n0,1,1\n", 3, (3, [[1, 0, 2], [0, 1, 1]])),
    ("# a comment\n2 2 3\n1 0 1\n011\n", None, (2, [[1, 0, 1], [0, 1, 1]])),
    ("16 1 3\n10 0 15\n", None, (16, [[10, 0, 15]])),
    ("1 0 1\n0 1 1\n", None, (2, [[1, 0, 1], [0, 1, 1]])),
    ("[[1,0],[0,1]]", None, (2, [[1, 0], [0, 1]])),
    ("[ [ 1, 0, -1 ],\n  [ 0, 1, 1 ] ];\n", 3, (3, [[1, 0, 2], [0, 1, 1]])),
    ("M := [ [ Z(2)^0, 0*Z(2) ], [ 0*Z(2), Z(2)^0 ] ];", None, (2, [[1, 0], [0, 1]])),
    ("[ [ Z(2)^0, Z(2^2), Z(2^2)^2 ],\n  [ 0*Z(2), Z(2)^0, \\\nZ(2^2) ] ]", None, (4, [[1, 2, 3], [0, 1, 2]])),
    ("[ [ Z(3)^0, Z(3), 0*Z(3), Z(3^2)^3 ] ]", None, (9, [[1, 2, 0, 7]])),
    ("[ [ Z(7), Z(7)^5 ] ]", None, (7, [[3, 5]])),
    ("z = Z(4)\n   1   . z^1\n   . z^2   1\n", None, (4, [[1, 0, 2], [0, 3, 1]])),
    ("[    1     0 a + 1]\n[    0     1     a]\n", 4, (4, [[1, 0, 3], [0, 1, 2]])),
    ("[2*z2 + 1 0]\n[z2 + 2 2]\n", 9, (9, [[7, 0], [5, 2]])),
    ("[7, 4, 3] Linear Code over GF(2)\nGenerator matrix:\n[1 0 0 0 0 1 1]\n[0 1 0 0 1 0 1]\n", None, (2, [[1, 0, 0, 0, 0, 1, 1], [0, 1, 0, 0, 1, 0, 1]])),
    ("[3, 2] Linear Code over GF(2^2)\nGenerator matrix:\n[  1   0 w^2]\n[  0   1   w]\n", None, (4, [[1, 0, 3], [0, 1, 2]])),
    ("[1 $.1^3]\n", 8, (8, [[1, 3]])),
    ("% a comment of TeX\n// one of Magma\n101\n011\n", None, (2, [[1, 0, 1], [0, 1, 1]])),
]
REFUSALS = [
    ("101\n01\n", None, (2, 2), "2 entries, the first row has 3"), ("1 0\n0 x\n", None, (2, 3), "over which field"), ("1 2\n", None, (1, 3), "--field"),
    ("1 0\n0 5\n", 3, (2, 3), "no element of GF(3)"), ("1 0\n0 a\n", 5, (2, 3), "numbers alone"), ("a b\n", 4, (1, 3), "two names"), ("", None, (1, 1), "no rows"),
    ("[[1,0],[0,1]", None, (1, 1), "not closed"), ("[[1,[0]]]", None, (1, 5), "too deep"), ("[ [ Z(5), 0 ] ]", 4, (1, 5), "no element of GF(4)"), ("[[1,2],[a?,1]]", 4, (1, 9), "no element"),
    ("[ [ Z(5^2) ] ]", None, (1, 1), "over 25"), ("1" * 256, None, (1, 1), "1 to 255"), ("[[Z(4)]]", 8, (1, 3), "no element of GF(8)"),
]


def cases():
    for text, q, wanted in CASES:
        try:
            found = from_matrix.matrix(text, q)[:2]
        except from_matrix.Refused as refused:
            found = f"{refused.line}:{refused.column}: {refused.text}"
        if found != wanted:
            failed.append(f"{text!r}: {found}")


def refusals():
    for text, q, place, wanted in REFUSALS:
        try:
            failed.append(f"{text!r}: {from_matrix.matrix(text, q)}")
        except from_matrix.Refused as refused:
            if (refused.line, refused.column) != place or wanted not in refused.text:
                failed.append(f"{text!r}: {refused.line}:{refused.column}: {refused.text}")


def polynomial(field, a):
    terms = [(c, i) for i, c in enumerate(field.polynomial(a)) if c]
    powers = {0: "1", 1: "a"}
    return " + ".join((str(c) if i == 0 else f"{c}*" * (c > 1) + powers.get(i, f"a^{i}")) for c, i in reversed(terms)) or "0"


def gap(q, a):
    p, s = linear_algebra.FIELDS[q][0], len(linear_algebra.FIELDS[q][1])
    name = f"Z({p}^{s})" if s > 1 else f"Z({p})"
    return f"0*Z({p})" if a == 0 else f"{name}^{POWERS[q].index(a) if s > 1 else next(e for e in range(q) if pow(from_matrix.GENERATORS[q], e, q) == a)}"


def forms(q, rows):
    field = linear_algebra.Field(q)
    yield "\n".join(" ".join(map(str, row)) for row in rows)
    yield str(rows)
    yield f"{q} {len(rows)} {len(rows[0])}\n" + "\n".join(" ".join(map(str, row)) for row in rows)
    yield "[ " + ",\n  ".join("[ " + ", ".join(gap(q, a) for a in row) + " ]" for row in rows) + " ]"
    if field.s > 1:
        yield "\n".join("[" + " ".join(polynomial(field, a).rjust(8) for a in row) + "]" for row in rows)
        yield "\n".join("[" + " ".join("0" if a == 0 else f"w^{POWERS[q].index(a)}" for a in row) + "]" for row in rows)


def written_and_read():
    random.seed(3)
    for q in from_matrix.SIZES:
        for _ in range(5):
            rows = [[random.randrange(q) for _ in range(6)] for _ in range(4)]
            for text in forms(q, rows):
                if from_matrix.matrix(text, q)[:2] != (q, rows):
                    failed.append(f"{text}\n{from_matrix.matrix(text, q)}")


def commands(program):
    tool = [sys.executable, "-B", str(TOP / "tools" / "from_matrix.py")]
    made = subprocess.run([*tool, "--checks", "--ask", "Certificate", "-"], input=b"1010101\n0110011\n0001111\n", capture_output=True)
    text = subprocess.run([program, "run"], input=made.stdout, capture_output=True).stdout
    if made.stderr or not text.startswith(b'{"by":"levels","distance":3,') or text.count(b"\n") != 1:
        failed.append(f"{made} {text}")
    for words, given, status, said in ((["--field", "4", "-"], b"[1 a]\n", 0, b"Conway polynomial of GF(4)"), (["-"], b"1 0\n1\n", 1, b"-:2:1: "), (["no.such"], b"", 4, b"no.such: No such"), ([], b"", 2, b"usage")):
        done = subprocess.run([*tool, *words], input=given, capture_output=True)
        if done.returncode != status or said not in done.stderr:
            failed.append(f"{words}: {done}")


cases()
refusals()
written_and_read()
commands(sys.argv[1])
print("\n".join(failed) or "done")
sys.exit(1 if failed else 0)
