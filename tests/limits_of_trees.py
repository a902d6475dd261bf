"""Certificates by construction at the limits: 32 claims deep and 33, 1,024 claims and 1,025, and as deep as JSON may be.

    tests/limits_of_trees.py COMMAND..

COMMAND reads a certificate from standard input, as `codes check` does. Prints what it says otherwise than it must, and ends with 1
if there is something.
"""
import json
import subprocess
import sys

WHOLE = {"kind": "alternant", "locator": 2, "multipliers": [1], "points": [0], "r": 0}


def nested(depth):
    claim = WHOLE
    for _ in range(depth - 1):
        claim = {"kind": "puncture", "of": claim, "places": []}
    return claim


def products(leaves):
    """2 leaves - 1 claims; the code is that of all words of length 1."""
    return WHOLE if leaves == 1 else {"kind": "product", "left": products(leaves // 2), "right": products(leaves - leaves // 2)}


CASES = [
    ("32 claims deep", nested(32), "accepted distance 1"), ("33 claims deep", nested(33), "rejected 32"),
    ("125 claims deep", nested(125), "rejected 32"), ("126 claims deep, which is too deep for JSON", nested(126), "rejected 30"),
    ("1,023 claims", products(512), "accepted distance 1"), ("1,024 claims", {"kind": "shorten", "of": products(512), "places": []}, "accepted distance 1"),
    ("1,025 claims", products(513), "rejected 32"),
]


def main():
    failed = 0
    for name, claim, wanted in CASES:
        text = json.dumps({"claim": claim, "distance": 1, "field": 2, "version": 2, "word": [1]}, separators=(",", ":"))
        said = subprocess.run(sys.argv[1:], input=text.encode(), capture_output=True, check=False).stdout.decode().strip()
        if said != wanted:
            failed = 1
            print(f"{name}: {said}, wanted {wanted}")
    return failed


if __name__ == "__main__":
    sys.exit(main())
