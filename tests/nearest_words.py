#!/usr/bin/env python3
"""Nearest words under budgets, against the reference program.

    tests/nearest_words.py PROGRAM

One word and a code of dimension 36, under each budget from 0 to 50 blocks; words of some codes over every field under budgets from 0
to 12; all words of length 7, whose distance is that of the word that `Decode` gives. Each with 1 and with 4 workers. Prints what fails,
and ends with 1 if something does.
"""
import subprocess
import sys
from itertools import product
from pathlib import Path

sys.path.insert(0, str(Path(__file__).resolve().parent.parent / "tools"))
from random_scripts import scripts  # noqa: E402
from reference import ended  # noqa: E402

FAR = """C := BCHCode(63,11,GF(2));
NearestWord(C,[1,1,0,1,0,0,1,0,0,0,1,1,1,0,1,0,1,0,0,1,1,0,0,0,1,0,1,1,1,1,0,0,1,0,0,1,0,0,0,1,1,0,1,0,1,1,0,1,1,1,0,0,0,1,0,1,0,0,1,1,1,0,1]);
"""


def run(program, arguments, script):
    done = subprocess.run([program, "run", *arguments], input=script, capture_output=True, timeout=60)
    return done.stdout, done.returncode


def differ(program, script, budget):
    """Whether the program prints anything else than the reference program under this budget, with 1 or 4 workers."""
    wanted = ended(["run", f"budget={budget}"], script)[:2]
    for workers in (1, 4):
        if run(program, [f"budget={budget}", f"workers={workers}"], script) != wanted:
            print(f"{script}\n  budget {budget}, workers {workers}: not {wanted}")
            return True
    return False


def decoded_otherwise(program):
    """The words of length 7 whose nearest word is farther or nearer than the one that `Decode` gives."""
    words = [",".join(map(str, word)) for word in product((0, 1), repeat=7)]
    script = "C := HammingCode(3,GF(2));" + "".join(f"NearestWord(C,[{word}]);Decode(C,[{word}]);" for word in words)
    lines = run(program, [], script.encode())[0].decode().splitlines()
    for word, near, decoded in zip(words, lines[::2], lines[1::2]):
        distance = sum(a != b for a, b in zip(word.split(","), decoded[1:-1].split(",")))
        if f" at {distance} blocks " not in near:
            yield f"{word}: {near}, and Decode gives {decoded}"
    if len(lines) != 256:
        yield f"{len(lines)} lines for all words of length 7"


def main():
    program = sys.argv[1]
    failed = sum(differ(program, FAR.encode(), budget) for budget in range(51))
    failed += sum(differ(program, script, i % 13) for i, script in enumerate(scripts("near", 250)))
    others = list(decoded_otherwise(program))
    print("\n".join(others), end="\n" if others else "")
    sys.exit(1 if failed or others else 0)


if __name__ == "__main__":
    main()
