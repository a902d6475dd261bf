#!/usr/bin/env python3
"""Runs scripts that are made at random through the program and through the reference program, and compares.

    tools/compare.py PROGRAM KIND COUNT [PASSED]

PROGRAM is the path of `codes`; KIND is one of those of tools/random_scripts.py. The first PASSED scripts are made and passed over,
so that several of these programs can share a long list. The texts, the statuses and the records on standard error must be the
same. Prints each script on which they differ, and ends with 1 where there is one.
"""
import subprocess
import sys
from concurrent.futures import ThreadPoolExecutor
from itertools import islice

from random_scripts import scripts
from reference import ended

LANES = 4


def run(program, script):
    done = subprocess.run([program, "run"], input=script, capture_output=True, timeout=60)
    return done.stdout, done.returncode, done.stderr


def main():
    if len(sys.argv) < 4 or sys.argv[1] in ("-h", "--help"):
        sys.exit(__doc__.strip())
    program, kind, count = sys.argv[1], sys.argv[2], int(sys.argv[3])
    passed = int(sys.argv[4]) if len(sys.argv) > 4 else 0
    made = list(islice(scripts(kind, passed + count), passed, None))
    differ = 0
    with ThreadPoolExecutor(LANES) as lanes:
        for script, (text, status, error) in zip(made, lanes.map(lambda script: run(program, script), made)):
            wanted = ended(["run"], script)
            if (text, status, error) != wanted:
                differ += 1
                print(f"{script}\n  program    {status} {text} {error}\n  reference  {wanted[1]} {wanted[0]} {wanted[2]}")
    print(f"{kind}: {count} scripts, {differ} differ")
    sys.exit(1 if differ else 0)


if __name__ == "__main__":
    main()
