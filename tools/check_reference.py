#!/usr/bin/env python3
"""Checks that the reference program gives the stored texts and statuses.

    tools/check_reference.py FOLDER..

Looks at each NAME.codes of the folders, with its NAME.out, NAME.status, NAME.err and NAME.arguments, and leaves out checks of
certificates and sessions that keep checkpoints. Prints the names of those that differ, and ends with 1 where there is one.
"""
import sys
from multiprocessing import Pool
from pathlib import Path

from reference import ended


def beside(script, suffix, otherwise):
    file = script.with_suffix(suffix)
    return file.read_bytes() if file.exists() else otherwise


def is_record(line):
    return line.startswith(b"query ")


def difference(script):
    """What the reference program gives, if it isn't what is stored."""
    words = beside(script, ".arguments", b"run\n").decode().splitlines()
    wanted = beside(script, ".out", b""), int(beside(script, ".status", b"0")), beside(script, ".err", b"")
    found = ended(words, script.read_bytes())
    if found is None:
        return None
    text, status, error = found
    said = b"".join(line for line in error.splitlines(True) if not is_record(line))
    return None if (text, status, said) == wanted else found


def main():
    scripts = [script for folder in sys.argv[1:] for script in sorted(Path(folder).glob("*.codes"))]
    with Pool() as pool:
        differ = [(script, found) for script, found in zip(scripts, pool.imap(difference, scripts)) if found]
    for script, found in differ:
        print(f"{script}: {found}")
    sys.exit(1 if differ else 0)


if __name__ == "__main__":
    main()
