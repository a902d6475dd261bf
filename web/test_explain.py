#!/usr/bin/env python3
"""Writes scripts and certificates made at random into a folder, each with what tools/explain.py says of it, for web/test_explain.mjs.

    web/test_explain.py PROGRAM FOLDER
"""
import json
import sys
from pathlib import Path
from random import Random

TOP = Path(__file__).resolve().parent.parent
sys.path[:0] = [str(TOP / "tools"), str(TOP / "tests")]

import compare_certificates  # noqa: E402
import explain  # noqa: E402
import explain_certificate  # noqa: E402
import explanations  # noqa: E402
import random_trees  # noqa: E402
from random_scripts import scripts  # noqa: E402
from reference import ended  # noqa: E402


def some_scripts():
    yield from (script for _, script, _ in explanations.SIGNS)
    yield from (script for script, _, _ in explanations.TOKENS)
    yield from (bytes([byte]) + b" " for byte in range(256))
    yield from (f"{name}(1);".encode() for name in explain.foreign_names.table())
    for kind in ("refused", "unfit", "cut", "altered", "noise"):
        yield from scripts(kind, 100)


def some_certificates():
    lines = list(compare_certificates.certificates())
    trees = list(random_trees.lines(Random(6), 30))
    yield from lines + trees
    yield from compare_certificates.some_altered(Random(15), lines, 300)
    yield from compare_certificates.some_altered(Random(17), trees, 300, random_trees.altered)
    for claim, _ in explanations.CLAIMS:
        yield json.dumps({"version": 2, "field": 2, "claim": claim, "word": [1, 1], "distance": 2})


def main():
    program, folder = sys.argv[1], Path(sys.argv[2])
    folder.mkdir(parents=True, exist_ok=True)
    is_certificate = explain_certificate.is_certificate
    for number, script in enumerate(it for it in some_scripts() if not is_certificate(it)):
        text, status, _ = ended(["run", "budget=0"], script)
        lines = explain.explanation([program], script, explain.fault_of(text)) if status == 1 else [explain.EMPTY] if not script.strip() else []
        (folder / f"{number:04}.codes").write_bytes(script)
        (folder / f"{number:04}.err").write_text("".join(line + "\n" for line in lines), encoding="utf-8")
    for number, text in enumerate(it for it in some_certificates() if is_certificate(it.encode())):
        printed, _ = compare_certificates.expected(text)
        (folder / f"{number:04}.json").write_text(text, encoding="utf-8")
        (folder / f"{number:04}.json.err").write_text("".join(line + "\n" for line in explain_certificate.lines(text.encode(), printed.encode())), encoding="utf-8")


if __name__ == "__main__":
    main()
