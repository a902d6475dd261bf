#!/usr/bin/env python3
"""Gives certificates to `codes check` and to tools/check_certificate.py, and compares what they say.

    tools/compare_certificates.py PROGRAM COUNT
    tools/compare_certificates.py PROGRAM --trees COUNT
    tools/compare_certificates.py --stored FOLDER

PROGRAM is the path of `codes`. The certificates are those of some forty small codes, as tools/reference.py writes them, and
COUNT altered ones: a key or a part of one changed, left out, repeated or added, some bytes, or a number replaced by what
readers of JSON take differently, such as `-0`. Both must print the same line
and end with the same status. Prints each certificate on which they differ, and ends with 1 if there is one. The second form does
the same with certificates by construction, of trees that are made at random (tools/random_trees.py); if PROGRAM is `-`, the codes and
refusals of tools/reference.py stand in for the program. The third form gives the certificates among the cases of a folder to
check_certificate.py alone, and compares with the stored texts.
"""
import copy
import json
import re
import subprocess
import sys
from concurrent.futures import ThreadPoolExecutor
from pathlib import Path
from random import Random

import check_certificate
import random_trees
import reference
from reference import FieldValue as GF

LANES = 4


def codes():
    yield from (reference.hamming_code(r, GF(q)) for r, q in ((2, 2), (3, 2), (4, 2), (2, 3), (2, 4), (2, 5)))
    yield from (reference.repetition_code(n, GF(q)) for n, q in ((1, 2), (5, 3), (9, 16), (7, 13)))
    yield from (reference.whole_space_code(n, GF(q)) for n, q in ((1, 2), (3, 4), (2, 11)))
    yield from (reference.reed_muller_code(r, m) for r, m in ((0, 3), (1, 3), (1, 4), (2, 4)))
    yield from (reference.reed_solomon_code(n, d) for n, d in ((4, 3), (6, 5), (7, 4), (8, 7), (10, 9), (12, 10)))
    yield from (reference.bch_code(n, d, GF(q)) for n, d, q in ((7, 3, 2), (15, 5, 2), (15, 7, 2), (8, 3, 3), (13, 4, 3), (5, 3, 4)))
    yield reference.binary_golay_code()
    yield reference.extended_code(reference.binary_golay_code())
    yield reference.ternary_golay_code()
    yield reference.extended_code(reference.ternary_golay_code())
    yield reference.goppa_code([1, 1, 1], list(range(8)), GF(8), GF(2))
    yield reference.uuv_code(reference.repetition_code(4, GF(3)), reference.whole_space_code(4, GF(3)))
    yield reference.direct_sum_code(reference.repetition_code(2, GF(2)), reference.repetition_code(3, GF(2)))
    yield reference.direct_product_code(reference.hamming_code(2, GF(2)), reference.repetition_code(3, GF(2)))


def certificates():
    for code in codes():
        yield reference.certificate_line(reference.Session(), code, "levels")
        if code.size ** len(code.rows) <= 20000:
            yield reference.certificate_line(reference.Session(), code, "scan")


def any_value(random):
    return random.choice((0, 1, 2, 3, 255, 256, 2**32, 2**64 - 1, 2**64, -1, 1.5, True, None, "", "scan", "levels", [], {}, [0], [[0]], [[]]))


def altered_list(random, row):
    row = list(row)
    way, at = random.randrange(5), random.randrange(len(row) + 1)
    if way == 0 or not row:
        row.insert(at, random.randrange(4))
    elif way == 1:
        del row[at % len(row)]
    elif way == 2:
        row[at % len(row)] = any_value(random)
    elif way == 3:
        row[at % len(row)] = random.randrange(20)
    else:
        row.reverse()
    return row


def altered_parts(random, parts):
    parts = copy.deepcopy(parts)
    key = random.choice(sorted(parts))
    way = random.randrange(8)
    if way == 0:
        parts[key] = any_value(random)
    elif way == 1:
        del parts[key]
    elif way == 2:
        parts[random.choice(("note", "level", ""))] = any_value(random)
    elif key == "by":
        parts[key] = random.choice(("scan", "levels", "Scan", 1))
    elif check_certificate.is_number(parts[key]):
        parts[key] = max(0, parts[key] + random.choice((-2, -1, 1, 2)))
    elif check_certificate.is_numbers(parts[key]):
        parts[key] = altered_list(random, parts[key])
    elif isinstance(parts[key], list):
        at = random.randrange(len(parts[key]))
        parts[key][at] = altered_item(random, parts[key][at])
    return parts


def altered_item(random, item):
    """A row or a set."""
    if isinstance(item, list) and check_certificate.is_numbers(item):
        return altered_list(random, item)
    return altered_parts(random, item) if isinstance(item, dict) and item else any_value(random)


def altered_text(random, text):
    text = list(text)
    for _ in range(1 + random.randrange(2)):
        at = random.randrange(len(text))
        if random.random() < 0.5:
            text[at] = random.choice('0123456789[]{},:" \n.eE-')
        else:
            del text[at]
    return "".join(text)


# what readers of JSON take differently: `-0`, numbers too large for a float, deep nesting, surrogates without their pair
ODD = ["-0", "-0.0", "0e0", "1.0", "1e400", "-1e400", "9" * 310, "1" + "0" * 400, '"\\ud800"', '"\\ud800\\udc00"', '"\\udc00\\ud800"',
       '"\\\\ud800"', '["\\"[", "]"]', "[" * 200 + "]" * 200]


def odd_text(random, line):
    """A number replaced, or a key put before the others, which may come twice then."""
    odd = random.choice([*ODD, *(("[" * n + "]" * n) for n in (124, 125, 126, 127, 128))])
    if random.random() < 0.4:
        return f'{{"{random.choice(("note", "distance", "word"))}":{odd},{line[1:]}'
    number = random.choice(list(re.finditer(r"\d+", line)))
    return line[: number.start()] + odd + line[number.end() :]


def altered(random, line):
    if random.random() < 0.15:
        return altered_text(random, line)
    if random.random() < 0.1:
        return odd_text(random, line)
    parts = json.loads(line)
    for _ in range(1 if random.random() < 0.7 else 2):
        parts = altered_parts(random, parts) if parts else parts
    return json.dumps(parts, separators=(",", ":") if random.random() < 0.8 else None)


def is_cheap(text):
    """Whether few words have to be looked at, or so many that none is."""
    try:
        certificate = check_certificate.read_either(text)
    except check_certificate.Rejected:
        return True
    cost = check_certificate.cost_of(certificate)
    return cost < 5000 or cost > check_certificate.MOST_WORDS and not isinstance(certificate, check_certificate.Tree)


def some_altered(random, lines, count, alter=altered):
    while count:
        text = alter(random, random.choice(lines))
        if is_cheap(text):
            yield text
            count -= 1


def expected(text, versions=(1, 2)):
    """What a checker that reads these versions says."""
    try:
        if 2 not in versions and isinstance(check_certificate.parsed(text), dict):
            check_certificate.read(text)  # refuses another version
        return f"accepted distance {check_certificate.check(text)}\n", 0
    except check_certificate.Rejected as reason:
        return f"{reason}\n", 11


def run(program, text):
    if program == "-":
        return random_trees.stand_in(text)
    done = subprocess.run([program, "check"], input=text.encode(), capture_output=True, timeout=100)
    return done.stdout.decode(), done.returncode


def versions_of(program):
    """Which versions the program reads: an older one refuses version 2."""
    return (1, 2) if run(program, '{"version":2}')[0] != "rejected 31 with 2\n" else (1,)


def compare_stored(folder):
    cases = [file.with_suffix("") for file in sorted(folder.glob("*.arguments")) if file.read_text() == "check\n"]
    differ = [case.name for case in cases if expected(case.with_suffix(".codes").read_text())[0] != case.with_suffix(".out").read_text()]
    print(f"{len(cases)} stored certificates, {len(differ)} differ {' '.join(differ)}")
    sys.exit(1 if differ or not cases else 0)


def compare(program, texts, versions):
    """Prints each text on which the program and the second checker differ, and how many there are of each reason; how many differ."""
    differ, said = 0, {}
    with ThreadPoolExecutor(LANES) as lanes:
        for text, got in zip(texts, lanes.map(lambda text: run(program, text), texts)):
            wanted = expected(text, versions)
            front = wanted[0].split(" with")[0].split(" distance")[0].strip()
            said[front] = said.get(front, 0) + 1
            if got != wanted:
                differ += 1
                print(f"{text[:1000]}\n  program    {got}\n  checker    {wanted}")
    print(", ".join(f"{n} {front}" for front, n in sorted(said.items())))
    print(f"{len(texts)} certificates, {differ} differ")
    return differ


def altered_tree(random, line):
    return random_trees.altered(random, line) if random.random() < 0.8 else altered(random, line)


def compare_trees(program, count):
    versions = versions_of(program)
    if 2 not in versions:
        print(f"{program} reads no certificates by construction")
        return 1
    random = Random(2)
    lines = list(random_trees.lines(random, max(20, count // 10)))
    return compare(program, lines + list(some_altered(random, lines, count, altered_tree)), versions)


def main():
    if len(sys.argv) < 3 or sys.argv[1] in ("-h", "--help"):
        sys.exit(__doc__.strip())
    if sys.argv[1] == "--stored":
        compare_stored(Path(sys.argv[2]))
    program = sys.argv[1]
    if sys.argv[2] == "--trees":
        sys.exit(1 if compare_trees(program, int(sys.argv[3])) else 0)
    random = Random(1)
    lines = list(certificates())
    texts = lines + list(some_altered(random, lines, int(sys.argv[2])))
    sys.exit(1 if compare(program, texts, versions_of(program)) else 0)


if __name__ == "__main__":
    main()
