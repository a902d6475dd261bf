#!/usr/bin/env python3
"""One search done in parts by many jobs, and joined.

    tests/parts.py PROGRAM [JOINS]

The search of a script is cut into 200 random ranges within its phases, and some more that overlap them, begin at a place that no range
ends at, or lie after the answer. Jobs do them in random order, with 1 to 4 workers; a third of the jobs is killed at a random moment
and started again. Their lines, mixed up, some twice, some torn, are joined, and what goes on from there must print the text of one
session, for every field and under budgets that end in a bracket. Of a list from which lines are taken away the first blocks that are
missing are named. Lines and joins are compared with those of tools/parts.py, JOINS (300) of altered lines too. Prints what fails, and ends with 1 if
something does.
"""
import hashlib
import random
import re
import subprocess
import sys
import tempfile
import time
from concurrent.futures import ThreadPoolExecutor
from pathlib import Path

sys.path.insert(0, str(Path(__file__).resolve().parent.parent / "tools"))
import parts  # noqa: E402
import plan  # noqa: E402

LANES = 4
LONG = b"MinimumDistance(BCHCode(63,11,GF(2)));\n"  # 66,000 blocks
SMALL = [b"MinimumDistance(BCHCode(31,5,GF(2)));", b"C := ExtendedBinaryGolayCode(); Dimension(C); MinimumDistance(C);", b"Certificate(QRCode(13,GF(3)));",
         b"MinimumDistance(QRCode(11,GF(5)));", b"MinimumDistance(BCHCode(15,4,GF(4)));", b"MinimumDistance(WholeSpaceCode(3,GF(16)));",
         b"MinimumDistance(RepetitionCode(9,GF(7)));", b"MinimumDistance(DirectSumCode(HammingCode(3,GF(2)),HammingCode(3,GF(2))));"]


def run(program, *words, given=b"", folder=None):
    done = subprocess.run([program, *words], input=given, capture_output=True, cwd=folder, timeout=600)
    return done.returncode, done.stdout, done.stderr.decode()


def ends_of(script):
    """The block at which each phase of the first search of a script ends."""
    code = next(code for code, _ in plan.searches(script))
    return [end for end, _, _ in parts.Search(code).ends()]


def ranges_of(ends, most, pieces, chance):
    """Ranges within the phases that tile the blocks up to `most`, some `pieces` of them."""
    cuts = set(end for end in ends if end <= most) | {most} | {chance.randrange(1, most) for _ in range(pieces) if most > 1}
    rising = sorted(cuts)
    return [(start, end - start) for start, end in zip([0, *rising], rising)]


def strays(ends, most, chance, count):
    """Ranges of the plan that overlap others, or lie after them."""
    for _ in range(count):
        start = chance.randrange(min(ends[-1], 2 * most))
        yield start, chance.randint(1, min(ends[-1] - start, 50))


def job(program, script, start, count, chance_seed):
    """The line of a range, of a job that may be killed and started again."""
    chance = random.Random(chance_seed)
    words = ["part", f"from={start}", f"count={count}", f"workers={chance.randint(1, 4)}"]
    if chance.random() < 1 / 3:
        process = subprocess.Popen([program, *words], stdin=subprocess.PIPE, stdout=subprocess.PIPE, stderr=subprocess.DEVNULL)
        try:
            process.communicate(script, timeout=chance.uniform(0, 0.02))
        except subprocess.TimeoutExpired:
            process.kill()
            process.communicate()
    return run(program, *words, given=script)


def joined_text(program, script, lines, *words):
    """The status of the join, and what the session that goes on from it prints."""
    status, slot, error = run(program, "join", *words, given=lines)
    if status != 0:
        return status, error
    with tempfile.TemporaryDirectory() as folder:
        Path(folder, "codes.slot0").write_bytes(slot)
        return status, run(program, "resume", *words, given=script, folder=folder)


def shared(program, script, budget, pieces, seed):
    """What fails of one search that is done in parts."""
    chance, words = random.Random(seed), [f"budget={budget}"] if budget else []
    status, text, records = run(program, "run", *words, given=script)
    ends = ends_of(script)
    most = int(re.findall(r"query 0 blocks (\d+)", records)[-1]) if records else 1
    tiles = ranges_of(ends, most, pieces, chance)
    asked = tiles + list(strays(ends, most, chance, pieces // 5 + 1))
    chance.shuffle(asked)
    with ThreadPoolExecutor(LANES) as lanes:
        done = list(lanes.map(lambda pair: job(program, script, *pair[1], seed + pair[0]), enumerate(asked)))
    if any(found[0] != 0 or found[2] for found in done):
        yield f"{script} {words}: a part ends with {next(found for found in done if found[0] != 0 or found[2])}"
        return
    lines = [found[1] for found in done]
    mixed = lines + chance.sample(lines, len(lines) // 4 + 1) + [line[: chance.randrange(len(line))] + b"\n" for line in chance.sample(lines, len(lines) // 4 + 1)]
    mixed.append(b"\n")
    chance.shuffle(mixed)
    found = joined_text(program, script, b"".join(mixed), *words)
    if found[0] != 0 or found[1][:2] != (status, text):
        yield f"{script} {words}: joined {found}, not {(status, text)}"
    wanted = parts.joined([line.decode() for line in b"".join(mixed).splitlines()], budget or 1 << 20)
    if run(program, "join", *words, given=b"".join(mixed)) != (wanted[0], wanted[1].encode(), wanted[2]):
        yield f"{script} {words}: the join isn't {wanted}"
    if most > 1 and len(tiles) > 1:
        gap = chance.choice(tiles)
        rest = [line for (start, _), line in zip(asked, lines) if start + 1 != gap[0] + 1]
        wanted = parts.joined([line.decode().rstrip("\n") for line in rest], budget or 1 << 20)
        got = run(program, "join", *words, given=b"".join(rest))
        if got != (wanted[0], wanted[1].encode(), wanted[2] + "\n" if wanted[2] else ""):
            yield f"{script} {words}: without {gap} the join says {got}, not {wanted}"


def as_written(program):
    """Lines beside those of tools/parts.py."""
    chance = random.Random(20261129)
    for script in SMALL:
        last = ends_of(script)[-1]
        for _ in range(8):
            start = chance.randrange(min(last, 40))
            count = chance.randint(1, min(last - start, 6))
            wanted = parts.line_of(script, start, count)
            got = run(program, "part", f"from={start}", f"count={count}", given=script)
            if got != (0, f"{wanted}\n".encode(), ""):
                yield f"{script} from={start} count={count}: {got}, not {wanted}"


def altered(program, joins):
    """So many joins of altered lines beside those of tools/parts.py."""
    chance = random.Random(20261130)
    script = SMALL[0]
    tiles = [parts.line_of(script, start, count) for start, count in ((0, 1), (1, 1), (2, 1), (3, 2), (3, 1), (4, 1))]
    for _ in range(joins):
        lines = chance.choices(tiles, k=chance.randint(1, 8))
        for _ in range(chance.randint(0, 2)):
            at = chance.randrange(len(lines))
            lines[at] = changed(lines[at], chance)
        try:
            wanted = parts.joined(lines, 1 << 20)
        except parts.Doubtful:
            continue
        got = run(program, "join", given="".join(line + "\n" for line in lines).encode())
        if got != (wanted[0], wanted[1].encode(), wanted[2] + "\n" if wanted[2] else ""):
            yield f"{lines}: the join says {got}, not {wanted}"


def changed(line, chance):
    body, kind = line[65:], chance.randrange(4)
    if kind == 0:
        at = chance.randrange(len(line))
        return line[:at] + chance.choice('0123456789{}[],":x') + line[at + 1:]
    if kind == 1:
        key = chance.choice(["count", "divisor", "first", "from", "k", "place", "q", "version", "weight"])
        body = re.sub(f'"{key}":\\d+', f'"{key}":{chance.choice([0, 1, 2, 3, 4, 5, 255, 256, 2**40, 2**40 + 1, 2**52 - 1, 2**52, 2**64])}', body)
    elif kind == 2:
        body = body.replace(chance.choice(['"k"', '"q"', ',"place"']), chance.choice(['"kk"', '"k"', '']))
    else:
        body = body.replace("[21]", chance.choice(["[]", "[21,10]", "[20]", "[21,22]", "[21.0]", "21"]))
    return f"{hashlib.sha256(body.encode()).hexdigest()} {body}"


def refusals(program):
    """Words that are refused, scripts without a search, ranges that aren't there, and joins without a line."""
    script = SMALL[0]
    last = ends_of(script)[-1]
    for words in (["part"], ["part", "from=0"], ["part", "count=1"], ["part", "from=0", "count=0"], ["part", "from=00", "count=1"],
                  ["part", "from=0", "count=1", "budget=1"], ["part", "count=1", "from=0"], ["part", "from=0", "count=1", "workers=257"], ["join", "from=1"], ["join", "budget=x"]):
        if (got := run(program, *words, given=script))[:2] != (2, b""):
            yield f"{words}: {got}"
    for given, words in ((script, [f"from={last}", "count=1"]), (script, [f"from={last - 1}", "count=2"]), (b"Dimension(HammingCode(3,GF(2)));", ["from=0", "count=1"]),
                         (b"Nothing(); " + script, ["from=0", "count=1"]), (b"", ["from=0", "count=1"])):
        if (got := run(program, "part", *words, given=given))[:2] != (15, b""):
            yield f"{given} {words}: {got}"
    for given in (b"", b"\n", script):
        wanted = parts.joined(given.decode().splitlines(), 1 << 20)
        if (got := run(program, "join", given=given)) != (wanted[0], wanted[1].encode(), f"{wanted[2]}\n"):
            yield f"join of {given}: {got}"


def main():
    program, joins = str(Path(sys.argv[1]).resolve()), int(sys.argv[2]) if len(sys.argv) > 2 else 300
    began, found = time.monotonic(), []
    found += as_written(program)
    found += altered(program, joins)
    found += refusals(program)
    found += shared(program, LONG, None, 200, 1)
    for seed, script in enumerate(SMALL, 2):
        found += shared(program, script, None, 12, 1000 * seed)
    for budget in (1, 2, 4, 1500):
        found += shared(program, LONG, budget, 30, 100000 * budget)
    print("\n".join(found))
    print(f"{joins} altered joins, {len(found)} failures, {time.monotonic() - began:.0f} s", file=sys.stderr)
    sys.exit(1 if found else 0)


if __name__ == "__main__":
    main()
