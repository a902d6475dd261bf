"""The plans of tools/plan.py, beside the searches that `codes` does.

    tests/plans.py PROGRAM

Over each field: every record of the real search that stands at the end of a phase has the bound that the plan gives there, the search
ends at the block of the plan or before it, and after its last record nothing is left. A fault, a wrong word and a script without a search
have their line and status. Prints what fails, and ends with 1 if something does.
"""
import random
import re
import subprocess
import sys
import tempfile
from pathlib import Path

TOOL = Path(__file__).resolve().parent.parent / "tools" / "plan.py"
SIZES = (2, 3, 4, 5, 7, 8, 9, 11, 13, 16)
FIXED = ["BinaryGolayCode()", "ExtendedBinaryGolayCode()", "TernaryGolayCode()", "RepetitionCode(9,GF(2))", "WholeSpaceCode(4,GF(3))",
         "BCHCode(63,11,GF(2))", "ReedMullerCode(2,5)", "DualCode(HammingCode(3,GF(4)))", "DirectSumCode(HammingCode(3,GF(2)),HammingCode(3,GF(2)))"]
RECORD = re.compile(r"query (\d+) blocks (\d+) bound (\d+) best (\d+)")


def planned(script, *words):
    return subprocess.run([sys.executable, "-B", TOOL, *words], input=script, capture_output=True, text=True, timeout=100)


def phases(text):
    """For each query the bound at the end of each phase, by its block."""
    found = []
    for line in text.splitlines():
        cells = line.replace(",", "").split()
        if line.startswith("query "):
            found.append({})
        elif len(cells) >= 7 and cells[0].isdigit():
            found[-1][int(cells[3])] = int(cells[5])
    return found


def random_code(size, chance):
    k, n = chance.randint(1, 5), chance.randint(6, 14)
    rows = [[chance.randrange(size) for _ in range(n)] for _ in range(k)]
    rows[0][0] = 1
    return f"GeneratorMatCode({rows},GF({size}))".replace(" ", "")


def differs(code, done):
    """What of a search isn't as planned, or None."""
    planned_bounds = phases(planned(f"MinimumDistance({code});").stdout)[0]
    records = [tuple(map(int, found.groups())) for found in RECORD.finditer(done.stderr)]
    blocks = int(done.stdout.split()[-1])
    last = max(planned_bounds, default=0)
    if blocks > last:
        return f"{blocks} blocks where at most {last} are planned"
    for _, until, bound, best in records:
        if until in planned_bounds and planned_bounds[until] != bound and bound != best:
            return f"bound {bound} at block {until}, planned {planned_bounds[until]}"
    return None


def failures(program):
    chance = random.Random(20261129)
    for code in FIXED + [random_code(size, chance) for size in SIZES for _ in range(3)]:
        done = subprocess.run([program, "run"], input=f"MinimumDistance({code});", capture_output=True, text=True, timeout=100)
        if why := differs(code, done):
            yield f"{code}: {why}"
    yield from on_records(program)
    yield from on_ranges()
    golay = planned("C := BinaryGolayCode();\nDimension(C); Certificate(C); WeightDistribution(C); MinimumDistance( C );")
    titles = [line for line in golay.stdout.splitlines() if line.startswith("query")]
    if titles != ["query 0: Certificate(C)", "query 1: MinimumDistance( C )"]:
        yield f"titles: {golay}"
    if "in a bracket from 3: if no lighter word is found, it needs" not in planned("MinimumDistance(BinaryGolayCode());", "budget=2").stdout:
        yield "a budget that may be too small isn't told"
    for script, words, error, status in [
        ("MinimumDistance(Nothing());", [], "fault 44 at 16\n", 1), ("Weight([1]);", [], "plan.py: no statement of the script searches\n", 0),
        ("", ["rate=0"], "usage: tools/plan.py [budget=N] [weight=W] [rate=N] [records=FILE] [ranges=SECONDS] < SCRIPT\n", 2),
    ]:
        done = planned(script, *words)
        if (done.stdout, done.stderr, done.returncode) != ("", error, status):
            yield f"{script} {words}: {done}"


def on_ranges():
    """The ranges of a search are its blocks, one after the other, within its phases; of a script without a search there is none."""
    script = "Dimension(HammingCode(3,GF(2)));MinimumDistance(BCHCode(63,7,GF(2)));"
    ends = sorted(phases(planned(script).stdout)[0])
    for words, most, longest in (([], ends[-1], 100), (["budget=700"], 700, 100)):
        lines = planned(script, "ranges=2", "rate=204800", *words).stdout.splitlines()
        ranges = [tuple(map(int, re.fullmatch(r"from=(\d+) count=(\d+)", line).groups())) for line in lines]
        starts, stops = [start for start, _ in ranges], [start + count for start, count in ranges]
        crossed = [end for end in ends for start, count in ranges if start < end < start + count]
        if starts != [0] + stops[:-1] or stops[-1] != most or crossed or max(count for _, count in ranges) > longest:
            yield f"ranges {words}: {lines}"
        if bool(planned(script, "ranges=2", *words).stderr) != (most < ends[-1]):
            yield f"whether the budget may be too small is not said: {words}"
    if (found := planned("Weight([1]);", "ranges=1")).stdout:
        yield f"ranges of no search: {found}"


def on_records(program):
    """What is left of a search, by its records."""
    script = "MinimumDistance(BCHCode(63,11,GF(2)));"
    records = subprocess.run([program, "run"], input=script, capture_output=True, text=True, timeout=100).stderr.splitlines()
    with tempfile.TemporaryDirectory() as folder:
        path = Path(folder, "records")
        for count, wanted in ((len(records), "It is done."), (20, "of at most 66,000 are done")):
            path.write_text("\n".join(records[:count]) + "\n")
            if wanted not in planned(script, f"records={path}").stdout:
                yield f"after {count} records: {planned(script, f'records={path}').stdout}"


def main():
    found = list(failures(sys.argv[1]))
    print("\n".join(found))
    sys.exit(1 if found else 0)


if __name__ == "__main__":
    main()
