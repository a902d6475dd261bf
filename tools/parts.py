#!/usr/bin/env python3
"""Parts of a search and what they join to, read from docs/FORMATS.md in the plainest way.

    tools/parts.py part from=A count=N < SCRIPT
    tools/parts.py join [budget=N] < LINES

Stands beside the product and shares nothing with it: `codes part` prints the same line, and `codes join` the same checkpoint, or refuses
the same lines. `part` lists each word of the blocks up to the last one asked for, so it is for small searches. The status is that of
`codes`.
"""
import hashlib
import json
import re
import sys
from itertools import islice
from math import comb

import filters
import plan
import reference
import search
from checkpoints import Doubtful, is_digest, once, sealed, whole
from linear_algebra import Field

DONE, USAGE, MISSING, NO_RANGE, DISAGREE = 0, 2, 14, 15, 16
KEYS = {"count", "divisor", "first", "from", "k", "place", "q", "ranks", "script", "version", "weight"}
FACTS = ("script", "k", "q", "ranks", "divisor", "first")
SIZES = (2, 3, 4, 5, 7, 8, 9, 11, 13, 16)


class Search:
    """The search of a code: what its plan and its bound are made of."""

    def __init__(self, code):
        self.n, self.q, self.k = code.length, code.size, len(code.rows)
        self.field = Field(self.q)
        self.sets = search.sets_of(self.field, self.n, [list(row) for row in code.rows])
        self.divisor = search.weights_divisor(self.field, self.sets)
        self.first = sum(1 for a in self.sets[0][1][0] if a)

    def ends(self):
        """The block at which each phase ends, and the level and the set of the phase."""
        return ends_of(self.k, self.q, len(self.sets))

    def least(self, start, count):
        """The least pair of weight and place of the word at place 0 and of the blocks."""
        best, begin = (self.first, 0), 0
        for end, level, j in self.ends():
            low, high = max(begin, start), min(end, start + count)
            if low < high:
                words, weigh, _ = search.weighed(self.field, self.n, self.sets[j][1], level)
                listed = islice(enumerate(words, begin * search.BLOCK), (low - begin) * search.BLOCK, (high - begin) * search.BLOCK)
                best = min([best, *((weigh(word), place) for place, word in listed)])
            begin = end
        return best


def ends_of(k, q, count):
    found, end = [], 0
    for level in range(1, k + 1):
        for j in range(count):
            end += -(-comb(k, level) * (q - 1) ** (level - 1) // search.BLOCK)
            found.append((end, level, j))
    return found


def line_of(script, start, count):
    """The line of a range of the first search of a script, without its newline; None if there is no such range."""
    try:
        code = next((code for code, _ in plan.searches(script)), None)
    except reference.Fault:
        return None
    if code is None:
        return None
    known = Search(code)
    if count < 1 or start + count > known.ends()[-1][0]:
        return None
    weight, place = known.least(start, count)
    body = {"count": count, "divisor": known.divisor, "first": known.first, "from": start, "k": known.k, "place": place, "q": known.q,
            "ranks": [fresh for fresh, _ in known.sets], "script": hashlib.sha256(script).hexdigest(), "version": 1, "weight": weight}
    text = json.dumps(body, separators=(",", ":"), sort_keys=True)
    return f"{hashlib.sha256(text.encode()).hexdigest()} {text}"


def read(line):
    """What a line says, or None. Readers of JSON differ on a key that comes twice: that is Doubtful."""
    if line[64:65] != " " or hashlib.sha256(line[65:].encode()).hexdigest() != line[:64]:
        return None
    try:
        said = json.loads(line[65:], object_pairs_hook=once)
    except ValueError:
        return None
    if type(said) is not dict or set(said) != KEYS or said["version"] != 1 or not is_digest(said["script"]):
        return None
    fine = whole(said["from"], 2**40) and whole(said["count"], 2**40, 1) and said["from"] + said["count"] <= 2**40
    fine = fine and all(whole(said[key], 255, 1) for key in ("weight", "first", "divisor", "k")) and whole(said["place"], 2**52 - 1)
    fine = fine and said["q"] in SIZES and type(said["ranks"]) is list and all(whole(rank, said["k"]) for rank in said["ranks"])
    return said if fine and said["ranks"][:1] == [said["k"]] else None


def bound(said, blocks, weight):
    levels = search.levels_below(said["q"], said["k"], len(said["ranks"]), blocks)
    return search.bound(said["divisor"], said["k"], [(rank, None) for rank in said["ranks"]], levels, weight)


def joined(lines, budget):
    """The status, the checkpoint, and what is said to standard error."""
    parts = [(number, said) for number, said in enumerate(map(read, lines), 1) if said is not None]
    if not parts:
        return NO_RANGE, "", "codes: no such part"
    facts, ranges = parts[0][1], {}
    for number, said in parts:
        other, found = ranges.setdefault((said["from"], said["count"]), (number, said))
        if any(said[key] != facts[key] for key in FACTS):
            other = parts[0][0]
        elif (found["weight"], found["place"]) == (said["weight"], said["place"]):
            continue
        return DISAGREE, "", f"codes: lines {other} and {number} disagree"
    ends = [0] + [end for end, _, _ in ends_of(facts["k"], facts["q"], len(facts["ranks"]))]
    most = min(budget, search.CUT)
    blocks, best = 0, (facts["first"], 0)
    done = [(said["from"], said["from"] + said["count"], (said["weight"], said["place"])) for _, said in parts]
    while not (blocks >= most or (blocks in ends and bound(facts, blocks, best[0]) >= best[0])):
        wanted = min([end for end in ends if end > blocks] + [most])
        found = next((part for part in done if part[0] <= blocks < part[1] <= wanted), None)
        if found is None:
            later = min([part[0] for part in done if blocks < part[0]] + [wanted])
            return MISSING, "", f"codes: blocks {blocks} to {min(later, wanted) - 1} are missing"
        blocks, best = found[1], min(best, found[2])
    body = {"blocks": blocks, "budget": budget, "done": [], "place": best[1], "script": facts["script"], "turn": 0, "version": 2, "weight": best[0]}
    return DONE, sealed(json.dumps(body, separators=(",", ":"), sort_keys=True).encode()).decode(), ""


def settings_of(words, keys):
    found = dict(re.fullmatch(r"(\w+)=(\d+)", word).groups() for word in words if re.fullmatch(r"\w+=\d+", word))
    return {key: int(value) for key, value in found.items()} if len(found) == len(words) and set(found) <= keys else None


def main():
    command, words = sys.argv[1:2], sys.argv[2:]
    if command == ["part"] and (asked := settings_of(words, {"from", "count"})) and len(asked) == 2:
        line = line_of(filters.read_input(), asked["from"], asked["count"])
        print(line) if line else print("codes: no such part", file=sys.stderr)
        return DONE if line else NO_RANGE
    if command == ["join"] and (asked := settings_of(words, {"budget"})) is not None:
        try:
            status, text, error = joined(filters.read_input().decode().splitlines(), asked.get("budget", reference.BUDGET))
        except Doubtful:
            status, text, error = NO_RANGE, "", "codes: a line has a key twice"
        sys.stdout.write(text)
        print(error, file=sys.stderr, end="\n" if error else "")
        return status
    print(__doc__.strip(), file=sys.stderr)
    return USAGE


if __name__ == "__main__":
    filters.end(main)
