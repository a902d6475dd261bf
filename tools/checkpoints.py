#!/usr/bin/env python3
"""What `resume` says of two slots, read from docs/FORMATS.md in the plainest way.

Stands beside the product and shares nothing with it. `resumed(slots, script, needs, budget)` is the status and the text of
`codes resume` over two slots; the needs are the codes of the script, each statement of which asks for a minimum distance.

    tools/checkpoints.py PROGRAM COUNT [SEED]

takes true checkpoints of a script, changes them in COUNT ways (bytes flipped, dropped, doubled, with a new seal or without;
numbers out of range, keys missing and foreign, records of other states), and compares the program with it. Prints each case
on which they differ, and ends with 1 if there is one.
"""
import hashlib
import json
import os
import random
import shutil
import subprocess
import sys
import tempfile
from concurrent.futures import ThreadPoolExecutor
from math import comb

from linear_algebra import Field
from reference import FieldValue, bch_code, binary_golay_code, extended_code, hamming_code
from search import BLOCK, bound, levels_below, sets_of, weights_divisor, words_of_level

DONE, PAUSED, NO_CHECKPOINT, DAMAGED, OTHER_SCRIPT, UNFIT = 0, 3, 8, 9, 10, 13
LONGEST = 4194304
KEYS = {"blocks", "budget", "done", "place", "script", "turn", "version", "weight"}
LANES = 4


class Doubtful(Exception):
    """A text on which readers of JSON differ: a key that comes twice, or -0."""


def once(pairs):
    if len({key for key, _ in pairs}) < len(pairs):
        raise Doubtful
    return dict(pairs)


def no_constant(name):
    raise ValueError(name)


def whole(value, most, least=0):
    return type(value) is int and least <= value <= most


def is_record(value, budget):
    return type(value) is list and len(value) == 3 and whole(value[0], budget) and whole(value[1], 255, 1) and whole(value[2], 2**52 - 1)


def is_digest(value):
    return type(value) is str and len(value) == 64 and all(c in "0123456789abcdef" for c in value)


def read(held):
    """The checkpoint that some bytes are, or None."""
    if not 65 <= len(held) <= LONGEST or hashlib.sha256(held[65:]).hexdigest().encode() + b"\n" != held[:65]:
        return None
    if b"-0" in held[65:]:
        raise Doubtful
    try:
        state = json.loads(held[65:].decode("utf-8"), object_pairs_hook=once, parse_constant=no_constant)
    except ValueError:
        return None
    if type(state) is not dict or set(state) != KEYS or state["version"] not in (1, 2) or type(state["version"]) is not int:
        return None
    fine = whole(state["budget"], 2**40) and whole(state["turn"], 2**60) and is_digest(state["script"])
    fine = fine and is_record([state["blocks"], state["weight"], state["place"]], state["budget"])
    fine = fine and type(state["done"]) is list and len(state["done"]) <= 131072
    return state if fine and all(is_record(record, state["budget"]) for record in state["done"]) else None


class Need:
    """A code that is searched, with its words by their places."""

    def __init__(self, code, budget):
        self.q, self.n, self.rows, self.budget = code.size, code.length, code.rows, budget
        field = Field(self.q)
        self.sets = sets_of(field, self.n, self.rows)
        self.divisor = weights_divisor(field, self.sets)
        self.ends, self.words, end = [0], {}, 0
        for level in range(1, len(self.rows) + 1):
            for _, systematic in self.sets:
                for place, word in enumerate(words_of_level(field, self.n, systematic, level), end * BLOCK):
                    self.words[place] = word
                end += -(-comb(len(self.rows), level) * (self.q - 1) ** (level - 1) // BLOCK)
                self.ends.append(end)
        self.least = {}  # of each block the least weight and its place
        for place in self.words:
            self.least[place // BLOCK] = min(self.least.get(place // BLOCK, (256, 0)), (self.weight(place), place))

    def weight(self, place):
        return sum(1 for a in self.words[place] if a) if place in self.words else 0

    def fits(self, blocks, weight, place):
        return (place == 0 or place < blocks * BLOCK) and self.weight(place) == weight

    def low(self, blocks, weight):
        levels = levels_below(self.q, len(self.rows), len(self.sets), blocks)
        return bound(self.divisor, len(self.rows), self.sets, levels, weight)

    def is_exact(self, blocks, weight):
        """At the end of a phase, or past the last one, the bound reaches the weight."""
        return (blocks in self.ends or blocks > self.ends[-1]) and weight <= self.low(blocks, weight)

    def is_finished(self, blocks, weight):
        return blocks == self.budget or self.is_exact(blocks, weight)

    def line(self, blocks, weight, place):
        """The line of the search that goes on from this state."""
        while not self.is_finished(blocks, weight):
            if self.least[blocks][0] < weight:
                weight, place = self.least[blocks]
            blocks += 1
        word = "[" + ",".join(map(str, self.words[place])) + "]"
        if self.is_exact(blocks, weight):
            return f"distance {weight} word {word} blocks {blocks}\n"
        raise Doubtful  # a bracket: the budgets here are large


def resumed(slots, script, needs, budget):
    """The status and the text of `codes resume` over these slots."""
    if not any(slots):
        return NO_CHECKPOINT, ""
    states = [state for state in map(read, slots) if state is not None]
    if not states:
        return DAMAGED, ""
    state = max(states, key=lambda state: state["turn"])  # the first of equal turns
    if state["script"] != hashlib.sha256(script).hexdigest() or state["budget"] != budget:
        return OTHER_SCRIPT, ""
    done, current = state["done"], [state["blocks"], state["weight"], state["place"]]
    if state["version"] == 1:
        divisible = [i for i in range(min(len(done) + 1, len(needs))) if needs[i].divisor > 1]
        if divisible:
            done, current = done[: divisible[0]], None
    text = ""
    for i, need in enumerate(needs):
        start = done[i] if i < len(done) else current if i == len(done) and current else [0, need.weight(0), 0]
        settled = i < len(done)
        if not need.fits(*start) or (settled and not need.is_finished(start[0], start[1])):
            return UNFIT, ""
        text += need.line(*start)
    if len(done) + (current is not None) > len(needs):
        return UNFIT, ""
    return DONE, text


# ---- changed checkpoints

SCRIPT = b"MinimumDistance(BCHCode(15,5,GF(2)));MinimumDistance(BinaryGolayCode());MinimumDistance(ExtendedBinaryGolayCode());MinimumDistance(HammingCode(3,GF(3)));"
BUDGET = 1 << 20
NUMBERS = [0, 1, 2, 3, 5, 6, 7, 8, 255, 256, 4096, 2**40, 2**40 + 1, 2**52 - 1, 2**52, 2**60, 2**60 + 1, 2**63, 2**64, -1, 1.5, 2.0, "1", None, [], True]


def sealed(body):
    return hashlib.sha256(body).hexdigest().encode() + b"\n" + body


def text_of(state):
    return sealed(json.dumps(state, separators=(",", ":"), sort_keys=True).encode())


class Sessions:
    """Sessions of the program in a folder of their own."""

    def __init__(self, program):
        self.program, self.folder = program, tempfile.mkdtemp(prefix="codes-")

    def path(self, number):
        return os.path.join(self.folder, f"codes.slot{number}")

    def session(self, *words):
        args = [self.program, *words, f"budget={BUDGET}"]
        done = subprocess.run(args, input=SCRIPT, capture_output=True, cwd=self.folder, timeout=60)
        return done.returncode, done.stdout.decode()

    def held(self):
        return [open(self.path(i), "rb").read() if os.path.exists(self.path(i)) else b"" for i in (0, 1)]

    def over(self, slots):
        for i in (0, 1):
            with open(self.path(i), "wb") as file:
                file.write(slots[i])
        return self.session("resume")

    def true_slots(self):
        """The slots after each round of the script."""
        found, command = [], "run"
        while self.session(command, "keep=yes", "slice=1")[0] == PAUSED:
            found.append(self.held())
            command = "resume"
        return found

    def close(self):
        shutil.rmtree(self.folder, ignore_errors=True)


def changed_record(rng, record):
    record = list(record)
    kind = rng.randrange(4)
    if kind == 0:
        record[rng.randrange(3)] = rng.choice(NUMBERS)
    elif kind == 1:
        i = rng.randrange(3)
        record[i] += rng.choice([-1, 1, 2, 4096])
    elif kind == 2:
        record.append(1)
    else:
        record.pop()
    return record


def changed_state(rng, state):
    state = dict(state, done=[list(record) for record in state["done"]])
    kind = rng.randrange(10)
    key = rng.choice(sorted(KEYS))
    if kind < 3:
        state[key] = rng.choice(NUMBERS)
    elif kind < 5:
        key = rng.choice(["blocks", "place", "weight", "turn", "budget"])
        state[key] += rng.choice([-1, 1, 2, 7, 4096])
    elif kind == 5:
        del state[key]
    elif kind == 6:
        state[rng.choice(["bound", "Blocks", "version ", ""])] = 1
    elif kind == 7:
        state["version"] = rng.choice([0, 1, 1, 1, 3, "2"])
    elif kind == 8:
        state["script"] = rng.choice([state["script"].upper(), state["script"][:-1], "0" * 64, state["script"] + "0"])
    elif state["done"] and rng.random() < 0.6:
        i = rng.randrange(len(state["done"]))
        state["done"][i] = changed_record(rng, state["done"][i])
    elif rng.random() < 0.5:
        state["done"].append([state["blocks"], state["weight"], state["place"]])
    else:
        state["done"] = state["done"][:-1]
    return state


def changed_bytes(rng, held):
    held = bytearray(held)
    for _ in range(rng.randint(1, 3)):
        at = rng.randrange(len(held))
        kind = rng.randrange(4)
        if kind == 0:
            held[at] ^= 1 << rng.randrange(8)
        elif kind == 1:
            del held[at]
        elif kind == 2:
            held.insert(at, held[at])
        else:
            held[at] = rng.choice(b'0123456789{}[],:" .eE-+x')
    return bytes(held)


def changed(rng, held):
    if not held:
        return held
    kind = rng.randrange(4)
    if kind == 0:
        return changed_bytes(rng, held)
    if kind == 1:
        return sealed(changed_bytes(rng, held[65:]))
    return text_of(changed_state(rng, json.loads(held[65:])))


def cases(rng, true_slots, count):
    made = []
    while len(made) < count:
        slots = list(rng.choice(true_slots))
        for i in (0, 1):
            if rng.random() < 0.7:
                slots[i] = changed(rng, slots[i])
        if rng.random() < 0.1:
            slots.reverse()
        made.append(slots)
    return made


def compared(program, needs, part):
    """How many cases were compared, and those on which the program differs."""
    sessions, seen, differ = Sessions(program), 0, []
    for slots in part:
        try:
            wanted = resumed(slots, SCRIPT, needs, BUDGET)
        except Doubtful:
            continue
        seen += 1
        got = sessions.over(slots)
        if got != wanted:
            differ.append(f"{slots}\n  program    {got}\n  reference  {wanted}")
    sessions.close()
    return seen, differ


def main():
    if len(sys.argv) < 3 or sys.argv[1] in ("-h", "--help"):
        sys.exit(__doc__.strip())
    program, count = os.path.abspath(sys.argv[1]), int(sys.argv[2])
    rng = random.Random(int(sys.argv[3]) if len(sys.argv) > 3 else 1)
    codes = [bch_code(15, 5, FieldValue(2)), binary_golay_code(), extended_code(binary_golay_code()), hamming_code(3, FieldValue(3))]
    needs = [Need(code, BUDGET) for code in codes]
    sessions = Sessions(program)
    made = cases(rng, sessions.true_slots(), count)
    sessions.close()
    with ThreadPoolExecutor(LANES) as lanes:
        parts = list(lanes.map(lambda part: compared(program, needs, part), [made[i::LANES] for i in range(LANES)]))
    seen, differ = sum(part[0] for part in parts), [case for part in parts for case in part[1]]
    print("\n".join(differ[:20] + [f"{seen} changed checkpoints, {len(differ)} differ"]))
    sys.exit(1 if differ else 0)


if __name__ == "__main__":
    main()
