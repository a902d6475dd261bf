#!/usr/bin/env python3
"""Prints what the searches of a script have before them, without searching.

    tools/plan.py [budget=N] [weight=W] [rate=N] [records=FILE] < SCRIPT
    tools/plan.py ranges=SECONDS [budget=N] [weight=W] [rate=N] < SCRIPT

For each search there is a table of its phases: level, information set, blocks, the block at which the phase ends, words, the bound
that this end gives, and how long it is until then. The search ends at the latest at the end of the last phase shown, where the bound
meets the weight of the lightest word of level 1, of a row of a set's generator matrix. Lighter words may be found, and then it ends
sooner. No search goes beyond 2^40 blocks.

budget=N     the blocks of each search, as `codes run` takes it; a search that may end in a bracket is told so
weight=W     each code has a word of weight W, so a search ends where the bound is above W at the latest
rate=N       words a second, of all workers together; without it, what one worker did on the machine of bench/README.md
records=FILE the record lines of a session, its standard error: how far it is
ranges=SECONDS   prints no tables, but the blocks of the script's first search cut into ranges of about so long, within its phases, in
             their order: a line `from=A count=N` each, the words after `codes part`. If the budget may be too small, a line on standard
             error says so

The script is read by tools/reference.py; weight distributions are not counted. The status is 0, or 1 if the script has a fault, whose
line goes to standard error after the plans of the searches before it. No proof rests on this program.
"""
import re
import sys
from collections import namedtuple
from math import comb

import filters
import plot
import reference
import search
from reference import Fault, Refused

NANOSECONDS = {2: 0.5, 3: 2.6, 4: 1.8, 5: 1.5, 7: 1.3, 8: 1.0, 9: 1.2, 11: 1.4, 13: 1.4, 16: 1.0}
RECORD = re.compile(r"query (\d+) blocks (\d+) bound (\d+) best (\d+)")
UNITS = (("years", 365.25 * 86400), ("days", 86400), ("hours", 3600), ("minutes", 60))
HEADS = ("level", "set", "blocks", "until", "words", "bound", "time")

Phase = namedtuple("Phase", "level set blocks until words bound")
Record = namedtuple("Record", "blocks bound best")


class Asked(Exception):
    """A query that searches asks for this code."""

    def __init__(self, code):
        super().__init__()
        self.code = code


class Asking:
    """Stands where the reference program has the session that searches."""

    def answer(self, code):
        raise Asked(code)


def refusal_of_distribution(code):
    """What WeightDistribution is refused for; nothing is counted."""
    q, n, k = code.size, code.length, len(code.rows)
    if q**k > reference.MOST_COUNTED and (q ** (n - k) > reference.MOST_COUNTED or q**n > reference.MOST_VECTORS):
        raise Refused(47, k, n - k)


QUERIES = reference.QUERIES | {"WeightDistribution": ([("code",)], lambda _, code: refusal_of_distribution(code))}
if "NearestWord" in reference.QUERIES:
    QUERIES["NearestWord"] = ([("code", "numbers")], lambda _, code, word: reference.need_word(code, word))


def searches(script):
    """The code and the text of each statement that searches, in turn. Raises a fault at its place in the script."""
    titles = [title for _, _, title in plot.statements(script.decode("utf-8", "replace"))]
    names, asking = {}, Asking()
    for statement, title in zip(reference.read_script(script), titles):
        if reference.is_query(statement):
            try:
                reference.call_value(statement.expr, QUERIES, names, asking)
            except Asked as asked:
                yield asked.code, title
        elif statement.target is None:
            reference.value_of(statement.expr, names)
        else:
            names[statement.target] = reference.value_of(statement.expr, names)


def weight_of(word):
    return sum(1 for symbol in word if symbol)


class Plan:
    """The phases of one search up to the end at which it ends at the latest. A word of weight `known` is in the code, if it isn't None,
    and one of weight `found` was found already."""

    def __init__(self, code, known=None, found=None):
        field = reference.arithmetic(code.size)
        self.code, self.k, self.known = code, len(code.rows), known
        self.sets = search.sets_of(field, code.length, [list(row) for row in code.rows])
        self.divisor = search.weights_divisor(field, self.sets)
        first = weight_of(self.sets[0][1][0])
        self.found = min(first, found or first)
        self.phases = list(self.all_phases())

    def bound(self, levels):
        return search.bound(self.divisor, self.k, self.sets, levels, self.found)

    def is_over(self, levels):
        """Whether the bound meets a word that is found. One that is known is found where the bound is above its weight."""
        low = self.bound(levels)
        return low >= self.found or (self.known is not None and low > self.known)

    def all_phases(self):
        q, levels, until = self.code.size, [0] * len(self.sets), 0
        for level in range(1, self.k + 1):
            words = comb(self.k, level) * (q - 1) ** (level - 1)
            for j, (_, systematic) in enumerate(self.sets):
                if self.is_over(levels) or until > search.CUT:
                    return
                blocks = -(-words // search.BLOCK)
                until += blocks
                levels[j] = level
                if level == 1:
                    self.found = min(self.found, *map(weight_of, systematic))
                yield Phase(level, j, blocks, until, words, self.bound(levels))


def duration(seconds):
    for unit, size in UNITS:
        if seconds >= 2 * size:
            return f"{seconds / size:,.0f} {unit}" if seconds >= 20 * size else f"{seconds / size:.1f} {unit}"
    return f"{seconds:.0f} s" if seconds >= 10 else f"{seconds:.1f} s" if seconds >= 0.1 else f"{1000 * seconds:.0f} ms"


def rate_of(code, given):
    """Words a second. A word costs more for each 64 columns beside an information set."""
    if given:
        return given
    parts = max(1, -(-(code.length - len(code.rows)) // 64))
    return 1e9 / (NANOSECONDS[code.size] * parts)


def table(rows):
    wide = [max(len(row[i]) for row in rows) for i in range(len(HEADS))]
    return ["  " + "  ".join(cell.rjust(width) for cell, width in zip(row, wide)) for row in rows]


def rows_of(phases, rate):
    rows, words = [HEADS], 0
    for phase in phases:
        words += phase.words
        numbers = (phase.level, phase.set, phase.blocks, phase.until, phase.words, phase.bound)
        rows.append((*(f"{number:,}" for number in numbers), duration(words / rate)))
    return rows


def ending(plan, most):
    """What is said below the table: where the search ends."""
    if not plan.phases:
        return f"It ends at once: the first row has the weight {plan.found}, and so has no word less."
    last = plan.phases[-1]
    if last.until > most:
        low = next((phase.bound for phase in reversed(plan.phases) if phase.until <= most), plan.bound([0] * len(plan.sets)))
        needs = f"{last.until:,} blocks" if last.until <= search.CUT else "more than 2^40"
        return f"Within {most:,} blocks it may end in a bracket from {low}: if no lighter word is found, it needs {needs}."
    return f"It ends at block {last.until:,} at the latest: the bound is {last.bound} there."


def progress(plan, record, rate):
    """How far a search is by its last record, and what it still has before it."""
    said = f"Its last record: {record.blocks:,} blocks, bound {record.bound}, lightest word of weight {record.best}."
    if not plan.phases or record.bound >= record.best:
        return said + " It is done."
    end = plan.phases[-1].until
    left = max(0, end - record.blocks) * search.BLOCK
    return f"{said} {100 * record.blocks / end:.1f} % of at most {end:,} are done, {duration(left / rate)} left."


def lines_of(number, code, title, settings, record):
    plan = Plan(code, settings.get("weight"), record.best if record else None)
    rate = rate_of(code, settings.get("rate"))
    fresh = ", ".join(str(columns) for columns, _ in plan.sets)
    multiple = f"; all weights are multiples of {plan.divisor}" if plan.divisor > 1 else ""
    many = "1 information set" if len(plan.sets) == 1 else f"{len(plan.sets)} information sets"
    return [
        f"query {number}: {title}",
        f"  [{code.length},{plan.k}] over {code.size} elements; {many}, fresh columns {fresh}{multiple}; {rate:,.0f} words a second",
        *(table(rows_of(plan.phases, rate)) if plan.phases else []),
        "  " + ending(plan, min(settings.get("budget", reference.BUDGET), search.CUT)),
        *(["  " + progress(plan, record, rate)] if record else []),
    ]


def ranges_of(phases, most, longest):
    """The first block and the number of blocks of each range: within a phase, at most `longest` blocks, none after the first `most`."""
    for phase in phases:
        start, end = phase.until - phase.blocks, min(phase.until, most)
        while start < end:
            count = min(longest, end - start)
            yield start, count
            start += count


def range_lines(code, settings):
    plan = Plan(code, settings.get("weight"))
    longest = max(1, int(settings["ranges"] * rate_of(code, settings.get("rate"))) // search.BLOCK)
    most = min(settings.get("budget", reference.BUDGET), search.CUT)
    if plan.phases and plan.phases[-1].until > most:
        advice = "" if most == search.CUT else " Give this program, join and resume a larger budget."
        print(f"plan.py: {ending(plan, most)}{advice}", file=sys.stderr)
    return [f"from={start} count={count}" for start, count in ranges_of(plan.phases, most, longest)]


def read_records(path):
    """The last record of each query."""
    last = {}
    with open(path, encoding="utf-8", errors="replace") as lines:
        for line in lines:
            if found := RECORD.fullmatch(line.strip()):
                number, *rest = map(int, found.groups())
                last[number] = Record(*rest)
    return last


def settings_of(words):
    settings, records = {}, {}
    for word in words:
        key, _, value = word.partition("=")
        if key == "records" and value:
            records = read_records(value)
        elif key in ("budget", "weight", "rate", "ranges") and value.isdecimal() and (key == "budget" or int(value) > 0):
            settings[key] = int(value)
        else:
            return None
    return settings, records


def main():
    if sys.argv[1:] in (["-h"], ["--help"]):
        print(__doc__.strip())
        return 0
    read = settings_of(sys.argv[1:])
    if read is None:
        print("usage: tools/plan.py [budget=N] [weight=W] [rate=N] [records=FILE] [ranges=SECONDS] < SCRIPT", file=sys.stderr)
        return 2
    settings, records = read
    number = 0
    try:
        for code, title in searches(filters.read_input()):
            if "ranges" in settings:
                for line in range_lines(code, settings):
                    print(line)
                return 0
            if number:
                print()
            print("\n".join(lines_of(number, code, title, settings, records.get(number))))
            number += 1
    except Fault as fault:
        print(fault.line(), file=sys.stderr)
        return 1
    if number == 0:
        print("plan.py: no statement of the script searches", file=sys.stderr)
    return 0


if __name__ == "__main__":
    filters.end(main)
