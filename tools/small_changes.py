#!/usr/bin/env python3
"""Small changes of a line, made by chance, as bugs to plant.

    tools/small_changes.py FOLDER SEED MOST CRATE..     writes FOLDER/CRATE.bugs: of each function of the crate at most MOST changes

Each change is of one line of a body: another comparison, sign or connective, a number one more or one less, a condition turned round, two
arguments exchanged, index 0, the end of a range, a statement left out. The same seed and sources give the same changes. Some don't compile,
and some change nothing that is computed. tools/planted_bugs.py --bugs FOLDER plants them.
"""
import glob
import os
import random
import re
import sys

TOP = os.path.dirname(os.path.dirname(os.path.abspath(__file__)))
FUNCTION = re.compile(r"(\s*)(?:pub(?:\([^)]*\))? )?(?:const |unsafe )*fn (\w+)")
NUMBER = r"(?<![\w.\"'])(\d[\d_]*)(?![\w.\"'])"
ARGUMENT = r"(&?(?:mut )?[\w.]+)"
# a pattern, and what stands in its place
EXCHANGES = [
    (r" < (?!=)", " <= "), (r" <= ", " < "), (r" > (?!=)", " >= "), (r" >= ", " > "), (r" == ", " != "), (r" != ", " == "),
    (r" && ", " || "), (r" \|\| ", " && "), (r" \+ ", " - "), (r" - ", " + "), (r" \* ", " + "), (r" / ", " % "), (r" % ", " / "),
    (r" \^ ", " | "), (r" \| ", " ^ "), (r" & ", " | "), (r" << ", " >> "), (r" >> ", " << "), (r" \+= ", " -= "), (r" -= ", " += "),
    (r" \^= ", " |= "), (r"\btrue\b", "false"), (r"\bfalse\b", "true"), (r"\.\.=", ".."), (r"(?<=\w)\.\.(?=\w)", "..="),
    (r"\bif !", "if "), (r"\.min\(", ".max("), (r"\.max\(", ".min("), (r"\.first\(\)", ".last()"), (r"\.last\(\)", ".first()"),
    (r"\.rev\(\)", ""), (r"\[(\w+)\]", "[0]"), (r"\bSome\([^()]*\)$", "None"),
    (rf"\({ARGUMENT}, {ARGUMENT}([,)])", r"(\2, \1\3"), (rf", {ARGUMENT}, {ARGUMENT}([,)])", r", \2, \1\3"),
    (NUMBER, lambda found: str(int(found[1].replace("_", "")) + 1)),
    (NUMBER, lambda found: str(max(int(found[1].replace("_", "")) - 1, 0))),
]  # fmt: skip
STATEMENT = re.compile(r"\s*(?:[\w.&*:<>]+\(.*\)\??|[\w.\[\]*]+ [-+*^|&]?= .*);$")
CONDITION = re.compile(r"\bif (?!let|!)(?=[\w.:()&, ]+ \{$)")


def bodies(lines):
    """The name, the first line and the line after the last of each body, by the layout of `rt fmt`; with its type's name before it."""
    found, owner, at = [], "", 0
    while at < len(lines):
        if lines[at].startswith("impl"):
            owner = re.sub(r"<[^{]*?>", "", lines[at].split("{")[0][4:]).split(" for ")[-1].strip() + "::"
        if lines[at].startswith("}"):
            owner = ""
        head = FUNCTION.match(lines[at])
        if head:
            close = head[1] + "}"
            # (clauses are indented; a body opens at the end of the signature, or on a line of its own below the clauses)
            opened = next((i for i in range(at, len(lines)) if re.match(rf"{head[1]}\S", lines[i]) and lines[i].endswith(("{", ";", "}"))), at)
            if lines[opened].endswith("{") and close in lines[opened:]:
                end = lines.index(close, opened)
                found.append((owner + head[2], opened + 1, end))
                at = end
        at += 1
    return found


def changed(line):
    """What may stand in the line's place; None for nothing."""
    text = line.strip()
    if not text or text.startswith(("//", "prove!", "#[")):
        return []
    found = [line[: it.start()] + (it.expand(new) if isinstance(new, str) else new(it)) + line[it.end() :] for old, new in EXCHANGES for it in re.finditer(old, line)]
    found += [CONDITION.sub("if !", line)] if CONDITION.search(line) else []
    found += [None] if STATEMENT.match(line) else []
    return [new for new in found if new != line]


def told_apart(lines, at, first, end):
    """The lines around line `at` of a body that stand once in the file, as a range; None if there is an empty one among them."""
    low, high = at, at + 1
    while sum(lines[i : i + high - low] == lines[low:high] for i in range(len(lines))) > 1:
        if low > first:
            low -= 1
        elif high < end:
            high += 1
        else:
            return None
    return (low, high) if all(lines[low:high]) else None


def changes(crate, seed, most):
    """The paragraphs of a crate."""
    chance = random.Random(f"{crate} {seed}")
    for path in sorted(glob.glob(f"{TOP}/crates/{crate}/src/**/*.rt", recursive=True)):
        with open(path, encoding="utf-8") as opened:
            lines = opened.read().split("\n")
        file = os.path.relpath(path, f"{TOP}/crates/{crate}")
        for name, first, end in bodies(lines):
            choices = [(at, new) for at in range(first, end) for new in changed(lines[at])]
            chance.shuffle(choices)
            made = [(told_apart(lines, at, first, end), at, new) for at, new in choices]
            for (low, high), at, new in [choice for choice in made if choice[0]][:most]:
                there = lines[low:at] + ([] if new is None else [new]) + lines[at + 1 : high]
                yield "\n".join([f"@@ {file} {name}", *("-" + line for line in lines[low:high]), *("+" + line for line in there)])


def main(folder, seed, most, *crates):
    os.makedirs(folder, exist_ok=True)
    for crate in crates:
        found = list(changes(crate, seed, int(most)))
        with open(f"{folder}/{crate}.bugs", "w", encoding="utf-8") as opened:
            opened.write("\n\n".join(found) + "\n")
        print(f"{crate}: {len(found)}")


if __name__ == "__main__":
    if len(sys.argv) < 5:
        sys.exit(__doc__)
    main(*sys.argv[1:])
