#!/usr/bin/env python3
"""Draws the weight distributions that a script prints: a bar for each weight that a word of the code has.

    tools/plot.py weights [--log] [--enumerator] [--svg FILE] [--columns N] PROGRAM SCRIPT [ARGUMENT..]

PROGRAM is the path of `codes`, SCRIPT a file, and the arguments are those of `codes run`, as `workers=4`. Each statement
`WeightDistribution(..)` gives a picture, under the statement as it stands in the script: the weight, how many words have it,
and a bar. The longest bar is for the largest number; with --log a bar is as long as the number has digits, so that small numbers
are seen beside large ones. --enumerator prints the weight enumerator of the code too, as x^7+7x^4y^3+7x^3y^4+y^7, in which the
power of y is the weight. --svg writes the pictures to a file too. If the text ends with a fault, or a search with another status,
what was printed before is drawn, the line of the fault goes to standard error, and the status is that of `codes`.
"""
import argparse
import html
import json
import math
import os
import shutil
import subprocess
import sys
from dataclasses import dataclass
from pathlib import Path

import filters
import script_tree

QUERY = "WeightDistribution"
EIGHTHS = " ▏▎▍▌▋▊▉"
FILL = "#3b6ea5"
ROW, BAR, LABEL, MARGIN = 16, 480, 150, 12


@dataclass
class Picture:
    """The distribution that a statement printed."""
    title: str
    counts: list

    def rows(self):
        return [(weight, count) for weight, count in enumerate(self.counts) if count]


def statements(script):
    """For each statement: whether it prints a line, whether that is a distribution, and its text without the semicolon."""
    found, start = [], None
    tokens = script_tree.scan(script)
    words = []
    for word, first, end in tokens:
        if word == ";":
            if words:
                text = " ".join(script[start:last].split())
                found.append((":=" not in words[1:2], words[0] == QUERY, text))
            start, words = None, []
            continue
        if start is None:
            start = first
        words.append(word)
        last = end
    return found


def pictures(script, text):
    """The distributions of the text of a script. Each statement that assigns nothing has a line of the text, until one has a fault."""
    lines = iter(text.splitlines())
    found = []
    for prints, is_query, title in statements(script):
        line = next(lines, None) if prints else ""
        if line is None or line.startswith("fault "):
            break
        if prints and is_query:
            found.append(Picture(title, json.loads(line)))
    return found


def power(letter, exponent):
    return "" if exponent == 0 else letter if exponent == 1 else f"{letter}^{exponent}"


def enumerator(counts):
    """The homogeneous polynomial whose coefficient at the w-th power of y is the number of words of weight w."""
    n = len(counts) - 1
    terms = []
    for weight, count in enumerate(counts):
        if count:
            term = power("x", n - weight) + power("y", weight)
            terms.append(term if count == 1 and term else f"{count}{term}")
    return "+".join(terms)


def shares(rows, logarithmic):
    """How long each bar is, the longest being 1."""
    sizes = [1 + math.log10(count) if logarithmic else count for _, count in rows]
    most = max(sizes)
    return [size / most for size in sizes]


def bar(share, columns, plain):
    """A bar of at least a thin stroke."""
    eighths = max(1, round(share * columns * 8))
    if plain:
        return "#" * max(1, round(share * columns))
    return "█" * (eighths // 8) + EIGHTHS[eighths % 8].strip()


def as_text(picture, logarithmic, columns, plain):
    rows = picture.rows()
    wide = max(len(str(weight)) for weight, _ in rows)
    long = max(len(str(count)) for _, count in rows)
    room = max(8, columns - wide - long - 6)
    lines = [picture.title]
    for (weight, count), share in zip(rows, shares(rows, logarithmic)):
        lines.append(f"  {weight:>{wide}}  {count:>{long}}  {bar(share, room, plain)}")
    return lines


def as_svg(found, logarithmic):
    parts, top = [], MARGIN
    for picture in found:
        rows = picture.rows()
        parts.append(f'<text x="{MARGIN}" y="{top + 12}" font-weight="bold">{html.escape(picture.title)}</text>')
        top += ROW + 6
        for (weight, count), share in zip(rows, shares(rows, logarithmic)):
            long = max(1, round(share * BAR))
            said = f"{count} word{'s' if count != 1 else ''} of weight {weight}"
            parts.append(f'<text x="{MARGIN + 28}" y="{top + 12}" text-anchor="end">{weight}</text>')
            parts.append(f'<text x="{MARGIN + LABEL - 8}" y="{top + 12}" text-anchor="end">{count}</text>')
            parts.append(f'<rect x="{MARGIN + LABEL}" y="{top + 2}" width="{long}" height="{ROW - 4}" fill="{FILL}"><title>{said}</title></rect>')
            top += ROW
        top += ROW
    width = 2 * MARGIN + LABEL + BAR
    head = f'<svg xmlns="http://www.w3.org/2000/svg" width="{width}" height="{top}" viewBox="0 0 {width} {top}" font-family="sans-serif" font-size="12">'
    return "\n".join([head, f'<rect width="{width}" height="{top}" fill="white"/>', *parts, "</svg>"]) + "\n"


def is_plain(stream):
    """Whether the stream can't show blocks."""
    try:
        "█▏".encode(stream.encoding or "ascii")
    except UnicodeEncodeError:
        return True
    return False


def draw(options):
    script = Path(options.script).read_bytes()
    program = shutil.which(options.program) or os.path.abspath(options.program)
    with open(options.script, "rb") as given:  # (not through a pipe: a program that is refused its arguments reads none of it)
        done = subprocess.run([program, "run", *options.arguments], stdin=given, capture_output=True)
    text = done.stdout.decode("ascii")
    found = pictures(script.decode("utf-8", "replace"), text)
    for number, picture in enumerate(found):
        if number:
            print()
        print("\n".join(as_text(picture, options.log, options.columns, is_plain(sys.stdout))))
        if options.enumerator:
            print(f"  {enumerator(picture.counts)}")
    if options.svg:
        Path(options.svg).write_text(as_svg(found, options.log), encoding="utf-8")
    if done.returncode:
        last = text.splitlines()[-1:] if done.returncode == 1 else done.stderr.decode("utf-8", "replace").splitlines()[-1:]
        print("\n".join(last), file=sys.stderr)
    elif not found:
        print(f"plot.py: no statement of the script is a {QUERY}", file=sys.stderr)
        return 1
    return done.returncode


def main():
    parser = argparse.ArgumentParser(prog="tools/plot.py", description=__doc__, formatter_class=argparse.RawDescriptionHelpFormatter)
    parser.add_argument("what", choices=["weights"], help="what to draw")
    parser.add_argument("--log", action="store_true", help="bars as long as the numbers have digits")
    parser.add_argument("--enumerator", action="store_true", help="print the weight enumerator too")
    parser.add_argument("--svg", metavar="FILE", help="write the pictures to this file too")
    parser.add_argument("--columns", type=int, default=max(40, min(100, shutil.get_terminal_size().columns)), metavar="N", help="how wide a line may be")
    parser.add_argument("program", metavar="PROGRAM")
    parser.add_argument("script", metavar="SCRIPT")
    parser.add_argument("arguments", metavar="ARGUMENT", nargs="*")
    return draw(parser.parse_args())


if __name__ == "__main__":
    filters.end(main)
