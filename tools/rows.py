#!/usr/bin/env python3
"""Writes the rows of tests/rows as files, so that programs can be run on them.

    tools/rows.py FOLDER TO

FOLDER has documents NAME.md. A heading `### some row` begins the row `some_row`; its blocks follow. The block `codes` is the
script: its lines, joined by newlines, with none after the last; the arguments of the command line come after the word `codes`,
and without any it is `run`. The block `text` is what the program writes to standard output, and `status N` after that word is
its status, if it isn't 0. The block `error` is what it writes to standard error, if that isn't nothing. They become the files
NAME.codes, NAME.out, NAME.arguments, NAME.status and NAME.err of TO. All other files of FOLDER, which are rows of other bytes,
are copied.
"""
import re
import shutil
import sys
from pathlib import Path

FENCE = re.compile(r"```(codes|text|error)( .*)?")


def blocks_of(lines):
    """Each block of a document: the row that it belongs to, its kind, what comes after the kind, and its lines."""
    row, inside = None, None
    for line in lines:
        if inside is not None:
            if line == "```":
                yield inside
                inside = None
            else:
                inside[3].append(line)
        elif line.startswith("### "):
            row = line[4:].replace(" ", "_")
        elif found := FENCE.fullmatch(line):
            inside = (row, found[1], (found[2] or "").split(), [])


def write_block(to, row, kind, after, lines):
    text = "".join(line + "\n" for line in lines)
    if kind == "codes":
        (to / f"{row}.codes").write_text("\n".join(lines))
        if after:
            (to / f"{row}.arguments").write_text("".join(argument + "\n" for argument in after))
    elif kind == "text":
        (to / f"{row}.out").write_text(text)
        if after:
            (to / f"{row}.status").write_text(after[1] + "\n")
    else:
        (to / f"{row}.err").write_text(text)


def main():
    if len(sys.argv) < 3 or sys.argv[1] in ("-h", "--help"):
        sys.exit(__doc__.strip())
    folder, to = Path(sys.argv[1]), Path(sys.argv[2])
    to.mkdir(parents=True, exist_ok=True)
    for file in sorted(folder.iterdir()):
        if file.suffix != ".md":
            shutil.copy(file, to / file.name)
            continue
        for row, kind, after, lines in blocks_of(file.read_text().split("\n")):
            if row is None or (kind == "codes" and (to / f"{row}.codes").exists()):
                sys.exit(f"{file}: the row {row} has no name or is there twice")
            write_block(to, row, kind, after, lines)


if __name__ == "__main__":
    main()
