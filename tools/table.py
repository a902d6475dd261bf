#!/usr/bin/env python3
"""Makes a page of codes, with their distances, words and certificates: a table of one's own.

    tools/table.py [--budget N] [--workers N] [--words N] [--title TEXT] PROGRAM FOLDER ENTRY..

PROGRAM is the path of `codes`. An ENTRY is
  NAME.list     a list: lines `NAME: CALL`, as `golay: BinaryGolayCode()`, or `NAME: FILE`, a file as below; lines that begin with # are left out
  NAME.codes    a script; the code is that of its name C
  any other     a matrix, as tools/from_matrix.py reads it

The page is FOLDER/index.html, and FOLDER/table.txt has the same as text; FOLDER/certificates/NAME.json is the certificate of each code.
Each is checked by `codes check`, and by tools/check_certificate.py, which shares nothing with it, if there are at most N words to look
at (--words, a million by default). If the budget ends a search the table has a bracket. Ends with 1 if a code was refused or a
certificate rejected, and says which.
"""
import argparse
import html
import re
import sys
from dataclasses import dataclass, field
from pathlib import Path

import check_certificate
import filters
import from_matrix

NAME = re.compile(r"[\w.+-]+")
STYLE = """body { font-family: sans-serif; margin: 2em } table { border-collapse: collapse; margin: 1em 0 }
td, th { border: 1px solid #bbb; padding: 0.2em 0.6em; text-align: left; vertical-align: top } td.number { text-align: right }
code { overflow-wrap: anywhere } .both { background: #dff2df } .one { background: #eef6ee } .open { background: #fff6da } .wrong { background: #f8dcdc }"""


@dataclass
class Row:
    """A code of the table. `low` and `high` are None for a code without a nonzero word and for one that was refused."""
    name: str
    call: str
    length: int = 0
    dimension: int = 0
    size: int = 0
    low: object = None
    high: object = None
    word: list = field(default_factory=list)
    cost: object = None
    certificate: str = ""
    checkers: list = field(default_factory=list)
    said: str = ""
    is_wrong: bool = False

    def distance(self):
        if self.low is None:
            return "-"
        return str(self.low) if self.low == self.high else f"{self.low}..{self.high}"

    def parameters(self):
        return f"[{self.length},{self.dimension},{self.distance()}]" if self.length else ""

    def state(self):
        if self.is_wrong:
            return "wrong"
        return ("open", "one", "both")[min(len(self.checkers), 2)]


# ---- entries -------------------------------------------------------------------------------------------------------

def text_of(file):
    try:
        return file.read_text(encoding="utf-8-sig")
    except (OSError, UnicodeDecodeError) as error:
        sys.exit(f"{file}: {getattr(error, 'strerror', None) or 'this is no text in UTF-8'}")


def script_of(file):
    """The script that gives the name C to the code of a file, and how the table calls it."""
    text = text_of(file)
    if file.suffix == ".codes":
        return text, file.name
    try:
        q, rows, _ = from_matrix.matrix(text)
    except from_matrix.Refused as refused:
        sys.exit(f"{file}:{refused.line}:{refused.column}: {refused.text}")
    return from_matrix.script(q, rows, False, "").rsplit("C;\n", 1)[0], file.name


def of_list(file):
    """The names, scripts and calls of the lines of a list."""
    for number, line in enumerate(text_of(file).splitlines(), 1):
        if not line.strip() or line.startswith("#"):
            continue
        name, colon, call = (part.strip() for part in line.partition(":"))
        if not (colon and call and NAME.fullmatch(name)):
            sys.exit(f"{file}:{number}: wanted `NAME: CALL` or `NAME: FILE`")
        yield (name, f"C := {call.rstrip(';')};\n", call) if "(" in call else (name, *script_of(file.parent / call))


def entries(words):
    for word in words:
        file = Path(word)
        if file.suffix == ".list":
            yield from of_list(file)
        elif NAME.fullmatch(file.stem):
            yield file.stem, *script_of(file)
        else:
            sys.exit(f"{file}: the name of a code has letters, digits and the signs _ . + - alone")


# ---- rows ----------------------------------------------------------------------------------------------------------

def answered(given, script):
    done = filters.run([given.program, "run", f"budget={given.budget}", f"workers={given.workers}"], script.encode(), capture_output=True)
    return done.stdout.decode().splitlines(), done.returncode, done.stderr.decode().splitlines()


def row_of(given, name, script, call):
    row = Row(name, call)
    lines, status, said = answered(given, script + "C;\nCertificate(C);\n")
    code = re.fullmatch(r"code \[(\d+),(\d+)\] GF\((\d+)\)", lines[-2]) if status == 0 and len(lines) > 1 else None
    if code is None:
        row.said, row.is_wrong = (lines or said or [f"status {status}"])[-1], True
        return row
    row.length, row.dimension, row.size = map(int, code.groups())
    if lines[-1].startswith("{"):
        proved(given, row, lines[-1])
    elif lines[-1] != "certificate none":
        bracketed(given, row, script)
        row.said = lines[-1]
    return row


def bracketed(given, row, script):
    """A bracket, or a distance without a certificate."""
    found = re.search(r"distance (?:between (\d+) and )?(\d+) word \[([\d,]*)\]", answered(given, script + "MinimumDistance(C);\n")[0][-1])
    row.low, row.high = int(found.group(1) or found.group(2)), int(found.group(2))
    row.word = [int(a) for a in found.group(3).split(",")]


def proved(given, row, line):
    """Takes the distance from a certificate, and has it checked."""
    over, rows, row.word, row.low, sets = check_certificate.read(line)
    row.high, row.certificate = row.low, line
    k = len(check_certificate.systematic(over, rows, range(row.length))[1])
    row.cost = check_certificate.levels_and_cost(k, over.q, sets)[1]
    done = filters.run([given.program, "check"], line.encode(), capture_output=True)
    verdicts = {"codes check": done.stdout.decode().strip()}
    if row.cost <= given.words:
        verdicts["check_certificate.py"] = second_verdict(line)
    for checker, said in verdicts.items():
        if said == f"accepted distance {row.low}":
            row.checkers.append(checker)
        else:
            row.is_wrong, row.said = True, f"{checker}: {said}"


def second_verdict(line):
    try:
        return f"accepted distance {check_certificate.check(line)}"
    except check_certificate.Rejected as reason:
        return str(reason)


# ---- the page ------------------------------------------------------------------------------------------------------

def as_text(rows):
    cells = [["code", "[n,k,d]", "q", "words", "accepted by", "call"]]
    for row in rows:
        cells.append([row.name, row.parameters(), str(row.size or ""), f"{row.cost:,}" if row.cost is not None else "", ", ".join(row.checkers) or row.said, row.call])
    widths = [max(len(line[i]) for line in cells) for i in range(5)]
    return "".join("  ".join(cell.ljust(width) for cell, width in zip(line, widths)) + "  " + line[5] + "\n" for line in cells)


def grid(rows, size):
    """Lengths by dimensions, with the greatest distance of the table; it leads to its row."""
    best = {}
    for row in rows:
        if row.size == size and row.low is not None and row.low > best.get((row.length, row.dimension), Row("", "", low=0)).low:
            best[row.length, row.dimension] = row
    lengths, dimensions = sorted({n for n, _ in best}), sorted({k for _, k in best})
    lines = [f"<h2>Codes over {size} elements</h2>\n<table>\n<tr><th>n \\ k</th>" + "".join(f"<th>{k}</th>" for k in dimensions) + "</tr>"]
    for n in lengths:
        cells = (best.get((n, k)) for k in dimensions)
        lines.append(f"<tr><th>{n}</th>" + "".join(f'<td class="{row.state()}"><a href="#{row.name}">{row.distance()}</a></td>' if row else "<td></td>" for row in cells) + "</tr>")
    return "\n".join(lines) + "\n</table>\n"


def html_row(row):
    word = "".join(map(str, row.word)) if row.size <= 10 else ",".join(map(str, row.word))
    link = f'<a href="certificates/{row.name}.json">{row.parameters()}</a>' if row.certificate else row.parameters()
    cost = f"{row.cost:,}" if row.cost is not None else ""
    accepted = html.escape(", ".join(row.checkers) + (" " if row.checkers and row.said else "") + row.said)
    return (f'<tr id="{row.name}" class="{row.state()}"><td>{row.name}</td><td>{link}</td><td class="number">{row.size or ""}</td>'
            f'<td><code>{html.escape(row.call)}</code></td><td><code>{word}</code></td><td class="number">{cost}</td><td>{accepted}</td></tr>')


def as_html(rows, title):
    head = f"""<!DOCTYPE html>
<html lang="en"><head><meta charset="utf-8"><title>{html.escape(title)}</title><style>{STYLE}</style></head><body>
<h1>{html.escape(title)}</h1>
<p>{len(rows)} codes. Each distance is that of a certificate, one line of JSON that [n,k,d] leads to; <i>words</i> is what a checker has to look at.
Dark green: accepted by <code>codes check</code> and by <code>check_certificate.py</code>, which shares nothing with it; light green: by one; yellow: no certificate;
red: refused. A word of least weight shows the distance.</p>
"""
    grids = "".join(grid(rows, size) for size in sorted({row.size for row in rows if row.low is not None}))
    table = "<h2>All codes</h2>\n<table>\n<tr><th>code</th><th>[n,k,d]</th><th>q</th><th>call</th><th>word</th><th>words</th><th>accepted by</th></tr>\n"
    return head + grids + table + "\n".join(map(html_row, rows)) + "\n</table>\n</body></html>\n"


def write(folder, rows, title):
    (folder / "certificates").mkdir(parents=True, exist_ok=True)
    for row in rows:
        if row.certificate:
            (folder / "certificates" / f"{row.name}.json").write_text(row.certificate + "\n", encoding="utf-8")
    (folder / "index.html").write_text(as_html(rows, title), encoding="utf-8")
    (folder / "table.txt").write_text(as_text(rows), encoding="utf-8")


def arguments():
    parser = argparse.ArgumentParser(description=__doc__.split("\n")[0], epilog="See the head of this file.")
    parser.add_argument("--budget", type=int, default=2**20, metavar="N", help="the blocks of a search at most (2^20)")
    parser.add_argument("--workers", type=int, default=1, metavar="N", help="the threads of a search (1)")
    parser.add_argument("--words", type=int, default=10**6, metavar="N", help="the words at which check_certificate.py looks at most (a million)")
    parser.add_argument("--title", default="A table of codes", metavar="TEXT", help="the title of the page")
    parser.add_argument("program", metavar="PROGRAM", help="the path of codes")
    parser.add_argument("folder", type=Path, metavar="FOLDER", help="where the page is written")
    parser.add_argument("entries", nargs="+", metavar="ENTRY", help="NAME.list, a list of codes; NAME.codes, a script; or a matrix")
    return parser.parse_args()


def main():
    given = arguments()
    listed = list(entries(given.entries))
    names = [name for name, _, _ in listed]
    twice = sorted({name for name in names if names.count(name) > 1})
    if twice:
        sys.exit(f"these names are there twice: {', '.join(twice)}")
    rows = [row_of(given, *entry) for entry in listed]
    write(given.folder, rows, given.title)
    wrong = [row for row in rows if row.is_wrong]
    for row in wrong:
        print(f"{row.name}: {row.said}", file=sys.stderr)
    return 1 if wrong else 0


if __name__ == "__main__":
    filters.end(main)
