#!/usr/bin/env python3
"""Makes a script of a matrix that another program printed.

    tools/from_matrix.py [--field Q] [--checks] [--ask QUERY] FILE      FILE may be - for standard input
    tools/from_matrix.py hamming.txt | ./codes run
    tools/from_matrix.py --ask Certificate hamming.txt | ./codes run > hamming.json

The rows generate the code, or with --checks they are its parity checks; QUERY is MinimumDistance unless another one is named. The script
prints the parameters of the code, and then the answer; if it asks for a certificate it prints nothing else, since a file holds one
certificate alone. Lines that begin with #, % or // are comments. FILE is one of these:

  rows of digits                1000011, or with blanks or commas 1 0 0 0 0 1 1; a dot is 0
  such rows after `q k n`       a line with the size of the field, the number of rows and their length
  a list of rows                [[1,0],[0,1]], as GAP, Python and JSON print it; `M := [..];` too
  what GAP prints               Z(2)^0, 0*Z(2), Z(2^2)^2, and its `Display`, with dots and z = Z(4)
  what Sage and Magma print     rows in brackets without commas, with a, a + 1, a^2, 2*a + 1, w^2, $.1

The size of the field is that of --field, or what the file says (`q k n`, Z(q), GF(q)), or 2 if all entries are 0 and 1. Numbers over
4, 8, 9 and 16 elements are taken as docs/SCRIPT.md has them. A name of a generator stands for a zero of the Conway polynomial, as in
GAP, Sage and Magma unless another modulus was asked for: a line on standard error says so, since a printed matrix doesn't name
its modulus. What can't be read is refused with line and column, and status 1.
"""
import argparse
import re
import sys

import filters
import linear_algebra

SIZES = (2, 3, 4, 5, 7, 8, 9, 11, 13, 16)
LONGEST = 255
CERTIFICATES = ("Certificate", "ScanCertificate")
GENERATORS = {2: 1, 3: 2, 5: 2, 7: 3, 11: 2, 13: 2, 4: 2, 8: 2, 9: 3, 16: 2}  # Z(q) of GAP
ELEMENT_OF_GAP = re.compile(r"(0\*)?Z\(([0-9]{1,3})(?:\^([0-9]))?\)(?:\^(-?[0-9]{1,9}))?$")
TERM = re.compile(r"(?:([0-9]{1,9})\*?)?([A-Za-z$][\w.]*)?(?:\^([0-9]{1,9}))?$")
FIELD = re.compile(r"GF\(([0-9]{1,3})(?:\^([0-9]))?\)|=\s*Z\(([0-9]{1,3})(?:\^([0-9]))?\)")
TOKEN = re.compile(r"[^\s,\[\]|;]+")


class Refused(Exception):
    """What can't be read, with its line and column, counted from 1."""

    def __init__(self, line, column, text):
        super().__init__(text)
        self.line, self.column, self.text = line, column, text


class Entry:
    """An element as it is written, and where."""

    def __init__(self, text, line, column):
        self.text, self.line, self.column = text, line, column

    def refuse(self, text):
        raise Refused(self.line, self.column, text)


# ---- rows ----------------------------------------------------------------------------------------------------------

def joined(entries):
    """A sum with blanks around its signs is one entry: a + 1."""
    found = []
    for entry in entries:
        if found and (entry.text in ("+", "-") or found[-1].text[-1] in "+-"):
            found[-1].text += entry.text
        else:
            found.append(entry)
    return found


def entries_of_line(text, number):
    """The entries of a line, which has one row: symbols without anything between them, or with blanks or commas."""
    tokens = [Entry(m.group(), number, m.start() + 1) for m in TOKEN.finditer(text)]
    if len(tokens) == 1 and re.fullmatch(r"[0-9.]+", tokens[0].text):
        only = tokens[0]
        return [Entry(sign, number, only.column + i) for i, sign in enumerate(only.text)]
    return joined(tokens)


def is_heading(text):
    """A line that is no row: blank, a heading, or one that names the field."""
    bare = text.strip()
    return not bare or bare.startswith(("#", "%", "//")) or bare.endswith(":") or bool(FIELD.search(bare)) or set(bare) <= set("[]();,")


def rows_of_lines(text):
    found = [entries_of_line(line, i) for i, line in enumerate(text.split("\n"), 1) if not is_heading(line)]
    return [row for row in found if row]


def rows_of_list(text, start):
    """The rows of a list of lists that begins at an offset."""
    rows, depth = [], 0
    for sign in re.finditer(r"[\[\]]|[^\[\],]+", text[start:]):
        line = text.count("\n", 0, start + sign.start()) + 1
        column = start + sign.start() - text.rfind("\n", 0, start + sign.start())
        if sign.group() == "[":
            depth += 1
            if depth > 2:
                raise Refused(line, column, "lists are too deep for a matrix")
            if depth == 2:
                rows.append([])
        elif sign.group() == "]":
            depth -= 1
            if depth == 0:
                return rows
        elif sign.group().strip():
            if depth != 2:
                raise Refused(line, column, "wanted a list of lists")
            lead = len(sign.group()) - len(sign.group().lstrip())
            before = sign.group()[:lead]
            place = Entry("".join(sign.group().replace("\\", "").split()), line + before.count("\n"), column + lead if "\n" not in before else lead - before.rfind("\n"))
            rows[-1].append(place)
    raise Refused(text.count("\n") + 1, 1, "the list is not closed")


def rows_of(text):
    start = re.search(r"\[\s*\[", text)
    listed = start and ("," in text[start.start():] or "Z(" in text)
    return rows_of_list(text, start.start()) if listed else rows_of_lines(text)


def without_header(rows):
    """The rows after a line `q k n`, and q; or all rows and None."""
    if not rows or len(rows[0]) != 3 or not all(re.fullmatch("[0-9]{1,9}", entry.text) for entry in rows[0]):
        return rows, None
    q, k, n = (int(entry.text) for entry in rows[0])
    if q in SIZES and len(rows) == k + 1 and all(len(row) == n for row in rows[1:]):
        return rows[1:], q
    return rows, None


# ---- elements ------------------------------------------------------------------------------------------------------

def sizes_in(text, rows):
    """The sizes of fields that the file names."""
    for a, b, c, d in FIELD.findall(text):
        yield int(a or c) ** int(b or d or 1)
    for row in rows:
        for entry in row:
            found = ELEMENT_OF_GAP.match(entry.text)
            if found:
                yield int(found.group(2)) ** int(found.group(3) or 1)


def power(field, a, exponent):
    result = 1
    for _ in range(exponent % (field.q - 1)):
        result = field.products[result][a]
    return result


def element_of_gap(field, entry, found):
    """Z(r)^e, an element of a field of r elements that lies in this one: the power of the generator with e (q - 1)/(r - 1)."""
    size = int(found.group(2)) ** int(found.group(3) or 1)
    if (field.q - 1) % (size - 1) or field.q % size:
        entry.refuse(f"{entry.text} is no element of GF({field.q})")
    if found.group(1):
        return 0
    exponent = int(found.group(4) if found.group(4) is not None else 1)
    return power(field, GENERATORS[field.q], exponent * ((field.q - 1) // (size - 1)))


def term(field, entry, text, named):
    """c, c*a, a^e or c*a^e."""
    found = TERM.match(text)
    if not found or not text:
        entry.refuse(f"`{entry.text}` is no element of GF({field.q})")
    factor, name, exponent = found.groups()
    if name is None:
        if exponent is not None or int(factor) >= field.q:
            entry.refuse(f"{text} is no element of GF({field.q}), whose elements are 0 to {field.q - 1}")
        return int(factor)
    if field.q == field.p:
        entry.refuse(f"`{entry.text}` has a name, and GF({field.q}) has numbers alone: is it another field (--field)?")
    named.add(name)
    if len(named) > 1:
        entry.refuse(f"here are two names of elements, {' and '.join(sorted(named))}")
    multiple = int(factor or 1)
    if multiple >= field.p:
        entry.refuse(f"{multiple} is no number below {field.p}")
    return field.products[multiple][power(field, GENERATORS[field.q], int(exponent if exponent is not None else 1))]


def element(field, entry, named):
    text = entry.text
    if text == ".":
        return 0
    found = ELEMENT_OF_GAP.match(text)
    if found:
        return element_of_gap(field, entry, found)
    if field.q == field.p and re.fullmatch(r"-[0-9]{1,9}", text):
        return int(text) % field.p
    total = 0
    for part in text.split("+"):
        total = field.sums[total][term(field, entry, part, named)]
    return total


# ---- scripts -------------------------------------------------------------------------------------------------------

def field_of(text, rows, q, header):
    """The field: as it is named, or GF(2) if there is nothing but 0 and 1."""
    named = {q} if q else {header} if header else set(sizes_in(text, rows))
    if named:
        size = max(named)
        if size not in SIZES:
            raise Refused(1, 1, f"codes are over {', '.join(map(str, SIZES))} elements, and this is over {size}")
        return linear_algebra.Field(size)
    other = next((entry for row in rows for entry in row if entry.text not in ("0", "1", ".")), None)
    if other:
        other.refuse(f"`{other.text}` is not 0 or 1, and nothing says over which field this is: name it by --field")
    return linear_algebra.Field(2)


def matrix(text, q=None):
    """The field's size, the rows as numbers, and the name of a generator, or None."""
    rows, header = without_header(rows_of(text))
    if not rows:
        raise Refused(1, 1, "here are no rows")
    field, named = field_of(text, rows, q, header), set()
    for row in rows:
        if len(row) != len(rows[0]):
            at = row[-1] if row else rows[0][0]
            raise Refused(at.line, at.column, f"this row has {len(row)} entries, the first row has {len(rows[0])}")
    if not 1 <= len(rows[0]) <= LONGEST:
        raise Refused(1, 1, f"a row has 1 to {LONGEST} entries, and here are {len(rows[0])}")
    return field.q, [[element(field, entry, named) for entry in row] for row in rows], next(iter(named), None)


def script(q, rows, checks, query):
    call = "CheckMatCode" if checks else "GeneratorMatCode"
    lines = ",\n  ".join("[" + ",".join(map(str, row)) + "]" for row in rows)
    shown = "" if query in CERTIFICATES else "C;\n"
    return f"# {len(rows)} rows of {len(rows[0])} symbols over GF({q})\nC := {call}([\n  {lines}], GF({q}));\n{shown}{query}(C);\n"


def main():
    parser = argparse.ArgumentParser(description=__doc__.split("\n")[0], epilog="See the head of this file for what FILE may be.")
    parser.add_argument("--field", type=int, metavar="Q", help="the size of the field, if the file doesn't say it")
    parser.add_argument("--checks", action="store_true", help="the rows are parity checks")
    parser.add_argument("--ask", default="MinimumDistance", metavar="QUERY", help="a query with the code as its only argument (MinimumDistance)")
    parser.add_argument("file", metavar="FILE", help="the matrix; - is standard input")
    given = parser.parse_args()
    try:
        with open(0 if given.file == "-" else given.file, encoding="utf-8-sig") as opened:
            text = opened.read()
        q, rows, name = matrix(text, given.field)
    except Refused as refused:
        print(f"{given.file}:{refused.line}:{refused.column}: {refused.text}", file=sys.stderr)
        return 1
    except (OSError, UnicodeDecodeError) as error:
        print(f"{given.file}: {getattr(error, 'strerror', None) or 'this is no text in UTF-8'}", file=sys.stderr)
        return 4
    if name:
        print(f"{given.file}: `{name}` is taken for a zero of the Conway polynomial of GF({q}); if the field was made by another modulus, this is another code", file=sys.stderr)
    print(script(q, rows, given.checks, given.ask), end="")
    return 0


if __name__ == "__main__":
    filters.end(main)
