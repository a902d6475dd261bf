#!/usr/bin/env python3
"""Runs a script, and explains its fault line if it has one; or checks a certificate, and explains why it is rejected.

    tools/explain.py PROGRAM [ARGUMENT..] FILE        FILE may be - for standard input

The text goes to standard output as PROGRAM writes it, given these arguments and `run` or `check`; a file is taken for a certificate
if its first sign, or that of one of its lines, is a brace. If a fault line ends the text of a script, an explanation follows on
standard error: the line and the column, the source with a caret, what the number means, and what was expected there. The status is
that of PROGRAM. The explanation follows the rules of docs/FORMATS.md: the script is read once more by tools/reference.py, and PROGRAM
is asked what the arguments of the faulty call are.
"""
import difflib
import json
import re
import subprocess
import sys

import explain_bytes
import explain_certificate
import filters
import foreign_names
import reference
from reference import CALLS, QUERIES, FIELD_SIZES, LONGEST, SYMBOL_SIZES, Code, Fault, FieldValue

KINDS = {"number": "a number", "field": "a field", "numbers": "a list of numbers",
         "lists": "a matrix (a list of lists of numbers)", "code": "a code"}
MEANINGS = {
    1: "there is no field of this size",
    2: "a code can't have this length",
    3: "an argument has a value that it can't have",
    4: "the polynomial doesn't divide x^n - 1",
    5: "none of the eighteen fields has an element of this order and contains the field of the code",
    6: "the design distance is out of range",
    7: "no field for codes has one element more than this length",
    8: "two points are equal",
    9: "the polynomial is 0 at a point",
    10: "the one field doesn't lie in the other",
    11: "the fields of the codes don't fit each other",
    12: "lengths differ",
    13: "the list of coordinates is bad",
    14: "the inner code, or that of the tails, has the wrong dimension",
    15: "the code has too many cosets to keep a leader of each",
    16: "these rows have too many words to look at each",
    17: "the field is too large: codes are over fields of at most 16 elements",
    18: "the code has no alternant form",
    19: "the word doesn't show the distance that the form promises",
    40: "no name, number or sign begins with this byte",
    41: "something is missing or superfluous here",
    42: "more than 32 parentheses and brackets are open",
    43: "the number is above 2^64 - 1",
    44: "the name is unknown",
    45: "the value is of the wrong kind, or a query is not a statement of its own",
    46: "the call takes another number of arguments",
    47: "the code and its dual have too many words to count",
    50: "the list is not a word of the code",
    51: "the second code is not a subcode of the first",
    53: "there are no quadratic residue codes of this length over the field",
}
EMPTY = "the file is empty: a script that prints nothing; as a certificate it is rejected, by reason 30"
SIGNS = {"name": "a name", "number": "a number"}


class Tokens(reference.Tokens):
    """Remembers which tokens were allowed at the fault."""

    allowed = ()

    def take(self, *allowed):
        self.allowed = allowed
        return super().take(*allowed)


def read(script):
    """The statements, and the allowed tokens if a fault ends the reading."""
    tokens, statements = Tokens(script), []
    try:
        while tokens.peek().kind != reference.END_OF_SCRIPT:
            statements.append(reference.read_statement(tokens))
    except Fault as fault:
        return None, fault, tokens.allowed
    return statements, None, ()


def told(value):
    if isinstance(value, bool):
        return "a truth value"
    if isinstance(value, FieldValue):
        return f"the field GF({value.size})"
    if isinstance(value, Code):
        return f"a code of length {value.length}"
    if isinstance(value, list):
        return "a list of numbers" if all(reference.is_number(a) for a in value) else "a list of lists"
    return "a number"


def near(name, known):
    """The name that is probably meant: the same in other letters, or one that looks alike."""
    small = {k.lower(): k for k in reversed(known)}
    found = difflib.get_close_matches(name.lower(), small, n=1, cutoff=0.6)
    return f"did you mean `{small[found[0]]}`?" if found else "no name is near it"


def unknown(expr, names):
    name = expr.value.decode()
    calls = list(CALLS) + list(QUERIES)
    if name in calls and expr.kind != "call":
        return f"`{name}` is a call: its arguments stand in parentheses, as `{name}(..)`"
    foreign = foreign_names.said_of(name)
    if foreign:
        return foreign
    if expr.kind == "call":
        return f"no call is named `{name}`; {near(name, calls)}"
    return f"`{name}` was given no value before; {near(name, [n.decode() for n in names] + calls)}"


def written(expr):
    """The expression as it may stand in a script."""
    parts = ",".join(written(part) for part in expr.parts)
    if expr.kind == "number":
        return str(expr.value)
    if expr.kind == "list":
        return f"[{parts}]"
    return expr.value.decode() + (f"({parts})" if expr.kind == "call" else "")


def value_in(line):
    """The value that a line shows; of a code its rows aren't known."""
    code = re.fullmatch(r"code \[(\d+),(\d+)\] GF\((\d+)\)", line)
    field = re.fullmatch(r"GF\((\d+)\)", line)
    if code:
        return Code(int(code.group(3)), int(code.group(1)), None)
    return FieldValue(int(field.group(1))) if field else json.loads(line)


class Names:
    """What the statements before the fault gave to names. The program is asked for values, in a script of these statements; if it takes
    minutes, since it is compiled first, they are found here."""

    def __init__(self, program, statements):
        self.program, self.statements = program, [s for s in statements if s.target is not None]

    def __iter__(self):
        return iter({s.target for s in self.statements})

    def values(self, parts):
        if len(self.program) == 1:
            script = "".join(f"{s.target.decode()}:={written(s.expr)};" for s in self.statements) + "".join(written(part) + ";" for part in parts)
            done = subprocess.run([*self.program, "run"], input=script.encode(), capture_output=True, check=False)
            lines = done.stdout.decode().splitlines()
            if done.returncode == 0 and len(lines) == len(parts):
                return [value_in(line) for line in lines]
        names = {}
        for statement in self.statements:
            names[statement.target] = reference.value_of(statement.expr, names)
        return [reference.value_of(part, names) for part in parts]


def uneven(rows):
    row = next(i for i, r in enumerate(rows) if len(r) != len(rows[0]))
    return f"row {row + 1} has {entries(len(rows[row]))}, the first row has {len(rows[0])}"


def too_large(rows, size):
    row, column = next((i, j) for i, r in enumerate(rows) for j, a in enumerate(r) if a >= size)
    return f"entry {column + 1} of row {row + 1} is {rows[row][column]}; the elements of GF({size}) are 0 to {size - 1}"


def counted(count, thing):
    return f"{count} {thing}{'s' * (count != 1)}"


def list_refusal(name, values, fault):
    """Why a polynomial, a list of points or a list of multipliers is refused."""
    argument = fault.values[0] if fault.values else 0
    if fault.number == 8:
        first, second = fault.values
        return f"points {first + 1} and {second + 1} are both {values[1][first]}"
    if fault.number == 9:
        return f"the polynomial is 0 at point {fault.values[0] + 1}, which is {values[1][fault.values[0]]}"
    if fault.number == 12:
        return f"here are {counted(len(values[1]), 'point')} and {counted(len(values[2]), 'multiplier')}"
    if name == "AlternantCode" and argument == 1:
        return f"here are {counted(len(values[1]), 'point')} and r is {values[0]}; r is 1 to the number of points"
    size = values[-1].size if name in ("GeneratorPolCode", "CheckPolCode") else values[-2].size
    entries = values[0] if argument == 1 else values[argument - 1]
    if any(a >= size for a in entries):
        return too_large([entries], size).replace("of row 1 ", "of the list ")
    if argument == 3:
        return f"multiplier {entries.index(0) + 1} is 0"
    return "the polynomial is 0" if not any(entries) else "the polynomial has degree 0, or one above 255"


def coordinates_refusal(code, places):
    for i, p in enumerate(places):
        if p >= code.length:
            return f"coordinate {p} isn't below the length {code.length}"
        if i and p <= places[i - 1]:
            return f"coordinate {p} doesn't rise after {places[i - 1]}"
    return "no coordinate would be left"


def combined_refusal(name, values, fault):
    a, b = values[0], values[-1]
    if fault.number == 2 and name == "ExtendedCode":
        return f"the code has length {a.length} already, the longest is {LONGEST}"
    if fault.number == 2:
        joined = name in ("DirectSumCode", "UUVCode")
        return f"the length {a.length} {'+' if joined else 'times'} {b.length} is above {LONGEST}"
    if fault.number == 3:
        return f"the code is over GF({a.size}), not over GF(2)"
    if fault.number == 11 and name == "ConcatenatedCode":
        return f"{a.size} is no power of {b.size}"
    if fault.number == 11:
        return f"the first code is over GF({a.size}), the second over GF({b.size})"
    if fault.number == 12:
        return f"the first code has length {a.length}, the second {b.length}"
    if fault.number == 13:
        return coordinates_refusal(a, b)
    dimension, degree = fault.values
    return f"the inner code has dimension {dimension}; {a.size} is {b.size}^{degree}, so it needs {degree}"


def entries(count):
    return "1 entry" if count == 1 else f"{count} entries"


def circulant_refusal(name, values, fault):
    """Why a word, or some words, whose cyclic shifts span a code are refused."""
    words, n, field = values
    one = name == "CirculantCode"
    if fault.number == 2 and not one and not words:
        return "the matrix has no rows"
    if fault.number == 2:
        return f"the length {n if one else f'{n} times {len(words)}'} is not one of 1 to {LONGEST}"
    if fault.number == 12 and one:
        return f"the list has {entries(len(words))}, n is {n}"
    if fault.number == 12:
        row = next(i for i, r in enumerate(words) if len(r) != n)
        return f"row {row + 1} has {entries(len(words[row]))}, n is {n}"
    return too_large([words], field.size).replace("of row 1 ", "of the list ") if one else too_large(words, field.size)


def construction_x_refusal(values, fault):
    """Why a code, a subcode and a code for the tails are refused."""
    code, part, tails = values
    if fault.number == 11:
        other, which = (part, "second") if part.size != code.size else (tails, "third")
        return f"the first code is over GF({code.size}), the {which} over GF({other.size})"
    if fault.number == 12:
        return f"the first code has length {code.length}, the second {part.length}"
    if fault.number == 51:
        return "`IsSubcode` says whether each word of a code is one of another code"
    if fault.number == 14:
        dimension, wanted = fault.values
        return f"the third code has dimension {dimension}; the first one has {counted(wanted, 'dimension')} more than the second"
    return f"the length {code.length} + {tails.length} is above {LONGEST}"


def two_lists_refusal(name, values, fault):
    """Why two words, or an element and a word, are refused."""
    if fault.number == 12:
        return f"the first list has {entries(len(values[0]))}, the second {len(values[1])}"
    argument, size = fault.values[0], values[2].size
    given = values[argument - 1]
    if reference.is_number(given):
        return f"it is {given}; the elements of GF({size}) are 0 to {size - 1}"
    return too_large([given], size).replace("of row 1 ", f"of argument {argument} ")


def length_refusal(name, values):
    if name in ("GoppaCode", "AlternantCode"):
        return f"here are {counted(len(values[1]), 'point')}; a code has 1 to {LONGEST}"
    length = values[1] if name in ("GeneratorPolCode", "CheckPolCode") else values[0]
    return f"the length {length} is not one of 1 to {LONGEST}"


def characteristic(size):
    return next(p for p in (2, 3, 5, 7, 11, 13) if size % p == 0)


def order_told(length, size):
    """Why no field has an element of this order."""
    p, degree = characteristic(size), 1
    if length % p == 0:
        return f"{length} is a multiple of {p}: no field that contains GF({size}) has an element of this order"
    while (size**degree - 1) % length:
        degree += 1
    return f"the smallest field with one that contains GF({size}) has {size}^{degree} elements; it isn't here"


def divisors_told(length, size):
    """Which degrees the irreducible divisors of x^n - 1 have: each is that of a set of exponents that multiplication by q permutes."""
    p, part = characteristic(size), length
    while part % p == 0:
        part //= p
    degrees, left = [], set(range(part))
    while left:
        exponent, orbit = min(left), set()
        while exponent not in orbit:
            orbit.add(exponent)
            exponent = exponent * size % part
        left -= orbit
        degrees.append(len(orbit))
    told = ", ".join(f"{degrees.count(d)} of degree {d}" for d in sorted(set(degrees)))
    times = f", each {length // part} times" if part < length else ""
    return f"over GF({size}) the irreducible divisors of x^{length} - 1 are {told}{times}"


def no_residue_length(length, field):
    """Why the length is none of a quadratic residue code."""
    divisor = next((d for d in range(2, length) if length % d == 0), None)
    if length < 3:
        return f"{length} is no odd prime"
    if divisor:
        return f"{length} is no prime: {divisor} divides it"
    if field.size % length == 0:
        return f"{field.size} is 0 modulo {length}"
    return f"{field.size} is not a square modulo {length}"


COMBINED = ("ExtendedCode", "PuncturedCode", "ShortenedCode", "EvenWeightSubcode", "DirectSumCode", "UUVCode",
            "DirectProductCode", "IntersectionCode", "UnionCode", "IsSubcode", "IsSameCode", "ConcatenatedCode")
OF_WORDS = ("IsCodeword", "Decode", "AlgebraicDecode", "AlternantCertificate", "NearestWord", "Syndrome", "InformationWord", "ResidueCode",
            "FillErasures")
OF_TWO_LISTS = ("AddWords", "ScaleWord", "DistanceCodeword")
BY_SHIFTS = ("CirculantCode", "QuasiCyclicCode")
BY_LISTS = ("GeneratorPolCode", "CheckPolCode", "GoppaCode", "AlternantCode")


def distribution_told(q, n, k, r):
    """What is too large for a weight distribution of a code of length n and dimension k, r being n - k."""
    if q**r > 2**24:
        return f"the code has {q}^{k} words and its dual {q}^{r}; one of them may have at most 2^24"
    return f"the code has {q}^{k} words, more than 2^24; from its dual it is found only in a space of at most 2^63 vectors, and here are {q}^{n}"


def refusal(expr, fault, names):
    """Why a call with arguments of its kinds is refused."""
    name = expr.value.decode()
    values = names.values(expr.parts)
    number = fault.number
    if number == 1:
        sizes = ", ".join(str(q) for q in FIELD_SIZES)
        return f"{values[0]} is not the size of a field here; the sizes are {sizes}"
    if number == 17:
        return f"GF({values[-1].size}) has more than 16 elements; the sizes for codes are {', '.join(str(q) for q in SYMBOL_SIZES)}"
    if name in COMBINED:
        return combined_refusal(name, values, fault)
    if name in BY_SHIFTS:
        return circulant_refusal(name, values, fault)
    if name == "ConstructionXCode":
        return construction_x_refusal(values, fault)
    if number == 2 and name in BY_LISTS:
        return length_refusal(name, values)
    if number == 10:
        return f"{values[-2].size} is no power of {values[-1].size}"
    if number == 4:
        return divisors_told(values[1], values[2].size)
    if name in BY_LISTS:
        return list_refusal(name, values, fault)
    if number == 5:
        return order_told(values[0], values[-1].size)
    if number == 6:
        distance, least = (values[1], 1) if name == "ReedSolomonCode" else (values[-2], 2)
        if values[0] < least:
            return f"a code of length {values[0]} has none"
        return f"it is {distance}; with the length {values[0]} it is {least} to {values[0]}"
    if number == 7:
        return f"it would have {values[0] + 1}; the sizes for codes are {', '.join(str(q) for q in SYMBOL_SIZES)}"
    if number == 2 and name == "ResidueCode":
        return "the word is 0 nowhere, so no coordinate would be left"
    if number == 2 and isinstance(values[0], list):
        return f"the first row has {entries(len(values[0][0]))}; a row has 1 to {LONGEST}" if values[0] else "the matrix has no rows"
    if number == 2 and name == "HammingCode":
        return f"with {values[0]} checks over GF({values[1].size}) the length is above {LONGEST}"
    if number == 2 and name == "ReedMullerCode":
        return f"in {values[1]} variables the length 2^{values[1]} is above {LONGEST}"
    if number == 2:
        return f"the length {values[0]} is not one of 1 to {LONGEST}"
    if name in OF_TWO_LISTS:
        return two_lists_refusal(name, values, fault)
    if number == 13:
        return coordinates_refusal(values[0], values[2])
    if number == 12 and name == "Encode":
        return f"the list has {entries(len(values[1]))}; a message of this code has as many as `Dimension(C)` says"
    if number == 12 and name == "AugmentedCode":
        row = next(i for i, r in enumerate(values[1]) if len(r) != values[0].length)
        return f"row {row + 1} has {entries(len(values[1][row]))}, the words of the code have {values[0].length}"
    if number == 12 and name in OF_WORDS:
        return f"the list has {entries(len(values[1]))}, the words of the code have {values[0].length}"
    if number == 12:
        return uneven(values[0])
    if number == 3 and name == "AugmentedCode":
        return too_large(values[1], values[0].size)
    if number == 3 and name in OF_WORDS + ("Encode",):
        return too_large([values[1]], values[0].size).replace("of row 1 ", "of the list ")
    if number == 3 and name == "HammingCode":
        return f"a Hamming code has at least 2 checks, here {values[0]}"
    if number == 3 and name == "ReedMullerCode":
        return f"the order {values[0]} is above the number of variables {values[1]}"
    if number == 3:
        return too_large(values[0], values[1].size)
    if number == 15:
        return f"{values[0].size}^{fault.values[0]} is above 2^20; for codes with more cosets there are NearestWord and, if they have an alternant form, AlgebraicDecode"
    if number == 18:
        return "only BCHCode, ReedSolomonCode, GoppaCode and AlternantCode make codes that have one"
    if number == 19:
        weight, distance = fault.values
        if weight != distance:
            return f"it has weight {weight}; it must have weight {distance}, one more than the {counted(distance - 1, 'check')} of the form"
        return f"it has weight {weight}, one more than the {counted(distance - 1, 'check')} of the form, but isn't in the code"
    if number == 50:
        return "`Decode(C, x)` gives a nearest word of the code"
    if number == 53:
        return no_residue_length(*values)
    if number == 47:
        return distribution_told(values[0].size, values[0].length, *fault.values)
    if number == 16:
        return f"{len(values[0])} rows over GF({values[1].size}) have {values[1].size}^{len(values[0])} words, more than 65,536"
    return ""


def told_kinds(kinds):
    return f"{len(kinds)} argument{'s' * (len(kinds) != 1)} ({', '.join(KINDS[k] for k in kinds) or 'none'})"


def of_call(expr, fault, names):
    """An explanation of a fault at or within a call, or None if it is elsewhere."""
    name = expr.value.decode()
    table = QUERIES if name in QUERIES else CALLS
    if fault.place == expr.place:
        if fault.number == 44:
            return unknown(expr, names)
        if fault.number == 45 and name not in QUERIES:
            return None  # it is the value of the call that does not fit
        if fault.number == 45:
            return f"`{name}` stands only as a statement of its own: not after `:=`, not in a call, not in a list"
        if fault.number == 46:
            wanted = " or ".join(told_kinds(kinds) for kinds in table[name][0])
            return f"`{name}` takes {wanted}; here {'are' if len(expr.parts) != 1 else 'is'} {len(expr.parts)}"
        return refusal(expr, fault, names)
    for i, part in enumerate(expr.parts):
        inner = of_expr(part, fault, names)
        if inner is not None:
            return inner
        if part.place == fault.place and fault.number == 45 and name in table:
            kinds = next(kinds for kinds in table[name][0] if len(kinds) == len(expr.parts))
            value = names.values([part])[0]
            instead = f": write `GF({value})`" if kinds[i] == "field" and value in FIELD_SIZES else ""
            return f"argument {i + 1} of `{name}` is {KINDS[kinds[i]]}; here is {told(value)}{instead}"
    return None


def of_expr(expr, fault, names):
    if expr.kind == "call":
        return of_call(expr, fault, names)
    if expr.kind == "name" and expr.place == fault.place and fault.number == 44:
        return unknown(expr, names)
    if expr.kind == "list":
        for i, part in enumerate(expr.parts):
            inner = of_expr(part, fault, names)
            if inner is not None:
                return inner
            if part.place == fault.place and fault.number == 45:
                first, this = names.values([expr.parts[0], part])
                if i == 0:
                    return f"a list has numbers or lists of numbers; here is {told(first)}"
                return f"the first element is {told(first)}, and this one is {told(this)}"
    return None


def of_statements(program, statements, fault):
    """The explanation of the fault of evaluation: it is in the last statement that begins before it."""
    before = [s for s in statements if s.expr.place <= fault.place]
    return of_expr(before[-1].expr, fault, Names(program, before[:-1])) or ""


def expected(allowed, fault):
    if fault.number != 41 or not allowed:
        return ""
    words = [SIGNS.get(a, f"`{a}`") for a in allowed]
    return "expected " + (", ".join(words[:-1]) + " or " if len(words) > 1 else "") + words[-1]


def of_reading(script, fault, allowed):
    if fault.number == 40:
        return explain_bytes.of_byte(script, fault.place)
    return (fault.number == 41 and explain_bytes.of_token(script, fault.place)) or expected(allowed, fault)


def explanation(program, script, fault):
    """The lines on standard error."""
    start = script.rfind(b"\n", 0, fault.place) + 1
    stop = script.find(b"\n", fault.place)
    source = script[start:stop if stop >= 0 else len(script)].decode("utf-8", "replace")
    column = len(script[start:fault.place].decode("utf-8", "replace"))
    row = script.count(b"\n", 0, fault.place) + 1
    statements, _fault, allowed = read(script)
    detail = of_reading(script, fault, allowed) if statements is None else of_statements(program, statements, fault)
    lines = [f"line {row}, column {column + 1}: {MEANINGS[fault.number]}"]
    cut = max(0, column - 60)
    lines.append("  " + source[cut:cut + 120])
    lines.append("  " + "".join("\t" if c == "\t" else " " for c in source[cut:column]) + "^")
    if detail:
        lines.append(detail)
    return lines


def fault_of(text):
    words = text.rstrip(b"\n").split(b"\n")[-1].split()
    return Fault(int(words[1]), int(words[3]), tuple(int(n) for n in words[5:]))


def printed(program, command, text):
    """What the program prints, and its status."""
    done = filters.run([*program, command], text, stdout=subprocess.PIPE)
    sys.stdout.buffer.write(done.stdout)
    sys.stdout.buffer.flush()
    return done.stdout, done.returncode


def main():
    if len(sys.argv) < 3:
        print("usage: explain.py PROGRAM [ARGUMENT..] FILE", file=sys.stderr)
        return 2
    program, file = sys.argv[1:-1], sys.argv[-1]
    try:
        text = filters.read_input() if file == "-" else open(file, "rb").read()
    except OSError as error:
        print(f"codes: {error.filename}: {error.strerror}", file=sys.stderr)
        return 4
    if explain_certificate.is_certificate(text):
        said, status = printed(program, "check", text)
        lines = explain_certificate.lines(text, said) if status == 11 else []
    else:
        said, status = printed(program, "run", text)
        lines = [EMPTY] if not text.strip() and status == 0 else explanation(program, text, fault_of(said)) if status == 1 else []
    if lines:
        print("\n".join(lines), file=sys.stderr)
    return status


if __name__ == "__main__":
    filters.end(main)
