"""Why a certificate is rejected, in words.

`lines(text, printed)` gives the lines for what `codes check` printed of the bytes of a file, by the rules of docs/FORMATS.md; none if
the certificate is accepted. `is_certificate(text)` says whether a file is one, or has one among other lines.
"""
import json

import check_certificate
import explain_tree
from check_certificate import FIELDS, Field, Rejected, systematic, weight

MEANINGS = {
    30: "this is no text in JSON", 31: "a rule about the parts of a certificate is broken",
    32: "the length, the number of rows or the number of sets is above 255", 33: "the word is no codeword: it is not in the span of the rows",
    34: "the weight of the word is not the distance", 35: "the columns of a set are not independent, or not as many as the dimension",
    36: "a column is fresh in two sets", 37: "a codeword is lighter than the distance", 38: "the sets and their levels prove less than the distance",
    39: "a checker would have to look at too many words", 48: "a claim defines no code", 49: "the claims prove less than the distance",
}
# of a certificate by construction
OF_TREES = {32: "a list has more than 255 entries, or there are too many claims, or they are too deep", 33: "the word is no codeword: it has another length, or is not in the code of the claim"}
# the key that a rule is about, and what it asks
RULES = {
    1: ("", "the whole is an object, from `{` to `}`"), 2: ("version", "`version` is 1, or 2 for one by construction"),
    3: ("field", "`field` is one of " + ", ".join(map(str, FIELDS))),
    4: ("rows", "`rows` is a nonempty list of lists of one length of at least 1, with entries below the size of the field"),
    5: ("word", "`word` is a list of the length of the rows, with entries below the size of the field"),
    6: ("distance", "`distance` is a whole number of at least 1"), 7: ("by", '`by` is "levels" or "scan"'),
    8: ("sets", "`sets` is missing for a scan, and a nonempty list of objects for levels"),
    9: ("sets", "`basis` and `fresh` are rising lists of columns, `level` is a whole number, in each set"),
    10: ("sets", "each column of `fresh` is in `basis` too"), 11: ("", "there are no other keys, in the whole and in the sets"),
}
LONGEST_SHOWN = 80


def is_certificate(text):
    lines = [line.strip() for line in text.split(b"\n")]
    return text.lstrip().startswith(b"{") or any(line.startswith(b'{"') for line in lines)


def why_no_json(text):
    """Which line of a file is at fault."""
    if not text.strip():
        return "the file is empty"
    lines = text.decode("utf-8", "replace").split("\n")
    found = [i for i, line in enumerate(lines, 1) if line.strip().startswith('{"')]
    others = [line for line in lines if line.strip() and not line.strip().startswith('{"')]
    if len(found) > 1:
        return f"lines {', '.join(map(str, found))} are a certificate each: save each in a file of its own"
    if found and others and is_json(lines[found[0] - 1]):
        return f"line {found[0]} is the certificate: save it in a file of its own"
    try:
        json.loads(text.decode("utf-8"))
    except UnicodeDecodeError as error:
        return f"byte {error.start} is no part of a text in UTF-8"
    except json.JSONDecodeError as error:
        return f"line {error.lineno}, column {error.colno}: {error.msg[:1].lower()}{error.msg[1:]}"
    return "arrays and objects nest more than 127 deep, a number is too large, or a surrogate is escaped without its pair"


def is_json(line):
    try:
        json.loads(line)
        return True
    except ValueError:
        return False


def why_no_certificate(text, rule):
    key, wanted = RULES[rule]
    value = json.loads(text)
    if rule == 2 and is_tree(value):
        return "`version` is 2, and this program reads no certificates by construction"
    if not key:
        return f"wanted: {wanted}"
    if key not in value:
        return f"wanted: {wanted}; there is no key `{key}`"
    shown = json.dumps(value[key])
    return f"wanted: {wanted}; here is {shown[:LONGEST_SHOWN]}{'..' if len(shown) > LONGEST_SHOWN else ''}"


def why_not_proved(text, number, values):
    """Reasons against a text that has the parts of a certificate."""
    value = json.loads(text)
    rows, sets = value["rows"], value.get("sets", [])
    if number == 32:
        return f"here are rows of length {len(rows[0])}, {len(rows)} rows and {len(sets)} sets"
    if number == 34:
        return f"the word has weight {values[0]}, and `distance` is {value['distance']}"
    if number == 35:
        rank = len(systematic(Field(value["field"]), rows, range(len(rows[0])))[1])
        return f"set {values[0]}, counted from 1, has {len(sets[values[0] - 1]['basis'])} columns; the dimension is {rank}"
    if number == 36:
        return f"column {values[0]}, counted from 0, is fresh in sets " + " and ".join(str(i) for i, s in enumerate(sets, 1) if values[0] in s["fresh"])
    if number == 37:
        return f"the word {json.dumps(list(values), separators=(',', ':'))} has weight {weight(values)}, and `distance` is {value['distance']}"
    if number == 38:
        return f"they prove that it is {values[0]} at least, and `distance` is {value['distance']}"
    if number == 39:
        return f"they are {values[0]:,}; a checker looks at {check_certificate.MOST_WORDS:,} at most"
    return ""


def is_tree(value):
    version = value.get("version") if isinstance(value, dict) else None
    return check_certificate.is_number(version) and version == 2


def lines(text, printed):
    words = printed.split()
    if not words or words[0] != b"rejected":
        return []
    rejected = Rejected(int(words[1]), *map(int, words[3:]))
    number, values = rejected.number, rejected.values
    if number == 30:
        detail = why_no_json(text)
    elif (number, *values) != (31, 2) and is_tree(json.loads(text)):
        detail = explain_tree.detail(json.loads(text), number, values, MEANINGS)
        return [f"reason {number}: {OF_TREES.get(number, MEANINGS[number])}"] + ([detail] if detail else [])
    elif number == 31:
        detail = why_no_certificate(text, values[0])
    else:
        detail = why_not_proved(text, number, values)
    return [f"reason {number}: {MEANINGS[number]}"] + ([detail] if detail else [])
