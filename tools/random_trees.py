"""Certificates by construction that are made at random, and altered; for tools/compare_certificates.py.

`lines(random, count)` gives valid ones, of all ten kinds; `altered(random, line)` changes a claim of one. `stand_in(text)` says what
`codes check` must say, by the calls and refusals of tools/reference.py. It shares with tools/check_certificate.py what that reads, and
what it says of a search; the codes, the bounds, the numbers of claims and the order of the reasons are found anew.
"""
import copy
import json

import check_certificate
import reference
import tree_certificate
from check_certificate import Rejected
from reference import FieldValue as GF, Form, Refused

SHORT = 40
FIELDS = (2, 2, 2, 3, 3, 4, 4, 5, 8, 9, 16)
# locator fields of the alternant claims over a field
LARGER = {2: (2, 4, 8, 16, 32), 3: (3, 9, 27), 4: (4, 16, 64), 5: (5, 25), 7: (7,), 8: (8, 64), 9: (9, 81), 11: (11,), 13: (13,), 16: (16, 256)}
OUTER = {2: (2, 4, 8, 16), 3: (3, 9), 4: (4, 16)}


# ---- valid trees -------------------------------------------------------------------------------------------------------

def some(random, total, most):
    return sorted(random.sample(range(total), random.randint(0, max(0, min(total, most)))))


def search_claim(random, q):
    """A claim by a search, by levels or a scan, of a small code of rows."""
    n = random.randint(1, 9)
    k = random.randint(1, min(n, 4 if q < 5 else 2))
    code = reference.code_of_rows(q, n, [[random.randrange(q) for _ in range(n)] for _ in range(k)])
    if not code.rows:
        return search_claim(random, q)
    by = random.choice(("levels", "levels", "scan"))
    said = json.loads(reference.certificate_line(reference.Session(), code, by))
    return {"kind": "search"} | {key: value for key, value in said.items() if key not in ("field", "version")}


def alternant_claim(random, q):
    large = random.choice(LARGER[q])
    n = random.randint(1, min(large, 12))
    return {"kind": "alternant", "locator": large, "points": random.sample(range(large), n), "multipliers": [random.randrange(1, large) for _ in range(n)],
            "r": random.randint(0, min(n, 5))}


def changed_claim(random, q, depth):
    """A claim of one part."""
    of = claim(random, q, depth - 1)
    code, kind = code_of(of, q), random.choice(("subcode", "puncture", "shorten", "extend"))
    if kind == "subcode":
        rows = [word_of(random, code) for _ in range(random.randint(0, 3))]
        return {"kind": kind, "of": of, "rows": rows}
    if kind == "extend":
        return {"kind": kind, "of": of}
    return {"kind": kind, "of": of, "places": some(random, code.length, min(3, code.length - 1))}


def concat_claim(random, q, depth):
    large = random.choice(OUTER[q])
    degree = next(s for s in range(1, 9) if q**s == large)
    for _ in range(20):
        inner = claim(random, q, depth - 1)
        if len(code_of(inner, q).rows) == degree:
            return {"kind": "concat", "large": large, "outer": claim(random, large, depth - 1), "inner": inner}
    return search_claim(random, q)


def pair_claim(random, q, depth):
    kind = random.choice(("uuv", "sum", "product"))
    left, right = (claim(random, q, depth - 1) for _ in range(2))
    if kind == "uuv" and code_of(left, q).length != code_of(right, q).length:
        right = {"kind": "subcode", "of": left, "rows": code_of(left, q).rows[:1]}
    return {"kind": kind, "left": left, "right": right}


def claim(random, q, depth):
    """A claim whose code is not long."""
    way = random.randrange(10) if depth > 1 else random.randrange(4)
    if way < 2:
        return search_claim(random, q)
    if way < 4:
        return alternant_claim(random, q)
    if way < 7:
        found = pair_claim(random, q, depth)
    elif way == 7 and q in OUTER:
        found = concat_claim(random, q, depth)
    else:
        found = changed_claim(random, q, depth)
    try:
        return found if code_of(found, q).length <= SHORT else search_claim(random, q)
    except Refused:
        return search_claim(random, q)


def word_of(random, code):
    field, word = reference.arithmetic(code.size), [0] * code.length
    for row in code.rows:
        word = field.add_scaled(word, random.randrange(code.size), row)
    return word


def line_of(random):
    """A certificate whose word is in the code; it is accepted if the word is as light as the bound."""
    q = random.choice(FIELDS)
    top = claim(random, q, random.randint(1, 5))
    code = code_of(top, q)
    words = [word_of(random, code) for _ in range(30)] + code.rows
    word = min((w for w in words if any(w)), key=reference.weight_of, default=[0] * code.length)
    parts = {"version": 2, "field": q, "claim": top, "word": word, "distance": max(1, reference.weight_of(word))}
    return json.dumps(parts, separators=(",", ":"), sort_keys=True)


def lines(random, count):
    for _ in range(count):
        yield line_of(random)


# ---- altered trees -----------------------------------------------------------------------------------------------------

PARTS = ("left", "right", "outer", "inner", "of")


def claims_of(top):
    yield top
    for key in PARTS:
        if isinstance(top.get(key), dict):
            yield from claims_of(top[key])


def altered_number(random, number):
    return random.choice((max(0, number - 1), number + 1, 0, 1, 2, 3, 4, 5, 9, 16, 17, 255, 256, 2**63, 2**64))


def altered_numbers(random, numbers):
    numbers, at = list(numbers), random.randrange(len(numbers) + 1)
    way = random.randrange(6)
    if way == 0 or not numbers:
        numbers.insert(at, random.randrange(4))
    elif way == 1:
        del numbers[at % len(numbers)]
    elif way == 2:
        numbers[at % len(numbers)] = random.choice(numbers)
    elif way == 3:
        numbers[at % len(numbers)] = altered_number(random, numbers[at % len(numbers)])
    elif way == 4:
        numbers[at % len(numbers)] = random.randrange(3)
    else:
        numbers.append(numbers[-1] + 1)
    return numbers


def altered_value(random, key, value):
    if key == "kind":
        return random.choice((*check_certificate.KINDS, "search", "span", ""))
    if isinstance(value, int):
        return altered_number(random, value)
    if key == "rows" and value:
        at = random.randrange(len(value) + 1)
        return value[:at] + value[at + 1:] if random.random() < 0.3 or at == len(value) else value[:at] + [altered_numbers(random, value[at])] + value[at + 1:]
    if check_certificate.is_numbers(value):
        return altered_numbers(random, value)
    return value


def alter_claim(random, found, q):
    """Changes a claim, or puts one in its place or around it."""
    way = random.randrange(8)
    before = dict(found)
    if way < 5 and found:
        key = random.choice(sorted(found))
        found[key] = altered_value(random, key, found[key])
    elif way <= 5:
        found.clear()
        found.update(claim(random, q, 2))
    elif way == 6:
        found.clear()
        found.update(random.choice(({"kind": "extend", "of": before}, {"kind": "puncture", "of": before, "places": [0]}, {"kind": "shorten", "of": before, "places": []},
                                    {"kind": "sum", "left": before, "right": copy.deepcopy(before)}, {"kind": "uuv", "left": before, "right": copy.deepcopy(before)})))
    elif "left" in found:
        found["left"], found["right"] = found["right"], found["left"]
    elif found and random.random() < 0.5:
        found.pop(random.choice(sorted(found)))
    else:
        found[random.choice(("note", "of", "rows", "word"))] = random.choice((0, [], {}, None))


def alter_top(random, parts):
    way = random.randrange(4)
    if way == 0:
        parts["distance"] = altered_number(random, parts["distance"])
    elif way == 1:
        parts["word"] = altered_numbers(random, parts["word"])
    elif way == 2:
        # another word of the code, with its weight
        try:
            check_certificate.read_either(json.dumps(parts))
            parts["word"] = word_of(random, code_of(parts["claim"], parts["field"]))
            parts["distance"] = max(1, reference.weight_of(parts["word"]))
        except (Rejected, Refused):
            pass
    else:
        parts["field"] = altered_number(random, parts["field"])


def altered(random, line):
    parts = json.loads(line)
    for _ in range(random.choice((1, 1, 1, 2))):
        if random.random() < 0.25:
            alter_top(random, parts)
        else:
            alter_claim(random, random.choice(list(claims_of(parts["claim"]))), parts["field"] if parts["field"] in LARGER else 2)
    return json.dumps(parts, separators=(",", ":"), sort_keys=True)


# ---- the stand-in ------------------------------------------------------------------------------------------------------

def own_code(kind, found, q, parts):
    """The code of a claim, by the call of the reference program; its refusals are those of the call."""
    if kind == "search":
        return reference.code_of_rows(q, len(found["word"]), found["rows"])
    if kind == "alternant":
        return form_code(found, q)
    if kind == "subcode":
        return subcode(parts[0], found["rows"])
    if kind in ("puncture", "shorten"):
        return {"puncture": reference.punctured_code, "shorten": reference.shortened_code}[kind](parts[0], found["places"])
    return {"uuv": reference.uuv_code, "sum": reference.direct_sum_code, "product": reference.direct_product_code, "concat": reference.concatenated_code,
            "extend": reference.extended_code}[kind](*parts)


def form_code(found, q):
    locator = reference.gf(found["locator"])
    # a claim may have an r of 0, which the call refuses
    code = reference.alternant_code(found["r"] or 1, found["points"], found["multipliers"], locator, GF(q))
    return code if found["r"] else reference.code_of_form(q, Form(locator.size, found["points"], found["multipliers"], 0))


def subcode(code, rows):
    if any(len(row) != code.length for row in rows):
        raise Refused(12)
    if not all(reference.is_in(code, row) for row in rows):
        raise Refused(33)
    return reference.code_of_rows(code.size, code.length, rows)


def code_of(found, q):
    """The code of a claim as it stands in JSON, without its searches being checked."""
    parts = [code_of(found[key], found["large"] if key == "outer" else q) for key in PARTS if key in found]
    return own_code(found["kind"], found, q, parts)


class Numbered:
    """Goes through a tree: each claim gets its number when it is met, and is tried when its parts are done."""

    def __init__(self):
        self.met = 0

    def code_of(self, found, q):
        number, self.met = self.met, self.met + 1
        parts = [self.code_of(found[key], found["large"] if key == "outer" else q) for key in PARTS if key in found]
        try:
            if found["kind"] == "search":
                need_search(found, q)
            return own_code(found["kind"], found, q, parts)
        except Refused as refusal:
            raise Rejected(48, number, refusal.number) from None


def need_search(found, q):
    parts = {key: value for key, value in found.items() if key != "kind"} | {"version": 1, "field": q}
    try:
        check_certificate.check(json.dumps(parts))
    except Rejected as reason:
        raise Refused(reason.number) from None


def verdict(text):
    if not isinstance(check_certificate.read_either(text), check_certificate.Tree):
        return check_certificate.check(text)
    parts = json.loads(text)
    code, word = Numbered().code_of(parts["claim"], parts["field"]), parts["word"]
    if len(word) != code.length or not reference.is_in(code, word):
        raise Rejected(33)
    if reference.weight_of(word) != parts["distance"]:
        raise Rejected(34, reference.weight_of(word))
    bound = tree_certificate.bound_of(parts["claim"], parts["field"])
    if bound < parts["distance"]:
        raise Rejected(49, bound)
    return parts["distance"]


def stand_in(text):
    try:
        return f"accepted distance {verdict(text)}\n", 0
    except Rejected as reason:
        return f"{reason}\n", 11
