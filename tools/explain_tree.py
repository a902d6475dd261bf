"""Why a certificate by construction is rejected, in words; for tools/explain_certificate.py.

`detail(value, number, values)` gives a sentence for the reason `number` with these values, `value` being the certificate as JSON; the
rules are those of docs/FORMATS.md. A claim is named by its number and by the keys that lead to it, as `claim.left.of`.
"""
import json

import check_certificate
from check_certificate import KINDS, Rejected

ALL_KINDS = ("search", *KINDS)
LONGEST_SHOWN = 80
SEARCH_RULES = {
    4: "`rows` is a nonempty list of lists of one length of at least 1, with entries below {q}", 5: "`word` is a list of the length of the rows, with entries below {q}",
    6: "`distance` is a whole number of at least 1", 7: '`by` is "levels" or "scan"', 8: "`sets` is missing for a scan, and a nonempty list of objects for levels",
    9: "`basis` and `fresh` are rising lists of columns, `level` is a whole number, in each set", 10: "each column of `fresh` is in `basis` too",
}
OWN = {"locator": "a whole number", "r": "a whole number", "points": "a list of whole numbers of at most 255", "multipliers": "a list of whole numbers of at most 255",
       "places": "a list of whole numbers", "rows": "a list of lists of whole numbers below {q}", "large": "one of " + ", ".join(map(str, check_certificate.FIELDS))}
# what the refusal of a claim other than a search means
REFUSALS = {1: "`locator` is the size of no field", 2: "its code would not have a length of 1 to 255", 3: "`r` is above the number of points, or a point or a multiplier is no element of the locator field, or a multiplier is 0",
            8: "two points are equal", 10: "the locator field does not contain the field of the claim", 11: "`large` is not one of the powers 1 to 8 of the size of the claim's field",
            12: "lengths differ", 13: "`places` are not strictly rising, or one is the length or more, or they are all coordinates", 14: "the inner code has not the dimension that `large` asks for",
            33: "a row is no word of the code of `of`"}


def shown(value):
    text = json.dumps(value)
    return f"{text[:LONGEST_SHOWN]}{'..' if len(text) > LONGEST_SHOWN else ''}"


def named(keys):
    return ", ".join(f"`{key}`" for key in sorted(keys))


def parts_of(value):
    """The keys of the parts of a claim."""
    return KINDS.get(value["kind"], ((), ()))[0]


def why_no_claim(value, q, where):
    """What is wrong with a claim over q elements, by rule 12; nothing if it is one."""
    if not isinstance(value, dict):
        return f"`{where}` is no object"
    kind = value.get("kind")
    if not isinstance(kind, str) or kind not in ALL_KINDS:
        return f"wanted: `kind` of `{where}` is one of {', '.join(ALL_KINDS)}; here is {shown(kind) if 'kind' in value else 'none'}"
    if kind == "search":
        return why_no_search(value, q, where)
    parts, own = KINDS[kind]
    if set(value) != {"kind", *parts, *own}:
        return f"`{where}` is a claim `{kind}`: its keys are {named(('kind', *parts, *own))}; here are {named(value)}"
    for key in own:
        if not check_certificate.is_own(key, value[key], q):
            return f"wanted: `{key}` of `{where}` is {OWN[key].format(q=q)}; here is {shown(value[key])}"
    return next(filter(None, (why_no_claim(value[key], value["large"] if key == "outer" else q, f"{where}.{key}") for key in parts)), "")


def why_no_search(value, q, where):
    try:
        sets = check_certificate.read_search(value, q)[3]
    except Rejected as broken:
        return f"wanted: of the search `{where}`, {SEARCH_RULES[broken.values[0]].format(q=q)}"
    keys = {"kind", "by", "distance", "rows", "word"} | (set() if sets is None else {"sets"})
    return "" if set(value) == keys else f"`{where}` is a search: its keys are {named(keys)}; here are {named(value)}"


def why_no_tree(value, rule):
    if rule == 12:
        return why_no_claim(value["claim"], value["field"], "claim") if "claim" in value else "there is no key `claim`"
    wanted = {3: ("field", OWN["large"]), 5: ("word", "a nonempty list of whole numbers below the size of the field"), 6: ("distance", "a whole number of at least 1")}
    if rule not in wanted:
        return "wanted: there are no other keys, in the whole and in the sets of its searches"
    key, what = wanted[rule]
    return f"wanted: `{key}` is {what}; {'here is ' + shown(value[key]) if key in value else f'there is no key `{key}`'}"


def places_of(value, where="claim"):
    """Each claim and how it is reached, in the order of the numbers."""
    yield where, value
    for key in parts_of(value):
        yield from places_of(value[key], f"{where}.{key}")


def long_lists(value):
    """Each list that is too long."""
    lists = [("`word`", value["word"])]
    for where, claim in places_of(value["claim"]):
        lists += [(f"`{key}` of `{where}`", claim[key]) for key in ("rows", "sets", "points", "multipliers", "places") if key in claim]
        lists += [(f"row {i}, counted from 1, of `{where}`", row) for i, row in enumerate(claim.get("rows", ()), 1)]
    return [f"{name} has {len(entries)} entries" for name, entries in lists if len(entries) > check_certificate.LONGEST]


def why_too_large(value):
    if long_lists(value):
        return long_lists(value)[0]
    claims = list(places_of(value["claim"]))
    depth = max(where.count(".") + 1 for where, _ in claims)
    return f"here are {len(claims):,} claims, {depth} deep; the limits are {check_certificate.MOST_CLAIMS:,} and {check_certificate.MOST_NESTED}"


def why_refused(value, number, refusal, meanings):
    where, claim = list(places_of(value["claim"]))[number]
    meaning = meanings[refusal] if claim["kind"] == "search" else REFUSALS.get(refusal, "")
    return f"claim {number}, counted from 0 in the order of the tree, is the `{claim['kind']}` at `{where}`. Its refusal is {refusal}: {meaning}"


def detail(value, number, values, meanings):
    if number == 31:
        return why_no_tree(value, values[0])
    if number == 32:
        return why_too_large(value)
    if number == 48:
        return why_refused(value, *values, meanings)
    if number == 34:
        return f"the word has weight {values[0]}, and `distance` is {value['distance']}"
    if number == 49:
        return f"the tree proves that it is {values[0]} at least, and `distance` is {value['distance']}"
    return ""
