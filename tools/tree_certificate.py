#!/usr/bin/env python3
"""Writes a certificate by construction of the code that a script makes.

    tools/tree_certificate.py [PROGRAM] [budget=N] < SCRIPT

PROGRAM is the path of `codes`; without it, it is that of the variable CODES, or the script ./codes of this repository. The code is
that of the last statement that has one, as its value or as the argument of its query. The script is read by tools/reference.py, and
the tree of claims follows the calls that made the code: an alternant form, (u|u+v), a sum, a product, a concatenation, a subcode, a
punctured, shortened or extended code; a Reed-Muller code is (u|u+v) of two smaller ones. Any other code is a claim by a search, for
which PROGRAM is asked, and so is a word that attains the bound, within a budget of N blocks (65536 if it isn't given).

The certificate goes to standard output, with status 0. If none is found, a line on standard error says why, and the status is 1: a
search did not end within the budget, or no word of the weight of the bound was found. Nothing rests on this program: `codes check`
and tools/check_certificate.py judge what it writes.
"""
import json
import os
import re
import subprocess
import sys
from pathlib import Path

import reference
from reference import Code, Fault, FieldValue, Form

BUDGET = 65536
TOP = Path(__file__).resolve().parent.parent
MOST_BOUND = 256
LONGEST = 255
DISTANCE = re.compile(r"distance (?:between \d+ and )?(\d+) word (\[[0-9,]*\]) blocks \d+")


class NoTree(Exception):
    """Why there is no certificate."""


# ---- what a script made, and how ---------------------------------------------------------------------------------------

def remembering(name, function):
    """The call, whose code remembers the name of the call and its arguments."""
    def call(*arguments):
        value = function(*arguments)
        if isinstance(value, Code):
            value.made = (name, arguments)
        return value
    return call


CALLS = {name: (forms, remembering(name, function)) for name, (forms, function) in reference.CALLS.items()}


def of_statement(statement, names):
    """The code of a statement: its value, or the first argument of its query."""
    expr = statement.expr
    if reference.is_query(statement):
        values = [reference.value_of(part, names) for part in expr.parts]
        return values[0] if values and isinstance(values[0], Code) else None
    value = reference.value_of(expr, names)
    if statement.target is not None:
        names[statement.target] = value
    return value if isinstance(value, Code) else None


def code_of_script(script):
    """The last code of the script, with how it was made."""
    kept, reference.CALLS = reference.CALLS, CALLS
    try:
        names, last = {}, None
        for statement in reference.read_script(script):
            last = of_statement(statement, names) or last
    except Fault as fault:
        raise NoTree(fault.line()) from None
    finally:
        reference.CALLS = kept
    if last is None:
        raise NoTree("no statement of the script has a code")
    return last


# ---- claims ------------------------------------------------------------------------------------------------------------

def bound_of(claim, q):
    """The bound that a claim over q elements has, by the table of docs/FORMATS.md."""
    kind = claim["kind"]
    parts = [bound_of(claim[key], claim["large"] if key == "outer" else q) for key in ("left", "right", "outer", "inner", "of") if key in claim]
    if kind == "search":
        bound = claim["distance"]
    elif kind == "alternant":
        bound = claim["r"] + 1
    elif kind == "uuv":
        bound = min(2 * parts[0], parts[1])
    elif kind == "sum":
        bound = min(parts)
    elif kind in ("product", "concat"):
        bound = parts[0] * parts[1]
    elif kind == "puncture":
        bound = max(1, parts[0] - len(claim["places"]))
    elif kind == "extend":
        bound = parts[0] + (parts[0] % 2 if q == 2 else 0)
    else:
        bound = parts[0]
    return min(bound, MOST_BOUND)


class Asked:
    """The program, the budget that it gets, and what it said of searches."""

    def __init__(self, program, budget=BUDGET):
        self.program, self.budget, self.searches = program, budget, {}

    def answer(self, query, code, budget):
        script = f"{query}(GeneratorMatCode({reference.text_of(code.rows)},GF({code.size})));"
        done = subprocess.run([self.program, "run", f"budget={budget}"], input=script.encode(), capture_output=True, check=False)
        if done.returncode:
            raise NoTree(f"{self.program} ended with status {done.returncode}: {done.stderr.decode('utf-8', 'replace').strip()[-200:]}")
        return done.stdout.decode()

    def search(self, code):
        """The claim by a search of a code of dimension 1 at least."""
        key = (code.size, reference.text_of(code.rows))
        if key not in self.searches:
            line = self.answer("Certificate", code, self.budget)
            if not line.startswith("{"):
                made = getattr(code, "made", ("a code",))[0]
                raise NoTree(f"the search for {made}, [{code.length},{len(code.rows)}] over GF({code.size}), says: {line.strip()}")
            said = json.loads(line)
            self.searches[key] = {"kind": "search"} | {key: said[key] for key in ("by", "distance", "rows", "sets", "word")}
        return self.searches[key]

    def word(self, code, bound):
        """A word of the weight of the bound, or the best one that a search found: more blocks at a time."""
        best = None
        for budget in sorted({min(self.budget, few) for few in (1, 64, 4096, self.budget)}):
            weight, word = DISTANCE.match(self.answer("MinimumDistance", code, budget)).groups()
            best = int(weight), json.loads(word)
            if best[0] <= bound:
                break
        return best


def same_code(a, b):
    return a.rows == b.rows


def of_form(code):
    """The alternant claim of a code, with as many checks as it meets. A binary Goppa code whose polynomial has no double zero is that
    of the square too."""
    form = code.form
    field = reference.arithmetic(form.locator)
    forms = [form]
    if code.size == 2:
        forms.append(Form(form.locator, form.points, [field.products[y][y] for y in form.multipliers], 2 * form.r))
    best = form
    for tried in forms:
        if tried.r > code.length or not same_code(reference.code_of_form(code.size, tried), code):
            continue
        while tried.r < code.length:
            more = Form(tried.locator, tried.points, tried.multipliers, tried.r + 1)
            if not same_code(reference.code_of_form(code.size, more), code):
                break
            tried = more
        best = max(best, tried, key=lambda f: f.r)
    return {"kind": "alternant", "locator": best.locator, "points": best.points, "multipliers": best.multipliers, "r": best.r}


def reed_muller_claim(order, variables, ask):
    """A Reed-Muller code as (u|u+v), down to length 2; one of order 0 is a repetition code."""
    if order == 0 or variables <= 1:
        return ask.search(reference.reed_muller_code(min(order, variables), variables))
    return {"kind": "uuv", "left": reed_muller_claim(order, variables - 1, ask), "right": reed_muller_claim(order - 1, variables - 1, ask)}


def even_weight_claim(code, of, ask):
    """If the bound of the whole code is odd, the words of even weight have one more: they are those of the extended code that end
    with 0, without this symbol."""
    claim = claim_of(of, ask)
    if bound_of(claim, 2) % 2 and of.length < LONGEST:
        return {"kind": "shorten", "of": {"kind": "extend", "of": claim}, "places": [of.length]}
    return {"kind": "subcode", "of": claim, "rows": code.rows}


def null_claim(code, ask):
    """The zero word alone: a subcode of no rows of a code with a great bound."""
    return {"kind": "subcode", "of": ask.search(reference.repetition_code(code.length, FieldValue(code.size))), "rows": []}


PAIRS = {"UUVCode": "uuv", "DirectSumCode": "sum", "DirectProductCode": "product"}
PLACES = {"PuncturedCode": "puncture", "ShortenedCode": "shorten"}


def claim_of(code, ask):
    """The claim of a code by how it was made."""
    name, arguments = getattr(code, "made", ("", ()))
    if not code.rows:
        return null_claim(code, ask)
    if code.form is not None:
        return of_form(code)
    if name in PAIRS:
        left, right = (claim_of(part, ask) for part in arguments)
        return {"kind": PAIRS[name], "left": left, "right": right}
    if name == "ConcatenatedCode":
        outer, inner = (claim_of(part, ask) for part in arguments)
        return {"kind": "concat", "large": arguments[0].size, "outer": outer, "inner": inner}
    if name in PLACES:
        return {"kind": PLACES[name], "of": claim_of(arguments[0], ask), "places": arguments[1]}
    if name == "ExtendedCode":
        return {"kind": "extend", "of": claim_of(arguments[0], ask)}
    if name == "EvenWeightSubcode":
        return even_weight_claim(code, arguments[0], ask)
    if name == "IntersectionCode":
        of = max((claim_of(part, ask) for part in arguments), key=lambda claim: bound_of(claim, code.size))
        return {"kind": "subcode", "of": of, "rows": code.rows}
    if name == "ReedMullerCode":
        return reed_muller_claim(*arguments, ask)
    return ask.search(code)


def certificate_of(code, ask):
    """The certificate, as a line."""
    if not code.rows:
        raise NoTree("the code has dimension 0, so that there is no minimum distance")
    claim = claim_of(code, ask)
    bound = bound_of(claim, code.size)
    weight, word = ask.word(code, bound)
    if weight != bound:
        raise NoTree(f"the tree proves that the distance is {bound} at least, and the lightest word found has weight {weight}")
    parts = {"version": 2, "field": code.size, "claim": claim, "word": word, "distance": bound}
    return json.dumps(parts, separators=(",", ":"), sort_keys=True)


# ---- the command line --------------------------------------------------------------------------------------------------

def settings_of(arguments):
    """The program and the budget; None if an argument is neither."""
    program, budget = None, BUDGET
    for argument in arguments:
        if found := re.fullmatch(r"budget=(\d{1,13})", argument):
            budget = int(found[1])
        elif program is None and not argument.startswith("-"):
            program = argument
        else:
            return None
    return program or os.environ.get("CODES") or str(TOP / "codes"), budget


def main():
    if "--help" in sys.argv[1:] or "-h" in sys.argv[1:]:
        print(__doc__.strip())
        return 0
    settings = settings_of(sys.argv[1:])
    if settings is None:
        print("usage: tree_certificate.py [PROGRAM] [budget=N] < SCRIPT", file=sys.stderr)
        return 2
    try:
        print(certificate_of(code_of_script(sys.stdin.buffer.read()), Asked(*settings)))
        return 0
    except (NoTree, OSError) as why:
        print(f"tree_certificate.py: {why}", file=sys.stderr)
        return 1


if __name__ == "__main__":
    sys.exit(main())
