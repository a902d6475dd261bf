"""What is probably meant by a byte that begins no token (fault 40), or by a token that may not stand where it does (fault 41).

`of_byte(script, place)` and `of_token(script, place)` give a sentence, or an empty one.
"""
import re
import unicodedata

import foreign_names
from reference import CALLS, QUERIES

MARKS = {b"\xef\xbb\xbf": "the file begins with a byte order mark: save it as UTF-8 without one",
         b"\xff\xfe": "the file is UTF-16: save it as UTF-8", b"\xfe\xff": "the file is UTF-16: save it as UTF-8"}
SIGNS = {
    "=": "a name is given a value with `:=`; whether two codes are equal is said by `IsSameCode(C, D)`",
    ":": "`:` stands only in `:=`, without a blank",
    "+": "there are no sums here: write the number that it gives; `AddWords` adds two words, and for the sum of two codes see docs/FROM_GUAVA.md",
    "*": "there are no products here: write the number or the word that it gives",
    "'": "there are no characters here: a word is a list of numbers, as [1,0,1]",
    "{": "a list is in brackets `[` and `]`",
    "}": "a list is in brackets `[` and `]`",
    "<": "there are no comparisons, and no constructors with `<` and `>`",
    ">": "there are no comparisons; a prompt as `gap>` is no part of a script",
    "%": "comments begin with `#`",
    "_": "a name begins with a letter",
    "`": "back quotes of a document are no part of a script",
    "|": "there is no such sign here",
    "\\": "a statement may go on over several lines without a sign at their ends",
}
LOOPS = b"for while if then else fi do od end function return local rec def import from print in and or not let var quit".split()


def power(script, place):
    before = re.search(rb"(\d+|\))\s*$", script[:place])
    after = re.match(rb"\^\s*(\d{1,2})(?!\d)", script[place:])
    if re.search(rb"Z\(\d+\)\s*$", script[:place]):
        return "write the number of the element; docs/FROM_GUAVA.md lists the powers of `Z(q)`"
    if before and after and before.group(1) != b")" and len(before.group(1)) < 4 and int(after.group(1)) < 64:
        base, exponent = int(before.group(1)), int(after.group(1))
        return f"there are no powers here: write {base ** exponent}"
    return "there are no powers here: write the number"


def minus(script, place):
    field = re.search(rb"GF\((\d{1,3})\)", script[place:])
    number = re.match(rb"-\s*(\d{1,6})(?!\d)", script[place:])
    if field and number:
        size, value = int(field.group(1)), int(number.group(1))
        if size in (2, 3, 5, 7, 11, 13):
            return f"there are no negative numbers: over GF({size}) -{value} is {-value % size}"
    return "there are no negative numbers and no differences: write the element, which is below the size of the field"


def string(script, place):
    digits = re.match(rb'"(\d{1,40})"', script[place:])
    written = ", here [" + ",".join(digits.group(1).decode()) + "]" if digits else ", as [1,0,1]"
    return "there are no strings: a word is a list of numbers" + written


def slash(script, place):
    return "comments begin with `#`" if script[place + 1:place + 2] in (b"/", b"*") else "there are no quotients here"


def point(script, place):
    """A range, a fraction, or a part of a value: a name after the dot may be known."""
    if script[place + 1:place + 2] == b".":
        return "there are no ranges: write each number"
    name = re.match(rb"\w*", script[place + 1:]).group().decode()
    if name in CALLS or name in QUERIES:
        return f"there are no parts of values: write `{name}(..)` alone"
    return foreign_names.said_of(name) or "numbers are whole, and there are no parts of values"


BY_CONTEXT = {"^": power, "-": minus, '"': string, "/": slash, ".": point}


def character(script, place):
    """The character whose first byte is at the place, or None if none is."""
    for length in range(1, 5):
        try:
            return script[place:place + length].decode("utf-8")
        except UnicodeDecodeError:
            continue
    return None


def of_character(sign):
    code = f"U+{ord(sign):04X}"
    name = unicodedata.name(sign, "without a name")
    if unicodedata.category(sign)[0] == "L":
        return f"a name has the letters A to Z and a to z, without accents; this is {code}, {name}"
    if unicodedata.category(sign) in ("Zs", "Cf", "Zl", "Zp"):
        return f"this is no blank but {code}, {name}: write a space in its place, or nothing"
    if unicodedata.category(sign) == "Cc":
        return f"byte {ord(sign)} is no blank: blanks are spaces, tabs and line ends"
    return f"this is {code}, {name}; outside comments a script has plain signs alone"


def of_byte(script, place):
    for mark, sentence in MARKS.items():
        if place == 0 and script.startswith(mark):
            return sentence
    sign = character(script, place)
    if sign is None:
        return f"byte {script[place]} is no part of a text in UTF-8"
    if sign in BY_CONTEXT:
        return BY_CONTEXT[sign](script, place)
    if sign in SIGNS:
        return SIGNS[sign]
    return "there is no such sign here" if 32 < ord(sign) < 127 else of_character(sign)


def of_token(script, place):
    before = script[:place].rstrip()
    if script[place:place + 1] == b";" and before.endswith(b";"):
        return "one `;` is enough"
    call = re.search(rb"(\w+)$", before)
    name = call.group().decode() if call else ""
    if script[place:place + 3] == b"in " and b"for" not in before.split(b";")[-1].split():
        return "whether x is a word of C is asked by `IsCodeword(C, x)`"
    if (name in CALLS or name in QUERIES) and re.match(rb"[\w\[]", script[place:]):
        return f"the arguments of `{name}` stand in parentheses, as `{name}(..)`"
    words = [re.match(rb"[A-Za-z]*", script[place:]).group(), re.search(rb"[A-Za-z]*$", before).group()]
    if any(word in LOOPS for word in words):
        return "there are no loops, conditions or functions: a script is a list of statements, `name := call;` or `call;`"
    return ""
