"""The part of the language of GAP that tools/gap/codes.g and with_guava.g use, for gap_stand_in.py.

`run(source, functions)` runs a text. `functions` holds the functions of GAP by their names, and what the text gives to names of its own.
Numbers, truth values, lists and records are Python's, strings are `Text`, and an object with components, as C!.name, has them in `parts`.
"""
import re

# --- reading: a tree of tuples, whose first part says what it is

TOKEN = re.compile(r"""\s+|\#[^\n]*|(?P<text>"(?:\\.|[^"\\])*")|(?P<sign>'(?:\\.|[^'\\])')|(?P<number>\d+)|(?P<name>[A-Za-z_]\w*)"""
                   r"""|(?P<mark>:=|<>|<=|>=|->|!\.|\.\.\.|\.\.|;;|[-+*/^=<>()\[\],;.])""")
WORDS = set("function end local if then elif else fi for in do od while return and or not mod rec QUIT true false".split())
ESCAPES = {"n": "\n", "t": "\t"}
END = ("end", None)


class GapError(Exception):
    """An error of GAP: in the text, or by `Error`."""


def tokens(source):
    place, found = 0, []
    while place < len(source):
        match = TOKEN.match(source, place)
        if not match:
            raise GapError(f"no token: {source[place:place + 20]!r}")
        place = match.end()
        kind = match.lastgroup
        if kind == "number":
            found.append((kind, int(match.group())))
        elif kind in ("text", "sign"):
            found.append((kind, re.sub(r"\\(.)", lambda m: ESCAPES.get(m.group(1), m.group(1)), match.group()[1:-1], flags=re.S)))
        elif kind:
            found.append(("mark" if match.group() in WORDS or kind == "mark" else kind, match.group()))
    return found + [END]


class Reader:
    def __init__(self, source):
        self.tokens, self.place = tokens(source), 0

    def peek(self, *marks):
        kind, value = self.tokens[self.place]
        return kind == "mark" and value in marks

    def take(self, kind):
        found, value = self.tokens[self.place]
        if found != kind:
            raise GapError(f"expected a {kind}, found {value!r}")
        self.place += 1
        return value

    def skip(self, *marks):
        """Takes one of these marks, if it is next."""
        if self.peek(*marks):
            self.place += 1
            return self.tokens[self.place - 1][1]
        return None

    def need(self, *marks):
        found = self.skip(*marks)
        if found is None:
            raise GapError(f"expected {' or '.join(marks)}, found {self.tokens[self.place][1]!r}")
        return found

    # statements

    def program(self):
        body = []
        while self.tokens[self.place] != END and not self.skip("QUIT"):
            body.append(self.statement())
        return body

    def block(self, *ends):
        body = []
        while not self.peek(*ends):
            body.append(self.statement())
        return body

    def statement(self):
        made = self.compound() if self.peek("if", "for", "while", "local", "return") else self.simple()
        self.need(";", ";;")
        return made

    def simple(self):
        target = self.expression()
        return ("set", target, self.expression()) if self.skip(":=") else ("do", target)

    def compound(self):
        word = self.need("if", "for", "while", "local", "return")
        if word == "local":
            return ("local", self.names())
        if word == "return":
            return ("return", None if self.peek(";") else self.expression())
        if word == "if":
            return ("if", self.branches())
        variable = None
        if word == "for":
            variable = self.take("name")
            self.need("in")
        over = self.expression()
        self.need("do")
        body = self.block("od")
        self.need("od")
        return (word, variable, over, body)

    def branches(self):
        found = []
        while True:
            condition = self.expression()
            self.need("then")
            found.append((condition, self.block("elif", "else", "fi")))
            after = self.need("elif", "else", "fi")
            if after == "else":
                found.append((("value", True), self.block("fi")))
                after = self.need("fi")
            if after == "fi":
                return found

    def names(self):
        found = [self.take("name")]
        while self.skip(","):
            found.append(self.take("name"))
        return found

    # expressions, the loosest first

    LEVELS = (("or",), ("and",), None, ("=", "<>", "<", ">", "<=", ">=", "in"), ("+", "-"), ("*", "/", "mod"), ("^",))

    def expression(self, level=0):
        if level == len(self.LEVELS):
            return self.postfix()
        if self.LEVELS[level] is None:
            return ("not", self.expression(level)) if self.skip("not") else self.expression(level + 1)
        left = ("negative", self.expression(level + 1)) if level == 5 and self.skip("-") else self.expression(level + 1)
        while (mark := self.skip(*self.LEVELS[level])):
            left = ("binary", mark, left, self.expression(level + 1))
        return left

    def postfix(self):
        made = self.primary()
        while (mark := self.skip("(", "[", ".", "!.")):
            if mark == "(":
                made = ("call", made, self.listed(")"))
            elif mark == "[":
                made = ("at", made, self.expression())
                self.need("]")
            elif self.skip("("):
                made = ("part", made, self.expression())
                self.need(")")
            else:
                made = ("part", made, ("value", self.take("name")))
        return made

    def listed(self, end):
        found = []
        while not self.skip(end):
            found.append(self.expression())
            if not self.peek(end):
                self.need(",")
        return found

    def primary(self):
        kind, value = self.tokens[self.place]
        self.place += 1
        if kind in ("number", "sign"):
            return ("value", value)
        if kind == "text":
            return ("text", value)
        if kind == "name":
            return ("lambda", [value], False, [("return", self.expression())]) if self.skip("->") else ("name", value)
        if value in ("true", "false"):
            return ("value", value == "true")
        if value == "(":
            made = self.expression()
            self.need(")")
            return made
        if value == "[":
            return self.list_or_range()
        if value == "rec":
            return self.record()
        if value == "function":
            return self.function()
        raise GapError(f"no expression begins with {value!r}")

    def list_or_range(self):
        if self.skip("]"):
            return ("list", [])
        first = self.expression()
        if self.skip(".."):
            made = ("range", first, self.expression())
            self.need("]")
            return made
        return ("list", [first] + (self.listed("]") if self.skip(",") else self.listed_end("]")))

    def listed_end(self, end):
        self.need(end)
        return []

    def record(self):
        self.need("(")
        parts = []
        while not self.skip(")"):
            name = str(self.tokens[self.place][1])
            self.place += 1
            self.need(":=")
            parts.append((name, self.expression()))
            if not self.peek(")"):
                self.need(",")
        return ("rec", parts)

    def function(self):
        self.need("(")
        names, spread = [], False
        while not self.skip(")"):
            names.append(self.take("name"))
            spread = bool(self.skip("..."))
            self.skip(",")
        body = self.block("end")
        self.need("end")
        return ("lambda", names, spread, body)


# --- values

class Text:
    """A string, which a stream may append to."""

    def __init__(self, text):
        self.text = text

    def __str__(self):
        return self.text

    __repr__ = __str__

    def __eq__(self, other):
        return str(other) == self.text if isinstance(other, (Text, str)) else other == [] and self.text == ""

    __hash__ = None

    def __len__(self):
        return len(self.text)

    def __iter__(self):
        return iter(self.text)

    def __getitem__(self, index):
        return self.text[index]


class Fail:
    def __repr__(self):
        return "fail"


FAIL = Fail()
def same(a, b):
    """Whether two values are equal; Python would take true for 1."""
    return isinstance(a, bool) == isinstance(b, bool) and a == b


OPERATIONS = {
    "+": lambda a, b: a + b, "-": lambda a, b: a - b, "mod": lambda a, b: a % b, "^": lambda a, b: a ** b, "=": same, "<>": lambda a, b: not same(a, b),
    "<": lambda a, b: a < b, ">": lambda a, b: a > b, "<=": lambda a, b: a <= b, ">=": lambda a, b: a >= b, "in": lambda a, b: any(same(a, c) for c in b) if isinstance(b, list) else a in b,
    "*": lambda a, b: [OPERATIONS["*"](x, b) for x in a] if isinstance(a, list) else a * b,
}


# --- evaluation

class Names:
    """The names of a function, and those of the functions around it; the outermost are for all."""

    def __init__(self, values, around=None):
        self.values, self.around = values, around

    def of(self, name):
        names = self
        while name not in names.values and names.around:
            names = names.around
        return names.values

    def get(self, name):
        values = self.of(name)
        if values.get(name) is None:
            raise GapError(f"Variable: '{name}' must have a value")
        return values[name]


class Returned(Exception):
    pass


def function_of(tree, names):
    _, parameters, spread, body = tree

    def called(*arguments):
        values = list(arguments)
        if spread:
            fixed = len(parameters) - 1
            values = values[:fixed] + [values[fixed:]] if len(values) >= fixed else values
        if len(values) != len(parameters):
            raise GapError(f"Function: number of arguments must be {len(parameters)} (not {len(arguments)})")
        inner = Names(dict(zip(parameters, values)), names)
        try:
            for statement in body:
                done(statement, inner)
        except Returned as returned:
            return returned.args[0]
        return None
    return called


def parts_of(value):
    return value if isinstance(value, dict) else value.parts


def is_bound(tree, names):
    if tree[0] == "part":
        return str(value_of(tree[2], names)) in parts_of(value_of(tree[1], names))
    return names.of(tree[1]).get(tree[1]) is not None


def truth(value):
    if not isinstance(value, bool):
        raise GapError("<expr> must be 'true' or 'false'")
    return value


def value_of(tree, names):
    kind = tree[0]
    if kind == "value":
        return tree[1]
    if kind == "text":
        return Text(tree[1])
    if kind == "name":
        return names.get(tree[1])
    if kind == "list":
        return [value_of(part, names) for part in tree[1]]
    if kind == "range":
        return list(range(value_of(tree[1], names), value_of(tree[2], names) + 1))
    if kind == "rec":
        return {name: value_of(part, names) for name, part in tree[1]}
    if kind == "lambda":
        return function_of(tree, names)
    if kind == "not":
        return not truth(value_of(tree[1], names))
    if kind == "negative":
        return -value_of(tree[1], names)
    if kind == "call":
        return called(tree, names)
    if kind == "at":
        return element_of(value_of(tree[1], names), value_of(tree[2], names))
    if kind == "part":
        return part_of(tree, names)
    _, mark, left, right = tree
    if mark in ("and", "or"):
        first = truth(value_of(left, names))
        return truth(value_of(right, names)) if first == (mark == "and") else first
    return OPERATIONS[mark](value_of(left, names), value_of(right, names))


def called(tree, names):
    if tree[1] == ("name", "IsBound"):
        return is_bound(tree[2][0], names)
    function = value_of(tree[1], names)
    return function(*[value_of(part, names) for part in tree[2]])


def element_of(values, index):
    if not 1 <= index <= len(values):
        raise GapError(f"List Element: <list>[{index}] must have an assigned value")
    return values[index - 1]


def part_of(tree, names):
    name, parts = str(value_of(tree[2], names)), parts_of(value_of(tree[1], names))
    if name not in parts:
        raise GapError(f"Record Element: '<rec>.{name}' must have an assigned value")
    return parts[name]


def assigned(target, value, names):
    if target[0] == "name":
        names.of(target[1])[target[1]] = value
    else:
        parts_of(value_of(target[1], names))[str(value_of(target[2], names))] = value


def done(statement, names):
    kind = statement[0]
    if kind == "do":
        value_of(statement[1], names)
    elif kind == "set":
        assigned(statement[1], value_of(statement[2], names), names)
    elif kind == "local":
        names.values.update({name: None for name in statement[1]})
    elif kind == "return":
        raise Returned(None if statement[1] is None else value_of(statement[1], names))
    elif kind == "if":
        body = next((body for condition, body in statement[1] if truth(value_of(condition, names))), [])
        for inner in body:
            done(inner, names)
    elif kind == "for":
        for value in value_of(statement[2], names):
            names.of(statement[1])[statement[1]] = value
            for inner in statement[3]:
                done(inner, names)
    else:
        while truth(value_of(statement[2], names)):
            for inner in statement[3]:
                done(inner, names)


def run(source, functions):
    for statement in Reader(source).program():
        done(statement, Names(functions))


def value_in(source, functions):
    """The value of an expression."""
    return value_of(Reader(source).expression(), Names(functions))
