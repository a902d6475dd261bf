#!/usr/bin/env python3
"""Scripts made at random from a fixed seed, to compare the program with the reference program on.

    tools/random_scripts.py KIND COUNT

prints COUNT scripts of that kind, each as a Python literal; `tools/compare.py` runs them. The kinds:

    valid      statements that mostly give values: constructors with small arguments, queries on what was assigned
    refused    the same with arguments out of range: uneven rows, entries too large, large fields, bad lengths
    unfit      wrong kinds, wrong counts, unknown names, calls in places where they may not stand
    cut        scripts of the three kinds above, cut off at some byte
    altered    the same, with a few bytes changed, left out or put in
    noise      bytes, most of them from those that scripts are made of, and deep nesting and wide numbers
    searched   distances, certificates and weight distributions of codes of up to 30 symbols, and of codes made from them
    near       nearest words in codes of up to 30 symbols
"""
import random
import sys
from dataclasses import dataclass, replace

from linear_algebra import Field

SIZES = (2, 3, 4, 5, 7, 8, 9, 11, 13, 16)
LARGE_SIZES = (25, 27, 32, 64, 81, 128, 243, 256)
NAMES = ("C", "D", "x", "rows", "F", "a_1")
UNKNOWN = ("Distance", "NearWord", "BchCode", "Extended", "Foo", "hammingCode", "GF_", "Golay", "z")
CALLS = ("GF", "Weight", "Dimension", "DualCode", "IsCodeword", "Decode", "HammingCode", "ReedMullerCode", "CheckMat", "BCHCode", "GoppaCode",
         "ExtendedCode", "UUVCode", "PuncturedCode", "BinaryGolayCode", "NearestWord", "Syndrome", "IsSubcode", "AddWords", "Encode", "AugmentedCode",
         "TraceCode", "FillErasures", "CirculantCode", "QuasiCyclicCode", "ConstructionXCode", "ResidueCode")
SIGNS = "()[],;:=#_ \n\tab19GF"
KINDS = ("valid", "refused", "unfit", "cut", "altered", "noise", "searched", "near")


@dataclass
class Made:
    """The text of a code, with its length, the size of its field and one of its words, as far as they are known."""
    text: str
    length: int
    size: int
    word: list

    def called(self, name):
        return replace(self, text=name)


class Maker:
    """Makes expressions of a kind. `faults` says how often an argument is out of range, `misfits` how often an expression
    is of the wrong kind."""

    def __init__(self, seed, faults=0.0, misfits=0.0):
        self.source, self.faults, self.misfits = random.Random(seed), faults, misfits
        self.names = {}  # what was assigned to a name: a code, or the kind of another value

    def chance(self, p):
        return self.source.random() < p

    def below(self, n):
        return int(self.source.random() * n)

    def pick(self, items):
        return items[self.below(len(items))]

    # -- arguments

    def size(self):
        return self.pick((2, 2, 2, 3, 3, 4) + SIZES)

    def field(self, size):
        if self.chance(self.faults / 3):
            size = self.pick(LARGE_SIZES + (0, 1, 6, 10, 17, 2**32, 2**64 - 1))
        return f"GF({size})"

    def length(self):
        if self.chance(self.faults):
            return self.pick((0, 256, 257, 1000, 2**64 - 1))
        return self.pick((1, 2, 3, 4, 5, 6, 7, 8, 12, 31, 255)) if self.chance(0.2) else 1 + self.below(9)

    def row(self, size, length):
        if self.chance(self.faults / 4):
            length = self.below(length + 3)
        entries = [0 if self.chance(0.35) else self.below(size) for _ in range(length)]
        if length and self.chance(self.faults / 4):
            entries[self.below(length)] = self.pick((size, size + 1, 255, 256, 2**64 - 1))
        return entries

    def matrix(self, size, length, most):
        count = 0 if self.chance(self.faults / 4) else 1 + self.below(most)
        return [self.row(size, length) for _ in range(count)]

    def text(self, value):
        if isinstance(value, list):
            blank = " " if self.chance(0.1) else ""
            return "[" + ("," + blank).join(self.text(a) for a in value) + "]"
        return ("0" if self.chance(0.02) else "") + str(value)

    # -- codes

    def code(self, depth=2):
        kept = [x for x in sorted(self.names) if isinstance(self.names[x], Made)]
        if kept and self.chance(0.5):
            x = self.pick(kept)
            return self.names[x].called(x)
        if depth and self.chance(0.25):
            inner = self.code(depth - 1)
            return Made(f"DualCode({inner.text})", inner.length, inner.size, [0] * min(inner.length, 300))
        if depth and self.chance(0.4):
            return self.combined(depth)
        return self.cyclic_or_formed() if self.chance(0.3) else self.constructed()

    def zeros(self, text, length, size):
        return Made(text, length, size, [0] * min(length, 300))

    def over(self, size, length):
        """A code of this length over this field, or sometimes another one."""
        if self.chance(self.faults / 2):
            return self.constructed()
        call = self.pick(("RepetitionCode", "WholeSpaceCode", "NullCode", "GeneratorMatCode", "GeneratorMatCode"))
        if call == "GeneratorMatCode" and length < 10:
            return self.zeros(f"{call}({self.text([self.row(size, length) for _ in range(1 + self.below(3))])},GF({size}))", length, size)
        return self.zeros(f"{'WholeSpaceCode' if call == 'GeneratorMatCode' else call}({length},GF({size}))", length, size)

    def coordinates(self, length):
        places = [p for p in range(min(length, 12)) if self.chance(0.3)][:max(0, length - 1)]
        if self.chance(self.faults):
            return self.pick((places + places[-1:], places[::-1], places + [length], list(range(min(length, 300))), [2**64 - 1]))
        return places

    def combined(self, depth):
        call = self.pick(("ExtendedCode", "PuncturedCode", "ShortenedCode", "EvenWeightSubcode", "DirectSumCode", "UUVCode",
                          "DirectProductCode", "IntersectionCode", "ConcatenatedCode", "UnionCode", "AugmentedCode", "TraceCode",
                          "SubfieldSubcode", "ConstructionXCode", "ResidueCode"))
        if call == "ConstructionXCode":
            return self.with_tails()
        if call == "ResidueCode":
            return self.off_support()
        if call == "ConcatenatedCode":
            size, degree = self.pick(((2, 1), (2, 2), (2, 3), (2, 4), (3, 1), (3, 2), (4, 1), (4, 2), (5, 1)))
            outer = self.over(size**degree, 1 + self.below(5))
            degree = self.below(4) + 1 if self.chance(self.faults) else degree
            inner = self.pick((f"WholeSpaceCode({degree},GF({size}))", f"DualCode(RepetitionCode({degree + 1},GF({size})))"))
            return self.zeros(f"{call}({outer.text},{inner})", outer.length * degree, size)
        a = self.code(depth - 1)
        if call in ("PuncturedCode", "ShortenedCode"):
            places = self.coordinates(a.length)
            return self.zeros(f"{call}({a.text},{self.text(places)})", max(1, a.length - len(places)), a.size)
        if call in ("TraceCode", "SubfieldSubcode"):
            inside = [q for q in SIZES if any(q**s == a.size for s in range(1, 5))]
            size = self.pick(inside) if inside and not self.chance(self.faults) else self.size()
            return self.zeros(f"{call}({a.text},{self.field(size)})", a.length, size)
        if call == "AugmentedCode":
            rows = [self.row(a.size, min(a.length, 300)) for _ in range(self.below(3))]
            return self.zeros(f"{call}({a.text},{self.text(rows)})", a.length, a.size)
        if call == "ExtendedCode" or (call == "EvenWeightSubcode" and (a.size == 2 or self.chance(self.faults))):
            return self.zeros(f"{call}({a.text})", a.length + (call == "ExtendedCode"), a.size)
        if call == "EvenWeightSubcode":
            return a
        same = call in ("UUVCode", "IntersectionCode", "UnionCode") and not self.chance(self.faults)
        b = self.over(a.size, a.length if same else 1 + self.below(6))
        length = {"DirectProductCode": a.length * b.length, "IntersectionCode": a.length, "UnionCode": a.length}.get(call, a.length + b.length)
        return self.zeros(f"{call}({a.text},{b.text})", length, a.size)

    def with_tails(self):
        """Construction X of a whole space or a code by rows, of a subcode and of a code for the tails, which fit most of the time."""
        size, n = self.size(), 2 + self.below(5)
        whole, k = self.pick(((f"WholeSpaceCode({n},GF({size}))", n), (f"DualCode(RepetitionCode({n},GF({size})))", n - 1)))
        parts = [(f"NullCode({n},GF({size}))", 0), (whole, k)]
        parts += [(f"RepetitionCode({n},GF({size}))", 1)] if k == n else []
        parts += [(f"GeneratorMatCode([{self.text([1, 1] + [0] * (n - 2))}],GF({size}))", 1)] if k == n or size in (2, 4, 8, 16) else []
        part, j = self.pick(parts)
        if self.chance(self.faults):
            part = self.over(size, n + self.below(2)).text
        left = max(0, k - j + (self.pick((-1, 1)) if self.chance(self.faults) else 0))
        length = left if left and self.chance(0.5) else left + 1
        tails = f"WholeSpaceCode({length},GF({size}))" if length == left else f"DualCode(RepetitionCode({length},GF({size})))"
        if self.chance(self.faults / 2):
            tails = self.over(size, self.length()).text
        return self.zeros(f"ConstructionXCode({whole},{part},{tails})", n + length, size)

    def off_support(self):
        """The residual code of a code by rows at one of its rows, which has a 0 most of the time, or of some code at the zero word."""
        if self.chance(0.2):
            a = self.code(0)
            word = self.row(a.size, min(a.length, 300)) if self.chance(self.faults) else [0] * min(a.length, 300)
            return self.zeros(f"ResidueCode({a.text},{self.text(word)})", a.length, a.size)
        size, n = self.size(), 2 + self.below(6)
        rows = self.matrix(size, n, 3)
        word = list(self.pick(rows)) if rows else [0] * n
        if self.chance(self.faults):
            word = self.pick((word + [0], word[1:], word[1:] + [size], self.row(size, n), [1] * n))
        return self.zeros(f"ResidueCode(GeneratorMatCode({self.text(rows)},{self.field(size)}),{self.text(word)})", max(1, word.count(0)), size)

    def by_shifts(self):
        size, n = self.size(), 1 + self.below(6)
        given = self.pick((0, n + 1, 256, 2**64 - 1)) if self.chance(self.faults / 2) else n
        if self.chance(0.4):
            return self.zeros(f"CirculantCode({self.text(self.row(size, n))},{given},{self.field(size)})", n, size)
        words = self.matrix(size, n, 3)
        return self.zeros(f"QuasiCyclicCode({self.text(words)},{given},{self.field(size)})", max(1, n * len(words)), size)

    def cyclic_or_formed(self):
        way = self.below(8)
        if way == 7:
            return self.by_shifts()
        if way == 0:
            call, length, size = self.pick((("BinaryGolayCode", 23, 2), ("TernaryGolayCode", 11, 3), ("ExtendedBinaryGolayCode", 24, 2),
                                            ("ExtendedTernaryGolayCode", 12, 3)))
            return self.zeros(f"{call}()", length, size)
        if way == 1:
            call = self.pick(("GeneratorPolCode", "CheckPolCode"))
            size, length, x = self.pick(((2, 7, [1, 1, 0, 1]), (2, 15, [1, 1, 0, 0, 1]), (3, 8, [2, 1]), (4, 5, [1, 2, 1]), (2, 6, [1, 1, 1]),
                                         (3, 4, [1, 0, 1]), (5, 4, [3, 1]), (9, 8, [6, 1]), (2, 9, [1] * 9)))
            x = self.row(size, self.below(4)) if self.chance(self.faults) else x + [0] * self.below(2)
            length = self.pick((0, 4, 256)) if self.chance(self.faults) else length * (1 + self.below(2))
            return self.zeros(f"{call}({self.text(x)},{length},{self.field(size)})", max(1, length), size)
        if way == 2:
            length = self.pick((0, 5, 6, 14, 24, 255)) if self.chance(self.faults) else self.pick((1, 2, 3, 4, 6, 7, 8, 10, 12, 15))
            distance = self.pick((0, length + 1, 2**64 - 1)) if self.chance(self.faults) else 1 + self.below(max(1, length))
            return self.zeros(f"ReedSolomonCode({length},{distance})", max(1, length), length + 1)
        if way == 4:
            size, length = self.pick(((2, 7), (2, 17), (2, 23), (3, 11), (3, 13), (4, 3), (4, 5), (5, 11), (7, 3), (8, 7), (9, 5), (11, 5), (13, 3), (16, 7)))
            length = self.pick((0, 1, 2, 9, 15, 19, 256, 2**64 - 1)) if self.chance(self.faults) else length
            return Made(f"QRCode({length},{self.field(size)})", max(1, length), size, [1] * min(max(1, length), 300))
        if way == 3:
            size = self.pick((2, 2, 2, 3, 4, 5, 8, 9, 16))
            fine = {2: (1, 3, 5, 7, 9, 15, 21, 31, 63), 3: (1, 2, 4, 8, 13, 20, 26, 40), 4: (1, 3, 5, 15, 7, 9, 21), 5: (1, 2, 3, 4, 6, 8, 12, 24),
                    8: (1, 7, 9, 21), 9: (1, 2, 4, 5, 8, 10, 16), 16: (3, 5, 15)}[size]
            length = self.pick((0, 4, 10, 14, 256)) if self.chance(self.faults) else self.pick(fine)
            distance = self.pick((0, 1, length + 1)) if self.chance(self.faults) else min(max(1, length), 2 + self.below(6))
            first = "" if self.chance(0.5) else f"{self.pick((0, 1, 2, 3, length, length + 1, 2**64 - 1))},"
            return self.zeros(f"BCHCode({length},{first}{distance},{self.field(size)})", max(1, length), size)
        return self.by_points(way == 5)

    def by_points(self, goppa):
        small, large = self.pick(((2, 8), (2, 16), (2, 4), (3, 9), (4, 16), (5, 5), (3, 27), (5, 25), (2, 32), (2, 64), (7, 7)))
        if self.chance(self.faults / 3):
            small = self.pick((2, 3, 4, 25))
        points = sorted(range(large), key=lambda _: self.source.random())[:min(large, 1 + self.below(9))]
        if self.chance(self.faults / 2):
            points = self.pick(([], points + points[:1], points + [large], points + [256], [2**32] + points))
        if goppa:
            x = [self.below(large) for _ in range(1 + self.below(4))] + ([0] if self.chance(0.1) else [1])
            if self.chance(self.faults / 2):
                x = self.pick(([], [0], [1], [1, 256], [1, large], x + [0] * 300))
            return self.zeros(f"GoppaCode({self.text(x)},{self.text(points)},GF({large}),GF({small}))", max(1, len(points)), small)
        multipliers = [1 + self.below(large - 1) for _ in points]
        if points and self.chance(self.faults / 2):
            multipliers[self.below(len(points))] = self.pick((0, large, 256, 2**64 - 1))
        if self.chance(self.faults / 3):
            multipliers = multipliers + [1]
        r = self.pick((0, len(points) + 1, 2**64 - 1)) if self.chance(self.faults) else 1 + self.below(max(1, len(points)))
        return self.zeros(f"AlternantCode({r},{self.text(points)},{self.text(multipliers)},GF({large}),GF({small}))", max(1, len(points)), small)

    def constructed(self):
        size, length, way = self.size(), self.length(), self.below(8)
        if way < 3:
            return self.by_matrix(self.pick(("GeneratorMatCode", "GeneratorMatCode", "CheckMatCode")), size)
        if way == 6:
            faulty = self.chance(self.faults)
            r = self.pick((0, 1, 9, 64, 2**64 - 1)) if faulty else self.pick((2, 2, 2, 3, 3, 4))
            length = sum(size**i for i in range(min(r, 9)))
            return Made(f"HammingCode({r},{self.field(size)})", length, size, [int(size == 2)] * min(length, 300))
        if way == 7:
            m = self.pick((8, 63, 64, 2**64 - 1)) if self.chance(self.faults) else self.below(7)
            r = self.pick((m, m + 1, 2**64 - 1)) if self.chance(self.faults) else self.below(m % 7 + 1)
            length = 2 ** min(m, 8)
            return Made(f"ReedMullerCode({min(r, 2**64 - 1)},{m})", length, 2, [1] * length)
        call = self.pick(("RepetitionCode", "WholeSpaceCode", "NullCode"))
        word = [0 if call == "NullCode" else self.below(size)] * min(length, 300)
        return Made(f"{call}({length},{self.field(size)})", length, size, word)

    def by_matrix(self, call, size):
        length = 1 + self.below(9)
        rows = self.matrix(size, length, 5)
        word = self.pick(rows) if rows and call == "GeneratorMatCode" else [0] * length
        return Made(f"{call}({self.text(rows)},{self.field(size)})", length, size, word)

    # a word of the code, or, as often, any word
    def word(self, code):
        if self.chance(0.5):
            return self.text(code.word)
        return self.text(self.row(code.size, min(code.length, 300)))

    # -- expressions

    def expr(self, kind, depth=2):
        if self.chance(self.misfits):
            return self.misfit(depth)
        kept = [x for x in sorted(self.names) if self.names[x] == kind]
        if kept and self.chance(0.4):
            return self.pick(kept)
        if kind == "code":
            return self.code(depth).text
        if kind == "field":
            return self.field(self.size())
        if kind == "number":
            if depth and self.chance(0.4):
                call = self.pick(("Dimension", "WordLength", "Weight", "DistanceCodeword"))
                if call == "DistanceCodeword":
                    return f"{call}({','.join(self.two_words(3))})"
                return f"{call}({self.expr('numbers' if call == 'Weight' else 'code', depth - 1)})"
            return self.text(self.below(20))
        if kind == "numbers":
            code = self.code(depth - 1) if depth and self.chance(0.5) else None
            if code and (code.length <= (6 if code.size <= 4 else 3) or code.length > 20 and self.chance(0.1)):
                return f"Decode({code.text},{self.word(code)})"
            if depth and self.chance(0.5):
                return self.made_word(code or self.code(depth - 1))
            return self.text(self.row(self.size(), self.below(7)))
        if kind == "lists":
            if depth and self.chance(0.5):
                return f"{self.pick(('GeneratorMat', 'CheckMat'))}({self.expr('code', depth - 1)})"
            return self.text(self.matrix(self.size(), self.below(5), 3))
        code = self.code(depth)
        if self.chance(0.5):
            return self.told_of(code)
        return f"IsCodeword({code.text},{self.word(code)})"

    def two_words(self, size):
        """Two words of one length, or sometimes of two."""
        length = self.below(7)
        return [self.text(self.row(size, length)) for _ in range(2)]

    def made_word(self, code):
        """A syndrome, the message of a word, a codeword, a sum or a multiple."""
        if self.chance(0.5):
            return f"{self.pick(('Syndrome', 'InformationWord'))}({code.text},{self.word(code)})"
        if self.chance(0.4):
            rows = [self.row(2, 5) for _ in range(1 + self.below(3))]
            text = f"GeneratorMatCode({self.text(rows)},GF(2))"
            return f"Encode({text},{self.text(self.row(2, self.below(3) + 1))})"
        size = self.size()
        if self.chance(0.5):
            return f"AddWords({','.join(self.two_words(size))},{self.field(size)})"
        return f"ScaleWord({self.text(self.below(size + 1))},{self.text(self.row(size, self.below(7)))},{self.field(size)})"

    def told_of(self, code):
        """Whether a code lies in another one, or in its dual, is the same, its own dual or cyclic."""
        call = self.pick(("IsSubcode", "IsSameCode", "IsSelfOrthogonalCode", "IsSelfDualCode", "IsCyclicCode"))
        if call not in ("IsSubcode", "IsSameCode"):
            return f"{call}({code.text})"
        other = f"DualCode({code.text})" if self.chance(0.3) else self.over(code.size, code.length).text
        return f"{call}({code.text},{other})" if self.chance(0.5) else f"{call}({other},{code.text})"

    def misfit(self, depth):
        kinds = ("number", "numbers", "lists", "code", "field", "truth")
        way = self.below(6)
        if way == 0:
            return self.pick(UNKNOWN)
        if way == 1 or not depth:
            unknown = self.pick(UNKNOWN)
            queries = ("LeastWord()", "LeastWord([[1,1]],GF(2))", f"LeastWord([{unknown}],GF(6))")
            return self.pick(queries + (f"{unknown}({self.pick(UNKNOWN)})", "[]", f"[GF(2),{unknown}]"))
        if way == 2:
            return f"[{','.join(self.expr(self.pick(kinds), depth - 1) for _ in range(self.below(4)))}]"
        if way == 3:
            call = self.pick(CALLS)
            return f"{call}({','.join(self.expr(self.pick(kinds), depth - 1) for _ in range(self.below(4)))})"
        return self.expr(self.pick(kinds), depth - 1)

    def query(self):
        code = self.code()
        if code.length <= (9 if code.size <= 4 else 5):
            way = self.below(10)
            if way < 5:
                return f"{self.pick(('MinimumDistance', 'MinimumDistance', 'Certificate', 'ScanCertificate', 'WeightDistribution'))}({code.text})"
            if way < 7:
                return f"{self.pick(('AlgebraicDecode', 'AlternantCertificate', 'NearestWord'))}({code.text},{self.word(code)})"
            if way == 7:
                return f"FillErasures({code.text},{self.word(code)},{self.text(self.coordinates(code.length))})"
        return self.least()

    def least(self):
        size = self.size()
        most = {2: 8, 3: 5, 4: 4}.get(size, 3 if size < 9 else 2)
        if self.chance(self.faults):
            count = {2: 17, 3: 11, 4: 9, 5: 7, 7: 6, 8: 6, 9: 6}.get(size, 5)
            rows = [self.row(size, 3) for _ in range(count)]
        else:
            rows = self.matrix(size, 1 + self.below(8), most)
        return f"LeastWord({self.text(rows)},{self.field(size)})"

    def searched(self):
        """A distance, a certificate or a weight distribution of a code by rows, or of its extended code, its dual or a shortened code of it."""
        size, length = self.size(), 2 + self.below(29)
        most = {2: 9, 3: 5, 4: 4}.get(size, 3)
        rows = [[self.below(size) if self.chance(0.7) else 0 for _ in range(length)] for _ in range(1 + self.below(most))]
        code = f"GeneratorMatCode({self.text(rows)},{self.field(size)})"
        way = self.below(6)
        if way == 0:
            code = f"ExtendedCode({code})"
        elif way == 1 and length <= {2: 12, 3: 8}.get(size, 6):
            code = f"DualCode({code})"
        elif way == 2:
            code = f"ShortenedCode({code},[{self.below(length - 1)}])"
        return f"{self.pick(('MinimumDistance', 'MinimumDistance', 'Certificate', 'ScanCertificate', 'WeightDistribution'))}({code});".encode()

    def near(self):
        """A nearest word in a code by rows: of a random word, or of a word of the code with a few errors."""
        size, length = self.size(), 2 + self.below(29)
        most = {2: 9, 3: 5, 4: 4}.get(size, 3)
        field = Field(size)
        rows = [[self.below(size) if self.chance(0.7) else 0 for _ in range(length)] for _ in range(1 + self.below(most))]
        word = [self.below(size) for _ in range(length)]
        if self.chance(0.7):
            word = [0] * length
            for row in rows:
                word = field.add_scaled(word, self.below(size), row)
            for _ in range(self.below(6)):
                word[self.below(length)] = self.below(size)
        return f"NearestWord(GeneratorMatCode({self.text(rows)},{self.field(size)}),{self.text(word)});".encode()

    def blank(self):
        return self.pick(("", "", "\n", " ", "\r\n", "\t", " # a comment\n", "#;(\xff\n"))

    def statement(self):
        way = self.below(12)
        name = self.pick(NAMES)
        sign = self.pick((":=", " := "))
        if way < 4:
            self.names[name] = code = self.code()
            return f"{name}{sign}{code.text};"
        if way == 4:
            kind = self.pick(("number", "numbers", "lists", "field"))
            text = self.expr(kind)
            self.names[name] = kind
            return f"{name}{sign}{text};"
        if way == 5:
            return f"{f'{name}{sign}' if self.chance(self.misfits) else ''}{self.query()};"
        if way < 8:
            return f"{self.expr('truth')};"
        return f"{self.expr(self.pick(('code', 'code', 'number', 'number', 'lists', 'lists', 'numbers', 'field')))};"

    def script(self):
        self.names = {}
        parts = []
        for _ in range(1 + self.below(6)):
            parts += [self.blank(), self.statement()]
        return ("".join(parts) + self.blank()).encode("latin-1")


def noise(maker):
    way = maker.below(8)
    if way == 0:
        depth = 30 + maker.below(5)
        return b"[" * depth + b"1" + b"]" * maker.below(depth + 1) + b";"
    if way == 1:
        depth = 28 + maker.below(5)
        return b"DualCode(" * depth + b"RepetitionCode(3,GF(2))" + b")" * depth + b";"
    if way == 2:
        front = maker.pick(("", "x := ", "GF(", "[")) + maker.pick(("", "0", "000"))
        return f"{front}{2**64 - 3 + maker.below(6)};".encode()
    if way == 3:
        return bytes(maker.below(256) for _ in range(maker.below(12)))
    return "".join(maker.pick(SIGNS) for _ in range(maker.below(14))).encode()


def altered(maker, script):
    script = bytearray(script)
    for _ in range(1 + maker.below(3)):
        at, way = maker.below(len(script) + 1), maker.below(3)
        byte = ord(maker.pick(SIGNS)) if maker.chance(0.9) else maker.below(256)
        if way == 0 or at == len(script):
            script.insert(at, byte)
        elif way == 1:
            script[at] = ord(maker.pick("0123456789")) if chr(script[at]).isdigit() else byte
        else:
            del script[at]
    return bytes(script)


def scripts(kind, count):
    """`count` scripts of a kind, the same at each call."""
    seed = KINDS.index(kind) + 1
    makers = {"valid": Maker(seed), "refused": Maker(seed, faults=0.3), "unfit": Maker(seed, faults=0.05, misfits=0.25)}
    others = Maker(seed)
    bases = [Maker(10 * seed), Maker(10 * seed + 1, faults=0.2), Maker(10 * seed + 2, misfits=0.1)]
    for _ in range(count):
        if kind in makers:
            yield makers[kind].script()
        elif kind == "noise":
            yield noise(others)
        elif kind == "searched":
            yield others.searched()
        elif kind == "near":
            yield others.near()
        else:
            script = others.pick(bases).script()
            yield script[:others.below(len(script) + 1)] if kind == "cut" else altered(others, script)


def main():
    if len(sys.argv) < 3 or sys.argv[1] in ("-h", "--help"):
        sys.exit(__doc__.strip())
    kind, count = sys.argv[1], int(sys.argv[2])
    for script in scripts(kind, count):
        print(script)


if __name__ == "__main__":
    main()
