#!/usr/bin/env python3
"""Calls that two refusals apply to at once, and the refusal that comes first.

    tools/refusal_order.py PROGRAM

PROGRAM is the path of `codes`. For each call and each two of its refusals that can apply together there is a call that has
both; the fault line must tell the one that the table of calls in docs/FORMATS.md has first. The reference program must say
the same. Prints each call on which they differ, and ends with 1 if there is one.
"""
import subprocess
import sys
from concurrent.futures import ThreadPoolExecutor

from reference import text_and_status

LANES = 4
SEVENTEEN_ROWS = ",".join(["[1]"] * 17)


def ones(count):
    return "[" + ",".join(["1"] * count) + "]"


def twos(count):
    return "[" + ",".join(["2"] * count) + "]"


def matrix_calls(name):
    """A call of a matrix and a field: 17, 2, 12, 3."""
    return [
        (f"{name}([],GF(25))", "17"),
        (f"{name}([[1],[1,0]],GF(25))", "17"),
        (f"{name}([[25]],GF(25))", "17"),
        (f"{name}([[],[1]],GF(2))", "2"),
        (f"{name}([{ones(256)},[1]],GF(2))", "2"),
        (f"{name}([{twos(256)}],GF(2))", "2"),
        (f"{name}([[2],[1,0]],GF(2))", "12"),
        (f"{name}([[1,0],[2]],GF(2))", "12"),
    ]


def length_calls(name):
    """A call of a length and a field: 17, 2."""
    return [(f"{name}(0,GF(25))", "17"), (f"{name}(256,GF(243))", "17")]


def polynomial_calls(name):
    """A call of a polynomial, a length and a field: 17, 2, 3, 4."""
    return [
        (f"{name}([1],0,GF(25))", "17"),
        (f"{name}([0],3,GF(25))", "17"),
        (f"{name}([0,1],3,GF(25))", "17"),
        (f"{name}([2],0,GF(2))", "2"),
        (f"{name}([0],256,GF(2))", "2"),
        (f"{name}([0,1],256,GF(2))", "2"),
        (f"{name}([2,1,1],5,GF(2))", "3 1"),
    ]


def bch_calls(begin):
    """A BCH code from its length, its first power (with a comma, or none), its distance and field: 17, 2, 5, 6."""
    return [
        (f"BCHCode(0,{begin}2,GF(25))", "17"),
        (f"BCHCode(5,{begin}2,GF(25))", "17"),
        (f"BCHCode(3,{begin}9,GF(25))", "17"),
        (f"BCHCode(256,{begin}2,GF(2))", "2"),
        (f"BCHCode(0,{begin}1,GF(2))", "2"),
        (f"BCHCode(4,{begin}9,GF(2))", "5"),
        (f"BCHCode(9,{begin}1,GF(3))", "5"),
    ]


GOPPA_CALLS = [
    ("GoppaCode([1,1],[0],GF(27),GF(25))", "17"),
    ("GoppaCode([1,1],[],GF(25),GF(25))", "17"),
    ("GoppaCode([0],[0],GF(25),GF(25))", "17"),
    ("GoppaCode([1,1],[0,0],GF(25),GF(25))", "17"),
    ("GoppaCode([0,1],[0],GF(25),GF(25))", "17"),
    ("GoppaCode([1,1],[],GF(8),GF(4))", "10"),
    ("GoppaCode([0],[0],GF(8),GF(4))", "10"),
    ("GoppaCode([1,1],[0,8],GF(8),GF(4))", "10"),
    ("GoppaCode([1,1],[0,0],GF(8),GF(4))", "10"),
    ("GoppaCode([0,1],[0],GF(8),GF(4))", "10"),
    ("GoppaCode([0],[],GF(8),GF(2))", "2"),
    (f"GoppaCode([1,1],{ones(256)},GF(8),GF(2))", "2"),
    (f"GoppaCode([8,1],{twos(256)},GF(8),GF(2))", "2"),
    ("GoppaCode([8,1],[0,9],GF(8),GF(2))", "3 1"),
    ("GoppaCode([8,1],[0,0],GF(8),GF(2))", "3 1"),
    ("GoppaCode([1],[0,0],GF(8),GF(2))", "3 1"),
    ("GoppaCode([1,1],[3,3,9],GF(8),GF(2))", "3 2"),
    ("GoppaCode([0,1],[0,9],GF(8),GF(2))", "3 2"),
    ("GoppaCode([0,1],[0,5,5],GF(8),GF(2))", "8 1 2"),
    ("GoppaCode([0,1],[0,0],GF(8),GF(2))", "8 0 1"),
]

ALTERNANT_CALLS = [
    ("AlternantCode(1,[0],[1],GF(27),GF(25))", "17"),
    ("AlternantCode(1,[],[],GF(25),GF(25))", "17"),
    ("AlternantCode(1,[0],[],GF(25),GF(25))", "17"),
    ("AlternantCode(0,[0],[1],GF(25),GF(25))", "17"),
    ("AlternantCode(1,[0,0],[1,1],GF(25),GF(25))", "17"),
    ("AlternantCode(1,[],[],GF(8),GF(4))", "10"),
    ("AlternantCode(1,[0],[],GF(8),GF(4))", "10"),
    ("AlternantCode(0,[0],[1],GF(8),GF(4))", "10"),
    ("AlternantCode(1,[0,0],[1,1],GF(8),GF(4))", "10"),
    ("AlternantCode(1,[],[1],GF(8),GF(2))", "2"),
    (f"AlternantCode(0,{ones(256)},{ones(256)},GF(8),GF(2))", "2"),
    (f"AlternantCode(1,{ones(256)},[1],GF(8),GF(2))", "2"),
    ("AlternantCode(0,[0],[1,1],GF(8),GF(2))", "12"),
    ("AlternantCode(1,[9],[1,1],GF(8),GF(2))", "12"),
    ("AlternantCode(1,[0,0],[1],GF(8),GF(2))", "12"),
    ("AlternantCode(0,[9],[9],GF(8),GF(2))", "3 1"),
    ("AlternantCode(2,[9],[0],GF(8),GF(2))", "3 1"),
    ("AlternantCode(0,[0,0],[1,1],GF(8),GF(2))", "3 1"),
    ("AlternantCode(1,[9],[0],GF(8),GF(2))", "3 2"),
    ("AlternantCode(1,[9,9],[1,1],GF(8),GF(2))", "3 2"),
    ("AlternantCode(1,[0,0],[1,0],GF(8),GF(2))", "3 3"),
]

COMBINED_CALLS = [
    ("DirectSumCode(NullCode(200,GF(2)),NullCode(56,GF(3)))", "11"),
    ("UUVCode(NullCode(4,GF(2)),NullCode(5,GF(3)))", "11"),
    ("UUVCode(NullCode(128,GF(2)),NullCode(128,GF(3)))", "11"),
    ("UUVCode(NullCode(128,GF(2)),NullCode(129,GF(2)))", "12"),
    ("DirectProductCode(NullCode(16,GF(2)),NullCode(16,GF(4)))", "11"),
    ("IntersectionCode(NullCode(3,GF(2)),NullCode(4,GF(3)))", "11"),
    ("UnionCode(NullCode(3,GF(2)),NullCode(4,GF(3)))", "11"),
    ("IsSubcode(NullCode(3,GF(2)),NullCode(4,GF(3)))", "11"),
    ("IsSameCode(NullCode(3,GF(2)),NullCode(4,GF(3)))", "11"),
    ("AugmentedCode(NullCode(3,GF(2)),[[2]])", "12"),
    ("AugmentedCode(NullCode(2,GF(2)),[[2,0],[1]])", "12"),
    ("TraceCode(NullCode(3,GF(9)),GF(25))", "17"),
    ("SubfieldSubcode(NullCode(3,GF(9)),GF(32))", "17"),
    ("ConcatenatedCode(NullCode(3,GF(4)),NullCode(4,GF(3)))", "11"),
    ("ConcatenatedCode(NullCode(255,GF(4)),NullCode(4,GF(3)))", "11"),
    ("ConcatenatedCode(NullCode(255,GF(4)),NullCode(4,GF(2)))", "14 0 2"),
    ("CirculantCode([25],0,GF(25))", "17"),
    ("CirculantCode([1],2,GF(25))", "17"),
    ("CirculantCode([1],0,GF(2))", "2"),
    ("CirculantCode([2],256,GF(2))", "2"),
    ("CirculantCode([2],2,GF(2))", "12"),
    ("QuasiCyclicCode([],3,GF(25))", "17"),
    ("QuasiCyclicCode([[25],[1,1]],1,GF(25))", "17"),
    ("QuasiCyclicCode([[2],[1]],0,GF(2))", "2"),
    ("QuasiCyclicCode([[2],[1]],128,GF(2))", "2"),
    ("QuasiCyclicCode([[2,0],[1]],2,GF(2))", "12"),
    ("ConstructionXCode(NullCode(3,GF(2)),NullCode(4,GF(3)),NullCode(1,GF(2)))", "11"),
    ("ConstructionXCode(NullCode(3,GF(2)),NullCode(4,GF(2)),NullCode(1,GF(3)))", "11"),
    ("ConstructionXCode(NullCode(3,GF(2)),WholeSpaceCode(4,GF(2)),NullCode(1,GF(2)))", "12"),
    ("ConstructionXCode(NullCode(3,GF(2)),WholeSpaceCode(3,GF(2)),WholeSpaceCode(1,GF(2)))", "51"),
    ("ConstructionXCode(NullCode(255,GF(2)),NullCode(255,GF(2)),WholeSpaceCode(1,GF(2)))", "14 1 0"),
]

WORD_CALLS = [
    ("IsCodeword(NullCode(3,GF(2)),[2])", "12"),
    ("Decode(NullCode(3,GF(2)),[2])", "12"),
    ("Syndrome(NullCode(3,GF(2)),[2])", "12"),
    ("Encode(NullCode(3,GF(2)),[2])", "12"),
    ("InformationWord(NullCode(3,GF(2)),[2])", "12"),
    ("InformationWord(NullCode(3,GF(2)),[1])", "12"),
    ("InformationWord(NullCode(3,GF(2)),[2,1,0])", "3 2"),
    ("ResidueCode(NullCode(1,GF(2)),[2,2])", "12"),
    ("ResidueCode(NullCode(1,GF(2)),[1,1])", "12"),
    ("ResidueCode(NullCode(2,GF(2)),[2,1])", "3 2"),
    ("ResidueCode(NullCode(2,GF(2)),[1,1])", "50"),
    ("AddWords([1],[1,1],GF(25))", "17"),
    ("AddWords([25],[1],GF(25))", "17"),
    ("AddWords([1],[25],GF(25))", "17"),
    ("AddWords([2],[1,1],GF(2))", "12"),
    ("AddWords([1],[2,1],GF(2))", "12"),
    ("AddWords([2],[2],GF(2))", "3 1"),
    ("ScaleWord(25,[1],GF(25))", "17"),
    ("ScaleWord(1,[25],GF(25))", "17"),
    ("ScaleWord(2,[2],GF(2))", "3 1"),
    ("Decode(NullCode(21,GF(2)),[1])", "12"),
    (f"Decode(NullCode(21,GF(2)),{twos(21)})", "3 2"),
    ("NearestWord(NullCode(3,GF(2)),[2])", "12"),
    ("NearestWord(HammingCode(3,GF(2)),[1,2])", "12"),
    ("FillErasures(NullCode(3,GF(2)),[2],[3])", "12"),
    ("FillErasures(NullCode(3,GF(2)),[1],[1,0])", "12"),
    ("FillErasures(NullCode(3,GF(2)),[2,0,0],[1,0])", "3 2"),
    ("AlgebraicDecode(NullCode(3,GF(2)),[1])", "18"),
    ("AlgebraicDecode(NullCode(3,GF(2)),[2,0,0])", "18"),
    ("AlgebraicDecode(ReedSolomonCode(3,2),[4])", "12"),
    ("AlternantCertificate(NullCode(3,GF(2)),[1])", "18"),
    ("AlternantCertificate(NullCode(3,GF(2)),[2,0,0])", "18"),
    ("AlternantCertificate(NullCode(3,GF(2)),[1,0,0])", "18"),
    ("AlternantCertificate(ReedSolomonCode(3,2),[4])", "12"),
    ("AlternantCertificate(ReedSolomonCode(3,2),[1])", "12"),
    ("AlternantCertificate(ReedSolomonCode(3,2),[4,0,0])", "3 2"),
]

LEAST_WORD_CALLS = [
    (f"LeastWord([{SEVENTEEN_ROWS}],GF(25))", "17"),
    (f"LeastWord([{SEVENTEEN_ROWS.replace('1', '')}],GF(2))", "2"),
    (f"LeastWord([{SEVENTEEN_ROWS},[1,1]],GF(2))", "12"),
    (f"LeastWord([{SEVENTEEN_ROWS},[2]],GF(2))", "3 1"),
]


def calls():
    """Each call with the number and the values of its fault."""
    for name in ("GeneratorMatCode", "CheckMatCode", "LeastWord"):
        yield from matrix_calls(name)
    for name in ("RepetitionCode", "WholeSpaceCode", "NullCode"):
        yield from length_calls(name)
    yield from [("HammingCode(1,GF(25))", "17"), ("HammingCode(9,GF(25))", "17"), ("HammingCode(0,GF(2))", "3 1")]
    yield from [("ReedMullerCode(9,8)", "2"), ("ReedSolomonCode(5,9)", "7"), ("ReedSolomonCode(0,1)", "7")]
    for name in ("GeneratorPolCode", "CheckPolCode"):
        yield from polynomial_calls(name)
    yield from [("QRCode(256,GF(25))", "17"), ("QRCode(15,GF(27))", "17"), ("QRCode(0,GF(3))", "2"), ("QRCode(256,GF(3))", "2")]
    for begin in ("", "0,", "7,"):
        yield from bch_calls(begin)
    yield from GOPPA_CALLS + ALTERNANT_CALLS + COMBINED_CALLS + WORD_CALLS + LEAST_WORD_CALLS


def run(program, script):
    done = subprocess.run([program, "run"], input=script, capture_output=True, timeout=60)
    return done.stdout, done.returncode, done.stderr


def main():
    table = [(call.encode() + b";", fault_line(fault)) for call, fault in calls()]
    differ = 0
    with ThreadPoolExecutor(LANES) as lanes:
        answers = lanes.map(lambda row: run(sys.argv[1], row[0]), table) if len(sys.argv) > 1 else [None] * len(table)
        for (script, wanted), answer in zip(table, answers):
            reference = text_and_status(script)
            if reference != (wanted, 1) or answer not in (None, (wanted, 1, b"")):
                differ += 1
                print(f"{script}\n  wanted     {wanted}\n  program    {answer}\n  reference  {reference}")
    print(f"{len(table)} calls with two refusals each, {differ} differ")
    sys.exit(1 if differ else 0)


def fault_line(fault):
    """The line of a fault with this number and these values, of a call at the start of a script."""
    number, *values = fault.split()
    return f"fault {number} at 0{' with ' if values else ''}{' '.join(values)}\n".encode()


if __name__ == "__main__":
    main()
