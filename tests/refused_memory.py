#!/usr/bin/env python3
"""Sessions of the real program to which memory is refused, at each growth in turn.

    tests/refused_memory.py PROGRAM [MOST]

A growth is a call of malloc, calloc or realloc by the program or by the C library for it. tests/refuse.c, which a C compiler on
the path makes into a library that is loaded before PROGRAM, counts them, and refuses the one with a given number. Each session
runs first with none refused, which gives its text and its number of growths N; then N times, the growth with the number 1 to N
refused alone; then again with all growths from that number on refused. If N is above MOST (4,000) then the first half of
MOST is refused in turn, and as many numbers spread evenly over the rest. With several workers the order of the growths differs
from run to run.

Each answer must be that of the session with its text, or status 7 with no text (6 if a slot could not be read), and never
anything else. After a session with keep=yes each slot must be empty or hold a whole checkpoint, the newest one that of
the last record at least, and `resume` must print the text, or find no checkpoint if none was told. Prints a line for each
session with its growths and how many were refused, for each check that fails, and at the end 'N passed, M failed'. It runs
some minutes; the gate has it refuse 24 growths of each session. It needs Linux and the C library of GNU.
"""
import hashlib
import os
import re
import shutil
import subprocess
import sys
import tempfile
from collections import Counter

DONE, FAULT, PAUSED, VAULT_FAULT, NO_MEMORY, NO_CHECKPOINT = 0, 1, 3, 6, 7, 8
RECORD = re.compile(rb"query \d+ blocks \d+ bound \d+ best \d+\n")
FOREVER = 1 << 40
HANGS = 1000  # no status: not ended after a minute

SCRIPTS = {
    "fields and plain codes": b"""
F := GF(4); F; 12; [1,2,3]; [[1,2],[3,0]]; C := RepetitionCode(5, F); C; Dimension(C); WordLength(C);
WholeSpaceCode(3, GF(16)); NullCode(4, GF(3)); HammingCode(3, GF(2)); ReedMullerCode(1, 4); GF(81);
""",
    "codes by matrices": b"""
C := GeneratorMatCode([[1,1,0,1],[0,1,1,1],[1,0,1,0]], GF(2)); C; GeneratorMat(C); CheckMat(C); DualCode(C);
D := CheckMatCode([[1,2,3,1],[0,1,1,2]], GF(5)); D; IsCodeword(D, [0,0,0,0]); Weight([1,0,2]); LeastWord(GeneratorMat(C), GF(2));
""",
    "cyclic codes": b"""
GeneratorPolCode([1,1,0,1], 7, GF(2)); CheckPolCode([1,1,0,1], 7, GF(2)); BinaryGolayCode(); TernaryGolayCode(); QRCode(7, GF(2));
ExtendedBinaryGolayCode(); ExtendedTernaryGolayCode(); BCHCode(15, 5, GF(2)); BCHCode(15, 2, 4, GF(2)); ReedSolomonCode(8, 3);
""",
    "codes by points": b"""
GoppaCode([1,1,1], [0,1,2,3,4,5,6,7], GF(8), GF(2)); AlternantCode(2, [1,2,3,4], [1,1,2,2], GF(8), GF(2));
""",
    "combined codes": b"""
C := HammingCode(3, GF(2)); D := RepetitionCode(7, GF(2)); ExtendedCode(C); PuncturedCode(C, [1,3]); ShortenedCode(C, [2]);
EvenWeightSubcode(C); DirectSumCode(C, D); UUVCode(C, D); DirectProductCode(C, D); IntersectionCode(C, DualCode(C));
ConcatenatedCode(ReedSolomonCode(3, 2), GeneratorMatCode([[1,0,1],[0,1,1]], GF(2)));
TraceCode(ReedSolomonCode(3, 2), GF(2)); SubfieldSubcode(ReedSolomonCode(3, 2), GF(2));
""",
    "words and codes": b"""
C := HammingCode(3, GF(2)); c := Encode(C, [1,0,1,1]); x := AddWords(c, [0,0,0,0,1,0,0], GF(2)); Syndrome(C, x); InformationWord(C, c);
ScaleWord(2, [1,2,0], GF(3)); DistanceCodeword(c, x); UnionCode(C, RepetitionCode(7, GF(2))); AugmentedCode(C, [[1,0,0,0,0,0,0]]); FillErasures(C, c, [1,2]);
CirculantCode([1,1,0,1,0,0,0], 7, GF(2)); QuasiCyclicCode([[1,0,0],[0,1,1]], 3, GF(2));
ConstructionXCode(C, RepetitionCode(7, GF(2)), WholeSpaceCode(3, GF(2))); ResidueCode(C, c); IsSubcode(DualCode(C), C); IsSameCode(C, C); IsSelfOrthogonalCode(C); IsSelfDualCode(C); IsCyclicCode(C); InformationWord(C, x);
""",
    "decoders": b"""
C := BCHCode(15, 5, GF(2)); w := [1,0,0,0,1,0,0,0,0,0,0,0,0,0,0]; Decode(C, w); AlgebraicDecode(C, w);
AlgebraicDecode(C, [1,1,1,0,1,0,0,1,0,0,0,0,0,0,1]); Decode(HammingCode(2, GF(3)), [1,1,1,1]); LeastWord([[1,1,0],[0,1,1]], GF(2));
""",
    "distances": b"""
MinimumDistance(HammingCode(3, GF(2))); MinimumDistance(BinaryGolayCode()); MinimumDistance(TernaryGolayCode());
MinimumDistance(ReedSolomonCode(15, 9)); MinimumDistance(NullCode(4, GF(2)));
""",
    "certificates": b"""
Certificate(HammingCode(3, GF(2))); ScanCertificate(HammingCode(2, GF(3))); Certificate(BinaryGolayCode());
AlternantCertificate(BCHCode(15, 5, GF(2)), [1,0,0,1,0,0,1,0,0,1,0,0,1,0,0]); AlternantCertificate(ReedSolomonCode(4, 3), [1,0,3,4]);
""",
    "weight distributions": b"""
WeightDistribution(HammingCode(3, GF(2))); WeightDistribution(NullCode(4, GF(2))); WeightDistribution(HammingCode(5, GF(2)));
""",
    "nearest words": b"""
NearestWord(HammingCode(3, GF(2)), [1,1,0,0,0,1,1]); NearestWord(NullCode(2, GF(3)), [2,1]); NearestWord(TernaryGolayCode(), [1,2,0,0,0,0,0,0,0,0,1]);
""",
    "a code with too many words": b"WeightDistribution(WholeSpaceCode(64, GF(2)));",
    "a word of another weight": b"AlternantCertificate(ReedSolomonCode(4, 3), [1,1,1,1]);",
    "a fault with numbers": b"""
x := 3; x; Dimension(HammingCode(2, GF(2))); GoppaCode([1,1], [0,1,2,0], GF(4), GF(2));
""",
    "a fault in the grammar": b"x := [1,[2,3;",
}
SEARCH = b"C := BCHCode(31,11,GF(2)); Dimension(C); MinimumDistance(C); MinimumDistance(BCHCode(31,7,GF(2))); MinimumDistance(BinaryGolayCode());"


class Session:
    """A command line over some input, in a folder of its own, with memory refused or not."""

    def __init__(self, program, library, folder):
        self.program, self.library, self.folder = program, library, folder
        self.count = os.path.join(folder, "count")
        self.room = os.path.join(folder, "room")
        os.mkdir(self.room)
        with open(self.count, "wb") as file:
            file.write(bytes(8))

    def run(self, words, given, first=0, last=0):
        """Status, standard output, standard error without the lines of records, how many of these lines there are, and the
        number of growths."""
        how = {"LD_PRELOAD": self.library, "REFUSE_COUNT": self.count, "REFUSE_FIRST": str(first), "REFUSE_LAST": str(last)}
        try:
            done = subprocess.run([self.program, *words], input=given, capture_output=True, cwd=self.room, env={**os.environ, **how}, timeout=600)
        except subprocess.TimeoutExpired:
            return HANGS, b"", b"", 0, 0
        with open(self.count, "rb") as file:
            growths = int.from_bytes(file.read(8), "little")
        return done.returncode, done.stdout, RECORD.sub(b"", done.stderr), len(RECORD.findall(done.stderr)), growths

    def slots(self):
        held = []
        for number in (0, 1):
            try:
                with open(os.path.join(self.room, "codes.slot%d" % number), "rb") as file:
                    held.append(file.read())
            except FileNotFoundError:
                held.append(b"")
        return held

    def put(self, slots):
        for number, held in enumerate(slots):
            with open(os.path.join(self.room, "codes.slot%d" % number), "wb") as file:
                file.write(held)


def is_whole(held):
    return held == b"" or hashlib.sha256(held[65:]).hexdigest().encode() + b"\n" == held[:65]


class Checks:
    def __init__(self, most):
        self.most = most
        self.passed = self.failed = self.refused = 0

    def that(self, holds, text):
        if holds:
            self.passed += 1
        else:
            self.failed += 1
            if self.failed <= 40:
                print("failed: " + text, flush=True)

    def numbers(self, growths):
        """The growths that are refused in turn."""
        if growths <= self.most:
            return range(1, growths + 1)
        half = self.most // 2
        return [*range(1, half + 1), *range(half + 1, growths + 1, -(-(growths - half) // half))]


def refused_in_turn(checks, session, name, words, given, slots=(b"", b""), after=None):
    """Runs a session with each of its growths refused, alone and with all that follow."""
    session.put(slots)
    status, text, line, records, growths = session.run(words, given)
    keeps = "keep=yes" in words
    tried = checks.numbers(growths)
    seen = Counter()
    for last in (None, FOREVER):
        has_begun = False
        for number in tried:
            session.put(slots)
            got = session.run(words, given, number, last or number)
            seen[got[0]] += 1
            what = "%s, growth %d%s" % (name, number, " and all after it" if last else "")
            right = got[:3] == (status, text, line)
            refusals = {NO_MEMORY: b"codes: no memory\n"}
            if words[0] == "resume":
                refusals[VAULT_FAULT] = b"codes: vault fault\n"
            # a line takes no memory; there is none where the program could not begin, which is so of the first growths alone
            silent = got[0] == NO_MEMORY and got[2] == b"" and got[3] == 0 and not has_begun
            wanting = got[0] in refusals and got[1] == b"" and (got[2] == refusals[got[0]] or silent)
            has_begun = has_begun or not (silent or right)
            checks.that(right or wanting, "%s: status %d, %r, %r" % (what, got[0], got[1][-60:], got[2]))
            if keeps:
                after(checks, session, what, given, slots, got)
            elif slots != (b"", b""):
                checks.that(tuple(session.slots()) == tuple(slots), what + ": a slot was changed")
    checks.refused += 2 * len(tried)
    said = ", ".join("%d times %d" % (times, status) for status, times in sorted(seen.items()))
    print("%-40s %5d growths, %d of them refused twice: status %s" % (name, growths, len(tried), said), flush=True)


def goes_on(text):
    """What must hold of the slots after a session with checkpoints, and of `resume`."""

    def after(checks, session, what, given, slots, got):
        held = session.slots()
        checks.that(all(map(is_whole, held)), what + ": a slot holds no checkpoint")
        is_there = any(held)
        checks.that(is_there or (got[3] == 0 and not any(slots)), what + ": no checkpoint of a record that was told")
        again = session.run(["resume", "keep=yes"], given)
        wanted = (DONE, text) if is_there else (NO_CHECKPOINT, b"")
        checks.that(again[:2] == wanted, "%s: then resume ends with %d" % (what, again[0]))

    return after


def kept(checks, session):
    """Sessions that keep checkpoints, and that go on from them."""
    text = session.run(["run"], SEARCH)[1]
    after = goes_on(text)
    refused_in_turn(checks, session, "run keep=yes", ["run", "keep=yes"], SEARCH, after=after)
    session.put((b"", b""))
    checks.that(session.run(["run", "keep=yes", "slice=5"], SEARCH)[0] == PAUSED, "a slice pauses")
    slots = tuple(session.slots())
    refused_in_turn(checks, session, "resume", ["resume"], SEARCH, slots)
    refused_in_turn(checks, session, "resume keep=yes", ["resume", "keep=yes"], SEARCH, slots, after)
    refused_in_turn(checks, session, "resume keep=yes slice=3", ["resume", "keep=yes", "slice=3"], SEARCH, slots, after)


def run_all(checks, session):
    for name, script in SCRIPTS.items():
        refused_in_turn(checks, session, name, ["run"], script)
    refused_in_turn(checks, session, "run workers=4", ["run", "workers=4"], SEARCH)
    certificate = session.run(["run"], b"Certificate(BinaryGolayCode());")[1]
    refused_in_turn(checks, session, "check", ["check"], certificate)
    refused_in_turn(checks, session, "check of a rejected certificate", ["check"], certificate.replace(b'"distance":7', b'"distance":8'))
    refused_in_turn(checks, session, "summary seed=1", ["summary", "seed=1"], b"")
    refused_in_turn(checks, session, "summary seed=1 workers=4", ["summary", "seed=1", "workers=4"], b"")
    refused_in_turn(checks, session, "an argument that is refused", ["run", "budget=x"], b"")
    refused_in_turn(checks, session, "--help", ["--help"], b"")
    kept(checks, session)


def library_in(folder):
    compiler = next((found for found in map(shutil.which, ("cc", "gcc", "clang")) if found), None)
    if not compiler:
        sys.exit("refused_memory: no C compiler on the path")
    library = os.path.join(folder, "refuse.so")
    source = os.path.join(os.path.dirname(os.path.abspath(__file__)), "refuse.c")
    subprocess.run([compiler, "-O1", "-shared", "-fPIC", "-o", library, source], check=True)
    return library


def main():
    if len(sys.argv) not in (2, 3):
        sys.exit(__doc__)
    checks = Checks(int(sys.argv[2]) if len(sys.argv) == 3 else 4000)
    with tempfile.TemporaryDirectory(prefix="codes-") as folder:
        session = Session(os.path.abspath(sys.argv[1]), library_in(folder), folder)
        if session.run(["run"], b"HammingCode(3, GF(2));")[4] == 0:
            sys.exit("refused_memory: the library was not loaded before the program")
        run_all(checks, session)
    print("%d refusals" % checks.refused)
    print("%d passed, %d failed" % (checks.passed, checks.failed))
    sys.exit(checks.failed > 0)


if __name__ == "__main__":
    main()
