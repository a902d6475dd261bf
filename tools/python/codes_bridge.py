"""Minimum distances of linear codes from Python, by the program `codes`. One file, the standard library alone: copy it where you need it.

    from codes_bridge import minimum_distance, certificate, check, run

    found = minimum_distance([[1,0,1,1],[0,1,0,1]], 2, workers=4, budget=10**6)
    found.low, found.high, found.is_exact, found.word, found.blocks

    line = certificate(rows, 2)              # a line of JSON, or Refusal if there is none
    check(line).is_accepted, check(line).distance

    answered = run("C := HammingCode(3, GF(2)); C;")
    answered.lines, answered.fault           # ['code [7,4] GF(2)'], None

Rows are lists, tuples or arrays (of numpy, or anything that iterates) of whole numbers below q, whatever their type: 1, True and 1.0 are
one number, as numpy.eye gives it; over 4, 8, 9 and 16 elements docs/SCRIPT.md says
which element a number is. `workers` is the number of threads, `budget` the most blocks of 4,096 words of a search. `progress` is a
function that is called for each round with a Progress; if it raises, the search is ended. `program` is the path of `codes`; without it,
the variable CODES, `codes` on the path, or the script `codes` of the repository in which this file lies.
"""
import os
import shutil
import subprocess
import tempfile
from dataclasses import dataclass
from pathlib import Path

SIZES = (2, 3, 4, 5, 7, 8, 9, 11, 13, 16)
LONGEST = 255
FINISHED, FAULT, REJECTED = 0, 1, 11


class CodesError(Exception):
    """The program ended with another status than 0 and 1: `status`, and what it said."""

    def __init__(self, status, said):
        super().__init__(f"codes ended with status {status}: {said}")
        self.status, self.said = status, said


class Refusal(Exception):
    """There is no such answer: the line of the program."""


@dataclass
class Progress:
    """One round of a search: its number from 0, the blocks that are done, and the two ends of the bracket."""
    query: int
    blocks: int
    bound: int
    best: int


@dataclass
class Distance:
    """The minimum distance lies between `low` and `high`; `word` is a codeword of weight `high`."""
    low: int
    high: int
    word: list
    blocks: int

    @property
    def is_exact(self):
        return self.low == self.high


@dataclass
class Fault:
    """A fault line: its number, its offset, and the numbers that it carries."""
    number: int
    offset: int
    values: tuple


@dataclass
class Answers:
    """The lines of a text but for the fault line, and that fault, or None."""
    lines: list
    fault: object


@dataclass
class Verdict:
    """Whether a certificate is accepted; the distance that it proves, or the reason against it with its numbers."""
    is_accepted: bool
    distance: object
    reason: object
    values: tuple


def program_or(default):
    """The path of the program."""
    if default is not None:
        return os.fspath(default)
    beside = Path(__file__).resolve().parent.parent.parent / "codes"
    return os.environ.get("CODES") or shutil.which("codes") or (str(beside) if beside.exists() else "codes")


def arguments(workers, budget):
    return [f"{key}={int(value)}" for key, value in (("workers", workers), ("budget", budget)) if value is not None]


def told(line, progress, said):
    """A line of standard error: a record, or what the program says."""
    words = line.split()
    if len(words) == 8 and words[0] == "query":
        if progress is not None:
            progress(Progress(*map(int, words[1::2])))
    else:
        said.append(line)


def finished(command, text, program, progress):
    """The text of the program, its status and what it said. Files and no pipes hold the texts, so that nobody waits for the other."""
    with tempfile.TemporaryFile() as source, tempfile.TemporaryFile() as sink:
        source.write(text.encode())
        source.seek(0)
        with subprocess.Popen([program_or(program), *command], stdin=source, stdout=sink, stderr=subprocess.PIPE, text=True) as child:
            said = []
            try:
                for line in child.stderr:
                    told(line, progress, said)
            except BaseException:
                child.kill()
                raise
        sink.seek(0)
        return sink.read().decode(), child.returncode, "".join(said).strip()


def run(script, workers=None, budget=None, program=None, progress=None):
    """The answers of a script."""
    text, status, said = finished(["run", *arguments(workers, budget)], script, program, progress)
    if status not in (FINISHED, FAULT):
        raise CodesError(status, said)
    lines = text.splitlines()
    if status == FINISHED:
        return Answers(lines, None)
    words = lines.pop().split()
    return Answers(lines, Fault(int(words[1]), int(words[3]), tuple(map(int, words[5:]))))


def entry(i, a):
    """The number that an entry of row i is."""
    try:
        if a == int(a):
            return int(a)
    except (TypeError, ValueError, OverflowError):
        pass
    raise ValueError(f"row {i} has an entry that is no whole number: {a!r}")


def lists(rows):
    """The rows as lists of numbers. An array of numpy gives its own, which are numbers of Python."""
    rows = rows.tolist() if hasattr(rows, "tolist") else rows
    if not hasattr(rows, "__iter__") or isinstance(rows, (str, bytes)):
        raise ValueError("a matrix is a list of rows, or an array of two dimensions")
    found = []
    for i, row in enumerate(rows):
        row = row.tolist() if hasattr(row, "tolist") else row
        if not hasattr(row, "__iter__") or isinstance(row, (str, bytes)):
            raise ValueError(f"row {i} is no list of numbers: a matrix is a list of rows, or an array of two dimensions")
        found.append([entry(i, a) for a in row])
    return found


def matrix(rows, q):
    """The rows as lists of numbers, which are looked at."""
    rows = lists(rows)
    if q not in SIZES:
        raise ValueError(f"codes are over {', '.join(map(str, SIZES))} elements, not over {q}")
    if not rows or not 1 <= len(rows[0]) <= LONGEST:
        raise ValueError(f"a matrix has rows of 1 to {LONGEST} symbols")
    for i, row in enumerate(rows):
        if len(row) != len(rows[0]):
            raise ValueError(f"row {i} has {len(row)} entries, row 0 has {len(rows[0])}")
        if not all(0 <= a < q for a in row):
            raise ValueError(f"row {i} has an entry that is no number from 0 to {q - 1}")
    return rows


def asked(query, rows, q, **how):
    """The line of a query of the code that the rows generate."""
    code = f"GeneratorMatCode({matrix(rows, q)},GF({q}))".replace(" ", "")
    return run(f"{query}({code});\n", **how).lines[0]


def minimum_distance(rows, q, workers=None, budget=None, program=None, progress=None):
    """The minimum distance of the code that the rows generate over q elements."""
    line = asked("MinimumDistance", rows, q, workers=workers, budget=budget, program=program, progress=progress)
    # distance D word [..] blocks B, or distance between L and W word [..] blocks B, or distance none
    words = line.split()
    if words[1] == "none":
        raise Refusal("the code has no nonzero word")
    low, high = (words[2], words[4]) if words[1] == "between" else (words[1], words[1])
    return Distance(int(low), int(high), [int(a) for a in words[-3][1:-1].split(",")], int(words[-1]))


def certificate(rows, q, workers=None, budget=None, program=None, progress=None):
    """A certificate of its minimum distance, a line of JSON."""
    line = asked("Certificate", rows, q, workers=workers, budget=budget, program=program, progress=progress)
    if not line.startswith("{"):
        raise Refusal(line)
    return line


def check(certificate, program=None):
    """What the program says of a certificate, a line of JSON."""
    text, status, said = finished(["check"], certificate, program, None)
    if status not in (FINISHED, REJECTED):
        raise CodesError(status, said)
    words = text.split()
    if status == FINISHED:
        return Verdict(True, int(words[2]), None, ())
    return Verdict(False, None, int(words[1]), tuple(map(int, words[3:])))
