#!/usr/bin/env python3
"""What a terminal shows of a session: one line that is written anew, the text of the session, and its status.

    tests/progress.py PROGRAM
"""
import os
import pathlib
import pty
import random
import re
import signal
import subprocess
import sys
import tempfile

TOP = pathlib.Path(__file__).parent.parent
LINE = re.compile(r"query 1  (level \d+ set \d+ \d+ %|blocks [\d,]+)  bound \d+ best \d+")
RECORD = re.compile(r"query \d+ blocks \d+ bound \d+ best \d+")


def script():
    """A short search, one of some seconds, and a fault."""
    rng = random.Random(3)
    rows = [[int(i == j) for j in range(58)] + [rng.randrange(2) for _ in range(62)] for i in range(58)]
    return f"MinimumDistance(HammingCode(3,GF(2)));\nMinimumDistance(GeneratorMatCode({rows},GF(2)));\nFoo();\n".encode()


def at_terminal(words, source, folder=None, interrupt=False):
    """The status, standard output, and what a terminal gets of standard error; in a folder; ended by Ctrl-C once there is a line."""
    main, side = pty.openpty()
    with subprocess.Popen(words, stdin=subprocess.PIPE, stdout=subprocess.PIPE, stderr=side, cwd=folder, start_new_session=True) as running:
        os.close(side)
        running.stdin.write(source)
        running.stdin.close()
        shown = b""
        while True:
            try:
                piece = os.read(main, 4096)
            except OSError:
                break  # the other side is closed
            if not piece:
                break
            shown += piece
            if interrupt and b"best" in shown:
                interrupt = os.killpg(running.pid, signal.SIGINT)
        out = running.stdout.read()
        status = running.wait()
    os.close(main)
    return status, out, shown.decode("utf-8", "replace")


def main():
    program = str(pathlib.Path(sys.argv[1]).resolve())
    source = script()
    plain = subprocess.run([program, "run"], input=source, capture_output=True, check=False)
    tool = [sys.executable, "-B", str(TOP / "tools/progress.py")]
    failures = []

    def check(text, holds):
        if not holds:
            failures.append(text)

    check("the program itself prints a fault", plain.returncode == 1 and plain.stdout.count(b"\n") == 3)
    for how in ("line", "no"):
        status, out, shown = at_terminal([*tool, how, program, "run"], source)
        check(f"{how}: the text and the status are those of the program", (status, out) == (plain.returncode, plain.stdout))
        check(f"{how}: no record line is shown", not RECORD.search(shown))
        if how == "line":
            last = shown.split("\r")
            check("line: the line is shown", any(LINE.match(piece) for piece in last))
            check("line: it is cleared in the end", not shown or last[-1] == "")
            check("line: the time that is left fits 80 columns", all(piece.rstrip().endswith(" left") for piece in last if "at mo" in piece))
        else:
            check("no: nothing is shown", shown == "")
    lone = source.split(b"\n")[1]
    with tempfile.TemporaryDirectory() as folder:
        status, out, shown = at_terminal([*tool, "line", program, "run", "keep=yes", "slice=500"], lone, folder)
        check("a pause leaves the last line", (status, out) == (3, b"") and re.search(r"best \d+[^\r]*\r\ncodes: paused at query 0 blocks 500\r\n$", shown))
    status, out, shown = at_terminal([*tool, "line", program, "run"], lone, interrupt=True)
    check("Ctrl-C leaves the last line", (status, out) == (-signal.SIGINT, b"") and re.search(r"best \d+[^\r]*\r\n$", shown))
    status, out, shown = at_terminal([*tool, "line", program, "run"], b" " * 2**22)
    check("a script that is too long has its line and its status", (status, out) == (12, b"") and "too long" in shown)
    status, out, shown = at_terminal([*tool, "line", program, "run", "workers=0"], b"")
    check("a refused argument has its line and its status", (status, out) == (2, b"") and "refused" in shown)
    for text in failures:
        print(f"failed: {text}")
    return 1 if failures else 0


if __name__ == "__main__":
    sys.exit(main())
