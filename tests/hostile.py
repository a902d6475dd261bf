#!/usr/bin/env python3
"""What the real program does when what is around it fails, and on scripts at the limits of the language.

    tests/hostile.py PROGRAM

Closed and broken standard streams, SIGTERM, a folder that is gone; scripts of about a megabyte that are as deep, as long or as
full of queries as a script may be, each of which must take under 5 seconds of processor time and 200 megabytes. Prints a line for each check
that fails and for each large script its time and memory, and at the end 'N passed, M failed'.
"""
import os
import shutil
import signal
import subprocess
import sys
import tempfile

DONE, FAULT, SOURCE_FAULT, SINK_FAULT, VAULT_FAULT = 0, 1, 4, 5, 6
QUERY = b"MinimumDistance(HammingCode(3,GF(2)));"
LINE = b"distance 3 word [1,0,0,0,0,1,1] blocks 2\n"
LONG = b"MinimumDistance(BCHCode(255,45,GF(2)));\n"  # minutes of any machine
MOST_SECONDS, MOST_BYTES = 5, 200 << 20
MOST = 1 << 20  # bytes of a script


class Checks:
    def __init__(self):
        self.passed = self.failed = 0

    def that(self, holds, text):
        if holds:
            self.passed += 1
        else:
            self.failed += 1
            print("failed: " + text, flush=True)


def streams(checks, program):
    def shell(redirections):
        done = subprocess.run(["bash", "-c", 'exec "$0" run ' + redirections, program], input=QUERY, capture_output=True)
        return done.returncode, done.stdout

    checks.that(shell("<&-") == (SOURCE_FAULT, b""), "standard input is closed")
    checks.that(shell("</")[0] == SOURCE_FAULT, "standard input is a folder")
    checks.that(shell(">&-") == (SINK_FAULT, b""), "standard output is closed")
    checks.that(shell(">/dev/full") == (SINK_FAULT, b""), "standard output is full")
    checks.that(shell("2>&-") == (DONE, LINE), "standard error is closed")
    checks.that(shell("2>/dev/full") == (DONE, LINE), "standard error is full")
    checks.that(without_reader(program, "stdout")[0] == SINK_FAULT, "nobody reads standard output")
    checks.that(without_reader(program, "stderr") == (DONE, LINE), "nobody reads standard error")


def without_reader(program, which):
    """The status, and the text if it is read, of a session whose output or error is a pipe that nobody reads."""
    reader, writer = os.pipe()
    os.close(reader)
    pipes = {"stdout": subprocess.PIPE, "stderr": subprocess.PIPE, which: writer}
    process = subprocess.Popen([program, "run"], stdin=subprocess.PIPE, **pipes)
    os.close(writer)
    out, _ = process.communicate(QUERY)
    return process.returncode, out


def first_record(process):
    """Waits until a record was told, so that its checkpoint is stored."""
    return process.stderr.readline().startswith(b"query ")


def signals(checks, program):
    folder = tempfile.mkdtemp(prefix="codes-")
    args = [program, "run", "keep=yes", "budget=1099511627776"]
    process = subprocess.Popen(args, cwd=folder, stdin=subprocess.PIPE, stdout=subprocess.PIPE, stderr=subprocess.PIPE)
    process.stdin.write(LONG)
    process.stdin.close()
    checks.that(first_record(process), "a record is told")
    process.send_signal(signal.SIGTERM)
    process.wait()
    held = os.path.exists(os.path.join(folder, "codes.slot0"))
    checks.that(process.returncode == -signal.SIGTERM and held and process.stdout.read() == b"", "SIGTERM leaves the last checkpoint, and no text")
    shutil.rmtree(folder, ignore_errors=True)


def remove(folder):
    """Removes a folder in which a session may just then store a checkpoint."""
    while os.path.exists(folder):
        shutil.rmtree(folder, ignore_errors=True)


def folders(checks, program):
    folder = tempfile.mkdtemp(prefix="codes-")
    args = [program, "run", "keep=yes", "budget=1099511627776"]
    process = subprocess.Popen(args, cwd=folder, stdin=subprocess.PIPE, stdout=subprocess.PIPE, stderr=subprocess.PIPE)
    process.stdin.write(LONG)
    process.stdin.close()
    checks.that(first_record(process), "a record is told")
    remove(folder)
    process.wait()
    checks.that((process.returncode, process.stdout.read()) == (VAULT_FAULT, b""), "a folder that is gone: status %d" % process.returncode)


def filled(statement, front=b""):
    """As many of a statement as a script may have."""
    return front + statement * ((MOST - len(front)) // len(statement))


def names(count):
    return b"".join(b"a%d:=1;a%d;" % (i, i) for i in range(count))


def large_scripts():
    yield "queries on a code of dimension 1", filled(b"MinimumDistance(C);", b"C:=RepetitionCode(3,GF(2));"), DONE
    yield "least words of one row", filled(b"LeastWord([[1]],GF(2));"), DONE
    yield "decodings of one word", filled(b"Decode(C,[1,0,1]);", b"C:=RepetitionCode(3,GF(2));"), DONE
    yield "nearest words of one word", filled(b"NearestWord(C,[1,0,1]);", b"C:=RepetitionCode(3,GF(2));"), DONE
    yield "sums of words", filled(b"x:=AddWords(x,[1,0,1],GF(2));", b"x:=[0,0,0];"), DONE
    yield "names that are bound and looked up", names(50000), DONE
    yield "a list of 500,000 numbers", b"Weight([" + b",".join([b"1"] * 500000) + b"]);", DONE
    yield "a name of a million letters", b"n" * 1000000 + b":=1;", DONE
    yield "lists of depth 32", filled(b"x:=" + b"[" * 30 + b"]" * 30 + b";"), FAULT
    yield "calls of depth 32", filled(b"Dimension(" + b"DualCode(" * 29 + b"C" + b")" * 29 + b");", b"C:=RepetitionCode(3,GF(2));"), DONE
    yield "a comment of a megabyte", b"#" + b"." * (MOST - 1), DONE
    yield "opening brackets alone", b"[" * MOST, FAULT
    yield "a number of a million digits", b"1" * 1000000 + b";", FAULT
    yield "codes of length 255", filled(b"WholeSpaceCode(255,GF(16));"), DONE


def limits(checks, program):
    for name, script, status in large_scripts():
        process = subprocess.Popen([program, "run"], stdin=subprocess.PIPE, stdout=subprocess.DEVNULL, stderr=subprocess.DEVNULL)
        process.stdin.write(script)
        process.stdin.close()
        _, raw, used = os.wait4(process.pid, 0)
        seconds, memory = used.ru_utime + used.ru_stime, used.ru_maxrss << 10
        print("%-40s %4.1f s %4d MB" % (name, seconds, memory >> 20))
        checks.that(os.waitstatus_to_exitcode(raw) == status, "%s: status %d" % (name, os.waitstatus_to_exitcode(raw)))
        checks.that(seconds < MOST_SECONDS and memory < MOST_BYTES, "%s: too long or too large" % name)


def main():
    if len(sys.argv) != 2:
        sys.exit(__doc__)
    program, checks = os.path.abspath(sys.argv[1]), Checks()
    for part in (streams, signals, folders, limits):
        part(checks, program)
    print("%d passed, %d failed" % (checks.passed, checks.failed))
    sys.exit(checks.failed > 0)


main()
