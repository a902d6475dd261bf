"""The pictures of tools/plot.py, of scripts that `codes` runs.

    tests/plots.py PROGRAM

Each distribution has its statement, a bar for each weight that is there, the longest one for the largest number, and its enumerator;
the file of --svg is XML with as many bars; a fault ends the pictures, with its line and status; lines of other statements are left
out. Prints what fails, and ends with 1 if something does.
"""
import os
import subprocess
import sys
import tempfile
import xml.etree.ElementTree as xml
from pathlib import Path

TOOL = Path(__file__).resolve().parent.parent / "tools" / "plot.py"
SCRIPT = """# two codes
C := HammingCode(3, GF(2)); C;
WeightDistribution(C); Weight([1,1]);
WeightDistribution( DualCode(
  C ) );
"""
WANTED = """WeightDistribution(C)
  0  1  #####
  3  7  ################################
  4  7  ################################
  7  1  #####
  x^7+7x^4y^3+7x^3y^4+y^7

WeightDistribution( DualCode( C ) )
  0  1  #####
  4  7  ################################
  x^7+7x^3y^4
"""
OF_ONE = """WeightDistribution(RepetitionCode(1,GF(3)))
  0  1  ################
  1  2  ################################
  x+2y
"""


def drawn(program, script, *options, arguments=()):
    with tempfile.TemporaryDirectory() as folder:
        path, picture = Path(folder, "script with a blank.codes"), Path(folder, "picture.svg")
        path.write_text(script)
        done = subprocess.run(
            [sys.executable, "-B", TOOL, "weights", "--columns", "40", "--svg", picture, *options, program, path, *arguments],
            capture_output=True, text=True, timeout=100, env={**os.environ, "PYTHONIOENCODING": "ascii"})
        return done, picture.read_text() if picture.exists() else ""


def bars(picture):
    """How long the bars of a picture are; the first rectangle is its ground."""
    return [int(r.get("width")) for r in xml.fromstring(picture).iter("{http://www.w3.org/2000/svg}rect")][1:]


def failures(program):
    done, picture = drawn(program, SCRIPT, "--enumerator", arguments=["workers=2"])
    if (done.stdout, done.stderr, done.returncode) != (WANTED, "", 0):
        yield f"two codes: {done}"
    found = bars(picture)
    if len(found) != 6 or len(set(found)) != 2 or found[1] != max(found):
        yield f"bars {found}"
    done, _ = drawn(program, "WeightDistribution(RepetitionCode(1,GF(3)));", "--enumerator")
    if done.stdout != OF_ONE:
        yield f"length 1: {done}"
    done, _ = drawn(program, "WeightDistribution(BinaryGolayCode());", "--log")
    lengths = [line.count("#") for line in done.stdout.splitlines()]
    if not lengths or min(lengths[1:]) < 4 or lengths[4] != max(lengths):
        yield f"--log: {done}"
    done, _ = drawn(program, SCRIPT + "WeightDistribution(D);")
    if done.stderr != f"fault 44 at {len(SCRIPT) + len('WeightDistribution(')}\n" or done.returncode != 1 or done.stdout.count("WeightDistribution") != 2:
        yield f"a fault: {done}"
    done, _ = drawn(program, "Weight([1]);")
    if done.stdout or done.returncode != 1 or "WeightDistribution" not in done.stderr:
        yield f"nothing to draw: {done}"
    done, _ = drawn(program, SCRIPT, arguments=["workers=0"])
    if done.stdout or done.stderr != "codes: word 1 refused\n" or done.returncode != 2:
        yield f"a refused argument: {done}"


def main():
    failed = list(failures(sys.argv[1]))
    print("\n".join(failed))
    return 1 if failed else 0


if __name__ == "__main__":
    sys.exit(main())
