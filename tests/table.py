"""tools/table.py on the sixty codes of examples/codes.list, on scripts and matrices, brackets, faults, and a program that prints what is wrong.

    tests/table.py PROGRAM

Prints what fails, and ends with 1 if something does.
"""
import subprocess
import sys
import tempfile
from html.parser import HTMLParser
from pathlib import Path

TOP = Path(__file__).resolve().parent.parent
TOOL = [sys.executable, "-B", str(TOP / "tools" / "table.py")]
DISTANCES = {"hamming-7": "[7,4,3]", "golay-23": "[23,12,7]", "golay-24": "[24,12,8]", "reed-muller-2-5": "[32,16,8]", "bch-31-11": "[31,11,11]", "hexacode": "[6,3,4]",
             "ternary-golay-12": "[12,6,6]", "reed-solomon-15": "[15,5,11]", "product-49": "[49,16,9]", "goppa-16": "[16,8,5]", "residues-31": "[31,16,7]"}
failed = []


def table(folder, program, *words):
    """The status, standard error, and the lines of the text by the names of their codes."""
    done = subprocess.run([*TOOL, *words[:-1], program, str(folder), words[-1]], capture_output=True, text=True)
    text = (folder / "table.txt").read_text().splitlines() if (folder / "table.txt").exists() else []
    return done.returncode, done.stderr, {line.split()[0]: line for line in text}


def expect(name, found, wanted):
    if found != wanted:
        failed.append(f"{name}: {found}, wanted {wanted}")


class Tags(HTMLParser):
    """The elements that are open."""
    void = ("meta",)

    def __init__(self):
        super().__init__()
        self.open, self.wrong, self.links = [], [], []

    def handle_starttag(self, tag, attributes):
        if tag not in self.void:
            self.open.append(tag)
        self.links += [value for key, value in attributes if key == "href"]

    def handle_endtag(self, tag):
        if not self.open or self.open.pop() != tag:
            self.wrong.append(tag)


def sixty(folder, program):
    status, said, lines = table(folder, program, "--words", "20000", str(TOP / "examples" / "codes.list"))
    expect("status", (status, said), (0, ""))
    expect("codes", len(lines), 61)
    for name, wanted in DISTANCES.items():
        expect(name, lines.get(name, "").split()[1:2], [wanted])
    both = sum("codes check, check_certificate.py" in line for line in lines.values())
    if both < 55:
        failed.append(f"only {both} codes are accepted by both checkers")
    expect("certificates", len(list((folder / "certificates").glob("*.json"))), 60)
    tags = Tags()
    tags.feed((folder / "index.html").read_text(encoding="utf-8"))
    expect("tags", (tags.wrong, tags.open), ([], []))
    missing = [link for link in tags.links if not link.startswith("#") and not (folder / link).exists()]
    expect("links", missing, [])


def other_entries(folder, program):
    (folder / "mine.txt").write_text("1000011\n0100101\n0010110\n0001111\n")
    (folder / "script.codes").write_text("12;\nC := BinaryGolayCode();\nDimension(C);\n")
    (folder / "all.list").write_text("# mine\nmatrix: mine.txt\nscript: script.codes\nnone: NullCode(3, GF(2))\n")
    status, said, lines = table(folder, program, str(folder / "all.list"))
    expect("entries", (status, said), (0, ""))
    for name, wanted in (("matrix", "[7,4,3]"), ("script", "[23,12,7]"), ("none", "[3,0,-]")):
        expect(name, lines.get(name, "").split()[1:2], [wanted])
    status, said, lines = table(folder, program, str(folder / "mine.txt"))
    expect("a matrix", (status, list(lines)), (0, ["code", "mine"]))
    (folder / "open.list").write_text("bch: BCHCode(127, 27, GF(2))\n")
    status, said, lines = table(folder, program, "--budget", "1", str(folder / "open.list"))
    expect("a bracket", (status, ".." in lines["bch"].split()[1]), (0, True))


def mistakes(folder, program):
    (folder / "bad.txt").write_text("1 0 1\n0 1\n")
    (folder / "fault.list").write_text("good: BinaryGolayCode()\nbad: BCHCode(4, 3, GF(2))\n")
    status, said, lines = table(folder, program, str(folder / "fault.list"))
    expect("a fault", (status, said, "good" in lines), (1, "bad: fault 5 at 5\n", True))
    for text, wanted in (("x y: BinaryGolayCode()\n", "wanted `NAME: CALL`"), ("a: BinaryGolayCode()\na: TernaryGolayCode()\n", "there twice: a"), ("a: no.such\n", "no.such: No such file or directory\n"), ("a: bad.txt\n", "bad.txt:2:3: ")):
        (folder / "wrong.list").write_text(text)
        status, said, _ = table(folder, program, str(folder / "wrong.list"))
        expect(text, (status, wanted in said), (1, True))
    # a program that prints another distance than it proves
    liar = folder / "liar"
    liar.write_text(f'#!/bin/sh\n[ "$1" = check ] && {{ cat >/dev/null; echo accepted distance 4; exit; }}\n"{program}" "$@" | sed \'s/"distance":3/"distance":4/\'\n')
    liar.chmod(0o700)
    (folder / "one.list").write_text("hamming: HammingCode(3, GF(2))\n")
    status, said, _ = table(folder, str(liar), str(folder / "one.list"))
    expect("a liar", (status, said), (1, "hamming: check_certificate.py: rejected 34 with 3\n"))


for part in (sixty, other_entries, mistakes):
    with tempfile.TemporaryDirectory() as made:
        part(Path(made), sys.argv[1])
print("\n".join(failed) or "done")
sys.exit(1 if failed else 0)
