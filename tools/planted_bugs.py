#!/usr/bin/env python3
"""Bugs that the contracts refuse, many in one check.

    tools/planted_bugs.py                       whether each bug of tests/bugs/ can be planted: its lines stand once in its file; and whether
                                                none stands there twice. Proves nothing
    tools/planted_bugs.py [--bugs FOLDER] CRATE..       plants those of FOLDER (tests/bugs without it) in a copy, as many at a time as there
                                                are functions, and says what the prover says. tools/small_changes.py makes such a folder

A bug is a paragraph of FOLDER/CRATE.bugs: a line '@@ FILE FUNCTION', the lines that it takes away, each after a '-', and those that it
puts there, each after a '+'. A function is proved against the contracts of those that it calls. So bugs in different functions don't hide
each other, unless the prover says that it left a function out since one that it calls is wrong: that one is tried again without the
others. A bug of a definition, in specs/, names a law: it is refused if that law is no longer proved when it stands alone.

With names of crates it prints a line for each bug that is proved, can't be tried or doesn't compile, and for each crate how many are
refused: by a goal that is not proved, or in form, since a written answer of the proof no longer fits what it is for. Of the latter the
clause has to be read. It ends with 1 if a bug is proved or can't be tried. A crate takes a minute to fifteen, or more where many bugs are
in one function; on standard error it says how many have been tried.

With CODES_TREE, a tree in which `rt ci` proved these sources, it works over the libraries there; without it `rt check` proves first what
the crate stands on.
"""
import glob
import os
import re
import shutil
import subprocess
import sys
import tempfile

TOP = os.path.dirname(os.path.dirname(os.path.abspath(__file__)))
FOLDER = os.path.join(TOP, "tests", "bugs")
VERDICT = re.compile(r"^fn (\S+): (.*)$", re.M)
OWN_ERROR = re.compile(r"^\./proofs/(\S+)/\w+\.antt:[\d:]+ error: (.*)", re.M)
# what is said of a written answer that no longer fits, and not of a goal
UNFIT = re.compile(r"two types (first )?differ|the two types are|has no `|has no field|cannot find|not in scope|takes \d|takes no|unknown name")
NOT_RUST = re.compile(r"^(?:\./)?(src/\S+?\.rt):(\d+):\d+: error", re.M)
KINDS = ("proved", "left out", "can't be planted", "doesn't compile", "refused in form", "refused by a goal")


class Bug:
    def __init__(self, crate, paragraph):
        head, *lines = paragraph.split("\n")
        self.crate = crate
        _, self.file, self.function = head.split()
        self.old = [line[1:] for line in lines if line.startswith("-")]
        self.new = [line[1:] for line in lines if line.startswith("+")]

    def __str__(self):
        return f"{self.crate} {self.file} {self.function}: {' '.join(self.old[0].split())}"

    def planted(self, lines):
        """The lines of its file with the bug; None unless what it takes away stands there once."""
        places = [i for i in range(len(lines)) if lines[i : i + len(self.old)] == self.old]
        if len(places) != 1:
            return None
        return lines[: places[0]] + self.new + lines[places[0] + len(self.old) :]

    def shares_a_function(self, other):
        """Whether both may stand in one function: it may be named with its module or its type, or without."""
        ours, theirs = self.function.split("::"), other.function.split("::")
        types = [[part for part in parts[:-1] if part[0].isupper()] for parts in (ours, theirs)]
        return self.file == other.file and ours[-1] == theirs[-1] and not (all(types) and types[0] != types[1])

    def distance(self, lines, at):
        """How far line `at` is from where the bug stands in these lines of its file."""
        new = self.new or [""]
        starts = [i for i in range(len(lines)) if lines[i : i + len(new)] == new]
        return min((max(start - at, at - start - len(new) + 1, 0) for start in starts), default=len(lines))


def lines_of(path):
    with open(path, encoding="utf-8") as opened:
        return opened.read().split("\n")


def bugs_of(crate, folder):
    text = "\n".join(lines_of(os.path.join(folder, f"{crate}.bugs")))
    return [Bug(crate, paragraph) for paragraph in text.strip("\n").split("\n\n")]


def crates():
    return sorted(name[: -len(".bugs")] for name in os.listdir(FOLDER) if name.endswith(".bugs"))


def all_can_be_planted():
    """Whether each bug can be planted, and none changes its file as another one does, blanks aside."""
    fine, made = True, {}
    for bug in (bug for crate in crates() for bug in bugs_of(crate, FOLDER)):
        lines = bug.planted(lines_of(f"{TOP}/crates/{bug.crate}/{bug.file}"))
        if lines is None:
            print(f"can't be planted: {bug}")
        elif made.setdefault((bug.crate, bug.file, "".join("".join(lines).split())), bug) is not bug:
            print(f"stands twice: {bug}")
        else:
            continue
        fine = False
    return fine


def first_of_each_function(bugs, top):
    """Bugs in different functions, which can be planted together, and their files with them."""
    chosen, files = [], {}
    for bug in bugs:
        path = f"{top}/crates/{bug.crate}/{bug.file}"
        lines = bug.planted(files.get(path) or lines_of(path))
        if lines and not any(bug.shares_a_function(other) for other in chosen):
            chosen.append(bug)
            files[path] = lines
    return chosen, files


def libraries_of(crate):
    """The names after the crate's in crates.txt."""
    for line in lines_of(f"{TOP}/crates.txt"):
        name, _, others = line.partition(":")
        if name.split(" ")[0] == crate:
            return others.split()
    sys.exit(f"tools/planted_bugs.py: {crate} is no crate")


def check_of(crate, top):
    """The command that checks the crate: over the libraries of a proved tree if there is one."""
    proved = os.environ.get("CODES_TREE")
    if not proved:
        return ["rt", "check"]
    kit = os.path.dirname(os.path.dirname(os.path.realpath(shutil.which("rt"))))
    below = {os.path.basename(path)[: -len(".rlib")]: path for path in glob.glob(f"{proved}/crates/*/out/rlib/*.rlib")}
    command = ["rattle", "check", "--crate-name", crate, "src/main.rt" if os.path.exists(f"{top}/crates/{crate}/src/main.rt") else "src/lib.rt"]
    for name in ("core", "std", *libraries_of(crate)):
        command += ["--extern", f"{name}={below.get(name, f'{kit}/rlibs/{name}.rlib')}"]
    for path in (*below.values(), f"{kit}/rlibs/std.rlib"):
        command += ["-L", f"dependency={os.path.dirname(path)}"]
    command += ["--antt-project", f"{kit}/rattle/logic/antt-project.json", "--logic-built", f"{kit}/logic_built"]
    return command + ["--incremental", f"{top}/kept", "--jobs", "1"]


def said_of(crate, files, top):
    """What the prover says of the crate with these files, which are put back."""
    kept = {path: "\n".join(lines_of(path)) for path in files}
    try:
        for path, lines in files.items():
            with open(path, "w", encoding="utf-8") as opened:
                opened.write("\n".join(lines))
        ran = subprocess.run(check_of(crate, top), cwd=f"{top}/crates/{crate}", stdout=subprocess.PIPE, stderr=subprocess.STDOUT, text=True)
    finally:
        for path, text in kept.items():
            with open(path, "w", encoding="utf-8") as opened:
                opened.write(text)
    return ran.stdout


def judged(bug, said):
    """'proved', 'refused ..', or 'left out': the prover didn't try the function, since one that it calls is wrong."""
    verdicts = dict(VERDICT.findall(said))
    errors = [(path.replace("/", "::"), text) for path, text in OWN_ERROR.findall(said)]
    module = bug.file[len("src/") : -len(".rt")].replace("/", "::")
    owner, _, own_name = bug.function.rpartition("::")
    names = [name for name in verdicts if name.endswith(f"::{bug.function}")]
    # (a method of a trait has the names of its type and of the trait, in one word, before its own)
    names = names or [name for name in verdicts if re.search(rf"::{owner.rpartition('::')[2]}\w*::{own_name}$", name)]
    names = [name for name in names if f"::{module}::" in name] or names
    if not names:
        return "left out"
    name, verdict = names[0], verdicts[names[0]]
    if verdict.startswith("proved"):
        return "proved"
    # (functions that call each other have one folder of proofs, '+..' beside their own)
    own = [text for path, text in errors if name.endswith(f"::{path}") or path.startswith(f"{module}::+")]
    if "did not prove" in verdict or any(not UNFIT.search(text) for text in own):
        return "refused by a goal"
    return "refused in form" if own else "left out"


def unfit_for_rust(chosen, files, said, top):
    """Of bugs of which some don't compile, those where the compiler says that an error is."""
    places = [(f"{top}/crates/{chosen[0].crate}/{file}", int(line) - 1) for file, line in NOT_RUST.findall(said)]
    found = []
    for path, at in places:
        near = [(bug.distance(files[path], at), i) for i, bug in enumerate(chosen) if path.endswith(f"/{bug.file}")]
        found += [chosen[min(near)[1]]] if near else []
    return found or chosen[:1]


def tried(crate, folder, top):
    """The bugs of a crate by what the prover says of them."""
    found = {kind: [] for kind in KINDS}
    all_bugs = bugs_of(crate, folder)
    found["can't be planted"] = [bug for bug in all_bugs if bug.planted(lines_of(f"{top}/crates/{crate}/{bug.file}")) is None]
    waiting, alone = [bug for bug in all_bugs if bug not in found["can't be planted"]], False
    while waiting:
        chosen, files = first_of_each_function(waiting[:1] if alone else waiting, top)
        said = said_of(crate, files, top)
        if not VERDICT.search(said) and NOT_RUST.search(said):
            unfit = unfit_for_rust(chosen, files, said, top)
            found["doesn't compile"] += [bug for bug in chosen if bug in unfit]
            waiting = [bug for bug in waiting if bug not in unfit]
            continue
        left = []
        for bug in chosen:
            verdict = judged(bug, said)
            if verdict == "left out" and alone and bug.file.startswith("specs/"):
                # a lemma that the function rests on is refused, so that the function isn't tried
                verdict = "refused by a goal"
            if verdict == "left out" and not alone:
                left.append(bug)
            else:
                found[verdict].append(bug)
        alone = len(left) == len(chosen)
        waiting = [bug for bug in waiting if bug not in chosen] + left
        print(f"{crate}: {len(all_bugs) - len(waiting)} of {len(all_bugs)} tried", file=sys.stderr, flush=True)
    return found


def copied(room):
    """Copies the crates as they lie here, without what is built of them."""
    for file in subprocess.run(["git", "ls-files", "-z"], cwd=TOP, stdout=subprocess.PIPE, text=True).stdout.split("\0"):
        if file.startswith(("crates", "HANDLES")) and os.path.exists(f"{TOP}/{file}"):
            os.makedirs(os.path.dirname(f"{room}/{file}"), exist_ok=True)
            shutil.copy2(f"{TOP}/{file}", f"{room}/{file}")


def main(words):
    folder = FOLDER
    if words in (["-h"], ["--help"]):
        print(__doc__.strip())
        return 0
    if words[:1] == ["--bugs"]:
        if len(words) < 3:
            print("usage: tools/planted_bugs.py [--bugs FOLDER] CRATE..", file=sys.stderr)
            return 2
        folder, words = words[1], words[2:]
    absent = [name for name in words if not os.path.isfile(os.path.join(folder, f"{name}.bugs"))]
    if absent:
        print(f"planted_bugs.py: {', '.join(absent)}: no such file of bugs in {folder}", file=sys.stderr)
        return 2
    if not words:
        return 0 if all_can_be_planted() else 1
    room = tempfile.mkdtemp(prefix="planted-")
    status = 0
    try:
        copied(room)
        for crate in words:
            found = tried(crate, folder, room)
            shutil.rmtree(f"{room}/kept", ignore_errors=True)
            for kind in KINDS[:4]:
                for bug in found[kind]:
                    status = status if kind == "doesn't compile" and folder != FOLDER else 1
                    print(f"{kind}: {bug}")
            goal, form = len(found["refused by a goal"]), len(found["refused in form"])
            print(f"{crate}: {goal + form} of {sum(map(len, found.values()))} refused, {goal} by a goal and {form} in form", flush=True)
    finally:
        shutil.rmtree(room)
    return status


if __name__ == "__main__":
    sys.exit(main(sys.argv[1:]))
