#!/usr/bin/env python3
"""Whether what the documents name is there.

    tools/documents.py

Prints a line for each of these that it doesn't find, and ends with 1 if there is one: the file of a link and its heading; a path
in back quotes, as `tests/rows/` or `lc_poly/proofs/ListLaws`; in the tables of docs/PROVED.md and docs/MAP.md each name of a row about
crates, as a declaration or a clause of the row's crates; in docs/DEFINITIONS.md each definition, in the file of its row. And whether the
manual page has each call, fault, reason and status, as an entry.
"""
import glob
import os
import re
import sys

DOCUMENTS = ["README.md", "CONTRIBUTING.md", "CHANGELOG.md", "SECURITY.md", "tools/README.md", "bench/README.md", "tests/README.md", "examples/README.md", "web/README.md", *sorted(glob.glob("docs/*.md"))]
LINK = re.compile(r"\]\(([^)#\s]*)(?:#([^)]+))?\)")
PATH = re.compile(r"`((?:\./)?(?:tools|tests|docs|examples|bench|crates|\.ci|[a-z]+_[a-z_]+)/[^`\s]*)`")
QUOTED = re.compile(r"`([^`]+)`")
DECLARED = r"(?:fn|struct|enum|trait|ensures|requires|mod|record|data) {0}\b|^ *(?:abbrev |unfoldable )?(?:pub )?{0} :"


def text_of(file):
    with open(file, encoding="utf-8") as opened:
        return opened.read()


def headings(document):
    for line in re.findall(r"^#+ (.*)$", text_of(document), re.M):
        yield re.sub(r"[^\w\- ]", "", line.lower()).strip().replace(" ", "-")


def links(document):
    for file, heading in LINK.findall(text_of(document)):
        if file.startswith("http"):
            continue
        path = os.path.normpath(os.path.join(os.path.dirname(document), file)) if file else document
        if not os.path.exists(path):
            yield file
        elif heading and heading not in headings(path):
            yield f"{file}#{heading}"


def paths(document):
    for path in PATH.findall(text_of(document)):
        places = [path, "crates/" + path]
        if not any(glob.glob(place + ending) for place in places for ending in ("", ".rt", ".antt")):
            yield path


def rows(document):
    for line in text_of(document).splitlines():
        if line.startswith("| `") or line.startswith("| |"):
            yield [cell.strip() for cell in re.split(r"(?<!\\)\|", line)[1:-1]]


def sources(crate):
    files = glob.glob(f"crates/{crate}/src/*.rt") + glob.glob(f"crates/{crate}/specs/*.antt") + glob.glob(f"crates/{crate}/proofs/*.antt")
    return "\n".join(map(text_of, files))


def clauses(document, column):
    """The names in a column of the rows whose first cell names crates; a row without a first cell goes on with those before it."""
    crates = []
    for cells in rows(document):
        named = [name for name in QUOTED.findall(cells[0]) if os.path.isdir("crates/" + name)]
        if cells[0] and not named:
            continue
        crates = named or crates
        if len(cells) <= column:
            continue
        text = "\n".join(map(sources, crates))
        for name in QUOTED.findall(cells[column]):
            last = name.split("::")[-1]
            if re.fullmatch(r"\w+", last) and not os.path.isdir("crates/" + last):
                if not re.search(DECLARED.format(last), text, re.M):
                    yield f"{name} of {', '.join(crates)}"


def definitions(document):
    """The files that a row's first cell names, in the folder of the heading or with their own, have the names of its second cell."""
    folder, files = "", []
    for line in text_of(document).splitlines():
        if line.startswith("#"):
            named = re.search(r"`(crates/\w+/specs)`", line)
            folder = named.group(1) if named else ""
        if not line.startswith("| `") and not line.startswith("| |"):
            continue
        cells = [cell.strip() for cell in re.split(r"(?<!\\)\|", line)[1:-1]]
        if cells[0]:
            files = []
            for name in QUOTED.findall(cells[0]):
                in_crates = re.match(r"(crates/.*)/[^/]+$", name)
                folder = in_crates.group(1) if in_crates else folder
                files.append(name if in_crates else f"{folder}/{name}")
        missing = [file for file in files if not glob.glob(file) and not glob.glob(file.replace("/specs/", "/src/"))]
        yield from missing
        text = "\n".join(text_of(place) for file in files for place in (file, file.replace("/specs/", "/src/")) if os.path.isfile(place))
        for name in [] if missing else QUOTED.findall(cells[1]):
            if re.fullmatch(r"[\w-]+", name) and not re.search(DECLARED.format(name), text, re.M):
                yield f"{name} of {', '.join(files)}"


def manual_page():
    """The calls of the reference program, the faults and reasons that are explained and the statuses of docs/FORMATS.md that have no
    entry of their own."""
    import explain
    import explain_certificate
    page = text_of("docs/codes.1")
    sections = {part.split("\n")[0]: part for part in page.split("\n.SH ")}
    statuses = re.findall(r"^\| (\d+) \| ", text_of("docs/FORMATS.md").split("### Statuses")[1].split("\n## ")[0], re.M)
    entries = {"CALLS": [name + r"\(" for name in [*explain.CALLS, *explain.QUERIES]], "FAULTS": explain.MEANINGS,
               "REASONS": explain_certificate.MEANINGS, "EXIT STATUS": statuses}
    for section, wanted in entries.items():
        yield from (f"{entry} of {section}" for entry in wanted if not re.search(rf"^\.B (.*, )?{entry}(?!\d)", sections[section], re.M))


def main():
    missing = [f"{document}: {name}" for document in DOCUMENTS for kind in (links, paths) for name in kind(document)]
    missing += [f"docs/PROVED.md: {name}" for name in clauses("docs/PROVED.md", 2)]
    missing += [f"docs/MAP.md: {name}" for name in clauses("docs/MAP.md", 2)]
    missing += [f"docs/DEFINITIONS.md: {name}" for name in definitions("docs/DEFINITIONS.md")]
    missing += [f"docs/codes.1: {name}" for name in manual_page()]
    for line in missing:
        print(line)
    return 1 if missing else 0


if __name__ == "__main__":
    sys.exit(main())
