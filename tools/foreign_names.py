"""What docs/FROM_GUAVA.md says of the names of GUAVA, Sage and Magma.

`said_of(name)` gives a sentence, or None. The page's first table has a call of this language in its first column and those of the other
systems beside it; its second table says how to do what has no name here; each line of its last list names what is not here. If
the page isn't beside the program no name is known.
"""
import re
from functools import lru_cache
from pathlib import Path

PAGE = Path(__file__).resolve().parent.parent / "docs" / "FROM_GUAVA.md"
QUOTED = re.compile(r"`([^`]+)`")
LINK = re.compile(r"\[([^\]]+)\]\([^)]*\)")


def name_in(snippet):
    """The outermost call in a piece of another language, or the name that the whole of it is."""
    called = re.match(r"(?:\w+\.)*(\w+)\(", snippet)
    if called:
        return called.group(1)
    return snippet if re.fullmatch(r"\w+", snippet) else None


def sections(text):
    """The lines below each heading."""
    found, heading = {}, ""
    for line in text.splitlines():
        if line.startswith("#"):
            heading = line.strip("# ")
        found.setdefault(heading, []).append(line)
    return found


def cells(line):
    return [cell.strip() for cell in line.split("|")[1:-1]]


def of_first_table(lines):
    rows = [cells(line) for line in lines if line.startswith("|")]
    for row in rows[2:]:
        for system, cell in zip(rows[0][1:], row[1:]):
            for snippet in [row[0]] if cell == "the same" else QUOTED.findall(cell):
                snippet = snippet.strip("`")
                name = name_in(snippet)
                if name:
                    yield len(snippet), name, f"for `{snippet}` of {system.split(' ')[0]} write {row[0]}"


def of_second_table(lines):
    for row in [cells(line) for line in lines if line.startswith("| ")][1:]:
        for snippet in QUOTED.findall(row[0]):
            name = name_in(snippet)
            if name:
                yield 0, name, f"there is no `{name}` here; instead: " + LINK.sub(r"\1", row[1])


def of_list(lines):
    for line in lines:
        if line.startswith("- "):
            topic, _, names = line[2:].partition(": ")
            for snippet in QUOTED.findall(names):
                name = name_in(snippet)
                if name:
                    yield 0, name, f"there is no `{name}`: {topic[:1].lower()}{topic[1:]} are not here"


@lru_cache(maxsize=1)
def table():
    """Each name with what is said of it: in the shortest expression of the first table that has it, else where it is first."""
    if not PAGE.exists():
        return {}
    parts = sections(PAGE.read_text(encoding="utf-8"))
    found = {}
    for heading, reader in (("Coming from GUAVA, Sage or Magma", of_first_table), ("Calls that have no name here", of_second_table), ("What is not here", of_list)):
        for _, name, sentence in sorted(reader(parts.get(heading, [])), key=lambda entry: entry[0]):
            found.setdefault(name, sentence)
    return found


def said_of(name):
    return table().get(name)
