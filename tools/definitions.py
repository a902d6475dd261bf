#!/usr/bin/env python3
"""Lists what must be believed: the definitions that each clause of the top calls and of the laws rests on.

    tools/definitions.py                 the page docs/BELIEVED.md, on standard output
    tools/definitions.py NAME [CLAUSE]   everything that the clauses of one public function, or one of them, rest on

It reads the sources alone: crates.txt, the specs of each crate, and the contracts in its src. A definition is listed with
the line that the head of its file has for it. Equations for calls that are not built yet are left out, so that the list is
cut to what the program can do.
"""
import os
import re
import sys

ROOT = os.path.dirname(os.path.dirname(os.path.abspath(__file__)))
TOP = [("lc_session", "run_session"), ("lc_share", "run_part"), ("lc_join", "join_parts"), ("codes", "run")]
NAME = re.compile(r"[A-Za-z_][A-Za-z_0-9]*")
STARTS = re.compile(r"^(?:unfoldable |abbrev )?(?:pub )?(?:(record|data) )?([A-Za-z_][A-Za-z_0-9]*)\b")


def read(path):
    with open(path, encoding="utf-8") as f:
        return f.read()


def crates_in_order():
    lines = read(os.path.join(ROOT, "crates.txt")).split("\n")
    names = [line.split(":")[0].split()[0] for line in lines if ":" in line and not line.startswith("#")]
    return [name for name in names if os.path.isdir(os.path.join(ROOT, "crates", name))]


class Definition:
    def __init__(self, crate, module, name, order):
        self.crate, self.module, self.name, self.order = crate, module, name, order
        self.text = []
        self.meaning = ""

    def key(self):
        return (self.crate, self.module, self.name)


class Module:
    """A file of specs: its definitions, and which names its imports bring in."""

    def __init__(self, crate, name, path):
        self.crate, self.name = crate, name
        self.imports, self.aliases, self.definitions, self.makes = {}, {}, {}, {}
        self.read(read(path).split("\n"))

    def read(self, lines):
        head, i = [], 0
        while i < len(lines) and lines[i].startswith("--"):
            head.append(lines[i])
            i += 1
        order, current, comment, is_mutual = 0, None, "", False
        for line in lines[i:]:
            if line.startswith("use "):
                add_import(line, self.imports, self.aliases)
            elif line.startswith("-- "):
                comment = (comment + " " + line.lstrip("- ")).strip()
            elif line.startswith(("pub ", "unfoldable ", "abbrev ", "mutual")):
                name = STARTS.match(line).group(2) if STARTS.match(line) else ""
                is_mutual = name == "mutual"
                if name and name != "mutual":
                    current = self.definitions.setdefault(name, Definition(self.crate, self.name, name, order))
                    current.meaning = current.meaning or comment
                    current.text.append(line)
                    order += 1
                comment = ""
            elif line.strip():
                signed = re.match(r"  pub (?:data |record )?([A-Za-z_]\w*)\b.* : ", line)
                own = re.match(r"(?:  )?([A-Za-z_]\w*)\b", line)
                if signed and is_mutual:
                    current = self.definitions.setdefault(signed.group(1), Definition(self.crate, self.name, signed.group(1), order))
                    order += 1
                elif own and own.group(1) in self.definitions and not line.startswith("    "):
                    current = self.definitions[own.group(1)]
                if current is not None:
                    made = re.match(r"  (?:  )?([A-Za-z_]\w*) :", line)
                    if made and current.text and re.search(r"\bdata ", current.text[0]):
                        self.makes[made.group(1)] = current.name
                    current.text.append(line)
        self.give_meanings(head)

    def give_meanings(self, head):
        entries = []
        for line in head:
            found = re.match(r"--   (\S.*?)(?:\s{2,}(.*))?$", line)
            if found:
                entries.append([found.group(1), found.group(2) or ""])
            elif entries and re.match(r"--\s{6,}\S", line):
                entries[-1][1] = (entries[-1][1] + " " + line[2:].strip()).strip()
        for left, meaning in entries:
            for name in NAME.findall(left):
                if name in self.definitions and meaning:
                    own = self.definitions[name]
                    if not own.meaning or len(NAME.findall(left)) and left.split()[0].rstrip(",") == name:
                        own.meaning = meaning
                    own.meaning = own.meaning or meaning


def add_import(line, imports, aliases):
    line = line.strip().rstrip(";")
    group = re.match(r"(?:ghost )?use Rattle\.(\w+)\.(?:specs|proofs)\.([\w.]+?)\.\{(.*)\}$", line)
    if group:
        for item in group.group(3).split(","):
            parts = item.strip().split(" as ")
            imports[parts[-1].strip()] = (group.group(1), group.group(2), parts[0].strip())
        return
    whole = re.match(r"(?:ghost )?use Rattle\.(\w+)\.(?:specs|proofs)\.([\w.]+) as (\w+)$", line)
    if whole:
        aliases[whole.group(3)] = (whole.group(1), whole.group(2))


def all_modules(crates):
    found = {}
    for crate in crates:
        folder = os.path.join(ROOT, "crates", crate, "specs")
        listed = os.path.join(folder, "Lib.antt")
        if not os.path.isfile(listed):
            continue
        for name in re.findall(r"pub mod (\w+)", read(listed)):
            path = os.path.join(folder, name + ".antt")
            if os.path.isfile(path):
                found[(crate, name)] = Module(crate, name, path)
    return found


def built_calls(modules):
    """The calls that `built_calls` lists; it lists those that give a value by the name of their list."""
    text = "\n".join(modules[("lc_calls", "Built")].definitions["built_calls"].text)
    if "value_calls" in text:
        text += "\n".join(modules[("lc_language", "Calls")].definitions["value_calls"].text)
    return set(NAME.findall(text))


def every_call(crates):
    found = set()
    for crate in crates:
        path = os.path.join(ROOT, "crates", crate, "src", "lib.rt")
        if os.path.isfile(path):
            for group in re.finditer(r"pub enum (?:Value|Query)Call \{(.*?)\n\}", read(path), re.S):
                found |= set(re.findall(r"^\s+(\w+),", group.group(1), re.M))
    return found


def bound_of(calls, modules):
    """The bound calls that these calls are bound to: `value_forms call.Name = ..` names them."""
    table = modules[("lc_language", "Calls")]
    made = {name for name, whole in table.makes.items() if whole in ("BoundCall", "BoundQuery")}
    lines = table.definitions["value_forms"].text + table.definitions["query_forms"].text
    found = set()
    for line in lines:
        case = re.match(r"(?:value|query)_forms \w+\.(\w+) = (.*)$", line)
        if case and case.group(1) in calls:
            found |= made & set(NAME.findall(case.group(2)))
    return found


def traits_of(crate):
    """(trait, its meaning, its ghost members as (name, type, meaning)) for each public trait of a crate that has some."""
    found, folder = [], os.path.join(ROOT, "crates", crate, "src")
    for file in sorted(os.listdir(folder)):
        comment, trait = [], None
        for line in read(os.path.join(folder, file)).split("\n"):
            ghost = re.match(r"    ghost (\w+): \{ (.*) \};", line)
            opened = re.match(r"pub trait (\w+)", line)
            if line.strip().startswith("///"):
                comment.append(line.strip()[3:].strip())
                continue
            if opened:
                trait = (opened.group(1), " ".join(comment), [])
                found.append(trait)
            elif ghost and trait:
                trait[2].append((*ghost.groups(), " ".join(comment)))
            elif line.startswith("}"):
                trait = None
            comment = []
    return [trait for trait in found if trait[2]]


class Sources:
    def __init__(self):
        self.crates = crates_in_order()
        self.modules = all_modules(self.crates)
        calls = every_call(self.crates) - built_calls(self.modules)
        self.unbuilt = calls | bound_of(calls, self.modules)

    def resolve(self, name, imports, aliases, here=None):
        if here and name in here.definitions:
            return here.definitions[name].key()
        if here and name in here.makes:
            return (here.crate, here.name, here.makes[name])
        if name not in imports:
            return None
        crate, module, own = imports[name]
        target = self.modules.get((crate, module))
        if target is None:
            return None
        if own in target.definitions:
            return (crate, module, own)
        if own in target.makes:
            return (crate, module, target.makes[own])
        return None

    def words_of(self, text, imports, aliases, here=None):
        found = set()
        for dotted in re.findall(r"[A-Za-z_]\w*(?:\.[A-Za-z_]\w*)+", text):
            first, second = dotted.split(".")[:2]
            if first in aliases:
                target = self.modules.get(aliases[first])
                if target is not None:
                    name = second if second in target.definitions else target.makes.get(second)
                    if name:
                        found.add((target.crate, target.name, name))
        for name in NAME.findall(text):
            key = self.resolve(name, imports, aliases, here)
            if key:
                found.add(key)
        return found

    def parts(self, key):
        module = self.modules[key[:2]]
        own = module.definitions[key[2]]
        kept = []
        for line in own.text:
            if line.strip().startswith("--"):
                continue
            case = re.match(r"\s*" + re.escape(own.name) + r"\s+\(?(?:[a-z]\w*\.)?([A-Za-z]\w*)", line)
            if case and case.group(1) in self.unbuilt:
                continue
            kept.append(line)
        return self.words_of("\n".join(kept), module.imports, module.aliases, module) - {key}

    def rests_on(self, first):
        seen, todo = set(), list(first)
        while todo:
            key = todo.pop()
            if key not in seen:
                seen.add(key)
                todo.extend(self.parts(key))
        return sorted(seen, key=self.place)

    def place(self, key):
        crate, module, name = key
        listed = list(self.modules)
        return (listed.index((crate, module)), self.modules[(crate, module)].definitions[name].order)

    def clauses(self):
        """(crate, function, is_law, name, text, words) for each function with clauses that others call."""
        found = []
        for crate in self.crates:
            folder = os.path.join(ROOT, "crates", crate, "src")
            for file in sorted(os.listdir(folder)) if os.path.isdir(folder) else []:
                if file.endswith(".rt"):
                    found += self.clauses_in(crate, read(os.path.join(folder, file)))
        return found

    def clauses_in(self, crate, text):
        imports, aliases, found = {}, {}, []
        for line in text.split("\n"):
            if line.strip().startswith("ghost use "):
                add_import(line, imports, aliases)
        for start in re.finditer(r"^ *pub(?:\(crate\))? fn (\w+)", text, re.M):
            rest = text[start.start():]
            brace = re.search(r"^ *\{", rest, re.M)
            end = brace.start() if brace else len(rest)
            stop = re.search(r"^ *pub(?:\(crate\))? fn ", rest[10:], re.M)
            if stop:
                end = min(end, stop.start() + 10)
            is_law = bool(re.match(r" *\{ *\n? *\}", rest[end:end + 20]))
            for clause in re.finditer(r"^ *ensures (?:(\w+) )?\{ (.*?) \}$", rest[:end], re.M | re.S):
                body = " ".join(clause.group(2).split())
                found.append((crate, start.group(1), is_law, clause.group(1) or "result", body, self.words_of(body, imports, aliases)))
        return found


def entry(sources, key):
    own = sources.modules[key[:2]].definitions[key[2]]
    meaning = own.meaning or "a step of those that cite it"
    return "| `%s` | %s |" % (own.name, meaning.replace("|", "\\|"))


def table(sources, keys):
    lines, last = [], None
    for key in keys:
        if key[:2] != last:
            last = key[:2]
            lines += ["", "`crates/%s/specs/%s.antt`" % last, "", "| Name | Meaning |", "|---|---|"]
        lines.append(entry(sources, key))
    return lines


def outside():
    """What contracts see of the outside: the ghost members of the traits, whose meaning the clauses of the traits give."""
    lines = ["", "## What contracts see of the outside", "",
             "The ghost members of the traits of `lc_io`. The clauses of a trait's methods, in `crates/lc_io/src`, say what each does to them;",
             "they hold of every type that is a source, a sink, a vault or a watcher.", "",
             "| Trait | Member | Type | Meaning |", "|---|---|---|---|"]
    for trait, _meaning, ghosts in traits_of("lc_io"):
        for name, kind, meaning in ghosts:
            lines.append("| `%s` | `%s` | `%s` | %s |" % (trait, name, kind, meaning.replace("|", "\\|")))
    return lines


def page(sources):
    lines = ["# What must be believed, clause by clause", "",
             "Made by `tools/definitions.py` from the sources; the repository's own checks compare it. For each clause of the",
             "top calls and of the laws it lists the definitions that it rests on, in reading order, each once: what an earlier clause",
             "lists is not listed again. `tools/definitions.py NAME CLAUSE` lists all that one clause rests on.",
             "[DEFINITIONS.md](DEFINITIONS.md) says how to read a definition, where each comes from and what evaluates it."]
    lines += outside()
    clauses = sources.clauses()
    chosen = [c for c in clauses if (c[0], c[1]) in TOP] + [c for c in clauses if c[2] and (c[0], c[1]) not in TOP]
    seen, last = set(), None
    for crate, function, _law, name, body, first in chosen:
        if (crate, function) != last:
            last = (crate, function)
            lines += ["", "## `%s` of `%s`" % (function, crate)]
        all_keys = sources.rests_on(first)
        new = [key for key in all_keys if key not in seen]
        seen.update(new)
        lines += ["", "**%s**: `%s`" % (name, body), ""]
        lines.append("%d definitions, %s." % (len(all_keys), "all listed above" if not new else "%d of them new" % len(new)))
        lines += table(sources, new)
    return "\n".join(lines) + "\n"


def main():
    sources = Sources()
    if len(sys.argv) == 1:
        sys.stdout.write(page(sources))
        return 0
    chosen = [c for c in sources.clauses() if c[1] == sys.argv[1] and (len(sys.argv) < 3 or c[3] == sys.argv[2])]
    if not chosen:
        print("no public clause of that name", file=sys.stderr)
        return 1
    for crate, function, _law, name, body, first in chosen:
        print("%s of %s, %s: %s" % (function, crate, name, body))
        print("\n".join(table(sources, sources.rests_on(first))))
        print()
    return 0


if __name__ == "__main__":
    sys.exit(main())
