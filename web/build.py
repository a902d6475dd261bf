#!/usr/bin/env python3
"""Makes the page of what it stands on, and the module that it runs.

    web/build.py                     makes web/index.html of its sources and of web/codes.wasm
    web/build.py --check             whether web/index.html is what they make
    web/build.py --module BC FILE    makes FILE, a module like web/codes.wasm, of the program's LLVM module BC; needs the Rattle kit
    web/build.py --texts             prints what the page knows of the language, as JSON

The script tools/release makes both files of the proved sources. All bytes of index.html are fixed by its sources but for the
packing of two parts of it, which may differ with another zlib: so --check compares these unpacked.
"""
import base64
import gzip
import hashlib
import json
import os
import re
import subprocess
import sys
import tempfile
import unicodedata
from pathlib import Path

HERE = Path(__file__).resolve().parent
TOP = HERE.parent
sys.path[:0] = [str(TOP / "tools"), str(HERE)]

import check_certificate  # noqa: E402
import explain  # noqa: E402
import explain_bytes  # noqa: E402
import explain_certificate  # noqa: E402
import explain_tree  # noqa: E402
import foreign_names  # noqa: E402
import retarget  # noqa: E402

SHARED = ["language.js", "fields.js"]
EXPLAINS = ["explain.js", "explain_bytes.js", "explain_certificate.js"]
WORKER = ["host.js", *SHARED, *EXPLAINS, "explained.js", "worker.js"]
PAGE = [*SHARED, "store.js", "parts.js", "points.js", "draw.js", "search.js", "answers.js", "editor.js", "session.js", "main.js"]
# the characters that are named where they are no part of a script
NAMED = [(0xA0, 0x17F), (0x386, 0x3CE), (0x410, 0x44F), (0x2000, 0x2044), (0x2060, 0x2064), (0x2070, 0x209C), (0x2102, 0x2124), (0x2190, 0x21D4),
         (0x2200, 0x222A), (0x2248, 0x22A5), (0x22C5, 0x22C6), (0x2308, 0x230B), (0x27E8, 0x27E9), (0x3000, 0x3002), (0xFEFF, 0xFEFF), (0xFF08, 0xFF1D)]
# the stack of the module, at the front of its memory, so that what runs over it traps
STACK = 1048576
PACKED = re.compile(r'<script type="application/octet-stream" id="(?:module|texts)">([^<]*)</script>')


def text_of(file):
    return Path(file).read_text(encoding="utf-8")


# --- what the page knows

def names_of_characters():
    signs = (chr(code) for first, last in NAMED for code in range(first, last + 1))
    return {f"U+{ord(sign):04X}": unicodedata.name(sign) for sign in signs if unicodedata.name(sign, "")}


def kinds_of(table):
    return {name: [list(kinds) for kinds in forms] for name, (forms, _) in table.items()}


def texts():
    """The tables of tools/explain.py and of the files beside it."""
    return {
        "calls": kinds_of(explain.CALLS), "queries": kinds_of(explain.QUERIES), "kinds": explain.KINDS, "meanings": explain.MEANINGS, "empty": explain.EMPTY,
        "signs": explain.SIGNS, "fieldSizes": explain.FIELD_SIZES, "longest": explain.LONGEST, "foreign": foreign_names.table(),
        "byteMarks": [[mark.decode("latin-1"), sentence] for mark, sentence in explain_bytes.MARKS.items()], "byteSigns": explain_bytes.SIGNS,
        "loops": [word.decode() for word in explain_bytes.LOOPS], "unicode": names_of_characters(),
        "certificate": {"meanings": explain_certificate.MEANINGS, "ofTrees": explain_certificate.OF_TREES, "rules": explain_certificate.RULES, "mostWords": check_certificate.MOST_WORDS},
        "tree": {"kinds": check_certificate.KINDS, "searchRules": explain_tree.SEARCH_RULES, "own": explain_tree.OWN, "refusals": explain_tree.REFUSALS,
                 "mostClaims": check_certificate.MOST_CLAIMS, "mostNested": check_certificate.MOST_NESTED},
    }


def plain(markdown):
    """A sentence of a document without the signs of Markdown."""
    return re.sub(r"\[([^\]]*)\]\([^)]*\)", r"\1", markdown).replace("**", "").strip()


def calls():
    """Of each call how it is written, what docs/SCRIPT.md says it does, and when it is refused."""
    found = {}
    for part in re.split(r"^### ", text_of(TOP / "docs/SCRIPT.md"), flags=re.M)[1:]:
        heading, _, body = part.partition("\n")
        forms = re.findall(r"\b([A-Z]\w*)\(([^)]*)\)", heading)
        paragraphs = [plain(it) for it in body.split("\n\n") if it.strip() and not it.startswith(("```", "|"))]
        refused = next((it for it in paragraphs if it.startswith("Refused:")), "")
        for name, words in forms:
            entry = found.setdefault(name, {"forms": [], "says": paragraphs[0] if paragraphs else "", "refused": refused})
            entry["forms"].append(f"{name}({words})")
    return found


def examples():
    """The scripts of examples/, and what examples/README.md says of each."""
    said = {}
    for names, sentence in re.findall(r"^\| ((?:`[\w.]+`(?:, )?)+) \| (.*) \|$", text_of(TOP / "examples/README.md"), re.M):
        said.update({name: plain(sentence) for name in re.findall(r"`([\w.]+)`", names)})
    scripts = sorted((TOP / "examples").glob("*.codes"), key=lambda file: (file.name.startswith("fault_"), list(said).index(file.name) if file.name in said else 99))
    return [{"name": file.stem, "says": said.get(file.name, ""), "script": text_of(file)} for file in scripts]


def version():
    return re.search(r'const VERSION: &str = "codes ([\d.]+)', text_of(TOP / "crates/codes/src/texts.rt")).group(1)


# --- the page

def joined(parts):
    return "\n".join(text_of(HERE / part).replace("'use strict';\n", "", 1).strip() for part in parts)


def hash_of(text):
    return "sha256-" + base64.b64encode(hashlib.sha256(text.encode()).digest()).decode()


def known():
    """What the page knows, and the script of its worker, as JSON."""
    return json.dumps({"texts": texts(), "calls": calls(), "examples": examples(), "worker": joined(WORKER)}, ensure_ascii=False, separators=(",", ":")).encode()


def packed(data):
    return base64.b64encode(gzip.compress(data, 9, mtime=0)).decode()


def unpacked(text):
    return gzip.decompress(base64.b64decode(text))


def page(module, texts_of_page):
    """The whole page around its two packed parts."""
    script = "\n".join(["", "'use strict';", "(() => {", joined(PAGE), "})();", ""])
    style = "\n" + text_of(HERE / "page.css")
    policy = (f"default-src 'none'; script-src '{hash_of(script)}' 'wasm-unsafe-eval' blob:; worker-src blob:; style-src '{hash_of(style)}'; "
              "img-src data:; base-uri 'none'; form-action 'none'")
    html = text_of(HERE / "page.html")
    for mark, text in {"POLICY": policy, "STYLE": style, "MODULE": module, "TEXTS": texts_of_page, "SCRIPT": script, "VERSION": version()}.items():
        html = html.replace(f"@{mark}@", text, 1)
    return html


def write_page():
    (HERE / "index.html").write_text(page(packed((HERE / "codes.wasm").read_bytes()), packed(known())), encoding="utf-8", newline="\n")


def check_page():
    """What is wrong with web/index.html, or nothing."""
    there = (HERE / "index.html").read_bytes().decode("utf-8")
    parts = PACKED.findall(there)
    if len(parts) != 2 or unpacked(parts[0]) != (HERE / "codes.wasm").read_bytes():
        return "web/index.html doesn't hold the module web/codes.wasm"
    if unpacked(parts[1]) != known() or page(*parts) != there:
        return "web/index.html isn't made of its sources as they are here: run web/build.py"
    return ""


# --- the module

def kit():
    found = subprocess.run(["sh", "-c", 'readlink -f "$(command -v rt || echo "${RATTLE_KIT:-/opt/rattle}/bin/rt")"'], capture_output=True, text=True, check=True)
    return Path(found.stdout.strip()).parent.parent


def make_module(bitcode, to):
    """Compiles the LLVM module of the program for WebAssembly, beside host.c."""
    clang = kit() / "toolchain/bin/clang"
    target = [f"--target={retarget.TRIPLE}", "-mcpu=lime1", "--no-default-config"]

    def run(*words, program=clang, **how):
        subprocess.run([str(word) for word in words], executable=program, check=True, **how)

    with tempfile.TemporaryDirectory() as folder:
        def made(name):
            return os.path.join(folder, name)

        run("clang", "--target=x86_64-unknown-linux-gnu", "--no-default-config", "-S", "-emit-llvm", "-O0", "-Xclang", "-disable-llvm-passes", "-x", "ir", bitcode, "-o", made("native.ll"))
        with open(made("native.ll"), encoding="utf-8") as lines, open(made("codes.ll"), "w", encoding="utf-8") as out:
            out.writelines(line + "\n" for line in retarget.retargeted(lines))
        # (a fifth smaller than by -O3, and as fast; by a name alone, so that no path is in the module)
        run("clang", *target, "-Os", "-c", "-x", "ir", "codes.ll", "-o", "codes.o", cwd=folder)
        run("clang", *target, "-O2", "-std=c17", "-ffreestanding", "-fno-builtin", "-Wall", "-Wextra", "-Wno-unused-parameter", "-Werror", "-c", HERE / "host.c", "-o", "host.o", cwd=folder)
        run("wasm-ld", "--stack-first", "-z", f"stack-size={STACK}", "--no-entry", "--gc-sections", "--strip-all", "-o", "codes.wasm", "codes.o", "host.o", cwd=folder)
        Path(to).write_bytes(Path(made("codes.wasm")).read_bytes())


def main(words):
    if not words:
        write_page()
    elif words == ["--check"]:
        wrong = check_page()
        if wrong:
            print(wrong)
            return 1
    elif words[0] == "--module" and len(words) == 3:
        try:
            make_module(words[1], words[2])
        except retarget.Unknown as unknown:
            print(unknown, file=sys.stderr)
            return 1
    elif words == ["--texts"]:
        print(json.dumps(texts()))
    else:
        print(__doc__, file=sys.stderr)
        return 2
    return 0


if __name__ == "__main__":
    sys.exit(main(sys.argv[1:]))
