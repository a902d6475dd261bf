"""LLVM's text of the program for x86-64, rewritten as text for WebAssembly with addresses of 32 bits.

`retargeted(lines)` gives the lines of the new module; it raises `Unknown` at the first line whose form it doesn't know, so that nothing is
passed on unseen.

The module places everything by bytes (`getelementptr i8`), with eight bytes for a pointer, and makes no pointer of a number. So each pointer keeps
its eight bytes here, of which it uses the first four:
- a variable for a pointer has eight bytes, and so has each pointer in a constant;
- a value of several fields, one of them a pointer, is loaded and stored field by field, at the places that x86-64 gives to the fields;
- the number of an address is extended by zeros.
No other line of a function is changed.
"""
import re

LAYOUT = "e-m:e-p:32:32-p10:8:8-p20:8:8-i64:64-i128:128-n32:64-S128-ni:1:10:20"
TRIPLE = "wasm32-unknown-unknown"
ENTRY = "codes_main"
# what the module may call: the functions of host.c, and of LLVM those that mean the same everywhere
HOST = set("""rattle_alloc rattle_realloc rattle_dealloc malloc free rattle_arg rattle_env rattle_env_at rattle_errno rattle_set_errno
    read write open close rename unlink statx ftruncate fchmod fsync fdatasync flock _exit abort __sysv_signal
    pthread_create pthread_join pthread_detach pthread_self sched_yield
    pthread_attr_init pthread_attr_destroy pthread_attr_setguardsize pthread_attr_setstacksize""".split())
INTRINSICS = re.compile(
    r"llvm\.(trap|assume|expect\.i1|(memset|memmove|memcpy)\.(p0\.)*i64|(cttz|ctlz|ctpop|bswap|bitreverse|fshl|fshr)\.i\d+"
    r"|(umin|umax|smin|smax|uadd\.sat|usub\.sat)\.i\d+|[us](add|sub|mul)\.with\.overflow\.i\d+|vector\.reduce\.\w+\.v\d+i\d+"
    r"|lifetime\.(start|end)\.p0|arithmetic\.fence\.f64)$")
# attributes of functions in quotes: those of x86-64 and of the stack there are dropped
DROPPED = {"frame-pointer", "probe-stack", "stack-probe-size", "target-cpu", "target-features", "tune-cpu", "rattle-sig", "no-trapping-math", "min-legal-vector-width"}
PLAIN = set("""add sub mul udiv sdiv urem srem and or xor shl lshr ashr icmp fcmp fadd fsub fmul fdiv fneg zext sext trunc uitofp sitofp fptoui fptosi
    bitcast freeze select phi br switch ret unreachable call tail extractvalue insertvalue extractelement insertelement shufflevector fence""".split())
VALUE = re.compile(r"  (%\S+) = (\w+)\b(.*)")
OTHER = re.compile(r"  (\w+)\b(.*)")
SCALAR = re.compile(r"(i\d+|double|float|ptr)$")


class Unknown(Exception):
    pass


def need(holds, line):
    if not holds:
        raise Unknown(f"a form that web/retarget.py doesn't know: {line.strip()[:200]}")


def split(text):
    """The parts of a list, parted by commas outside all brackets and quotes."""
    parts, depth, start, quoted = [], 0, 0, False
    for i, sign in enumerate(text):
        if sign == '"':
            quoted = not quoted
        elif not quoted and sign in "([{<":
            depth += 1
        elif not quoted and sign in ")]}>":
            depth -= 1
        elif not quoted and sign == "," and depth == 0:
            parts.append(text[start:i].strip())
            start = i + 1
    return [*parts, text[start:].strip()] if text.strip() else parts


def has_pointer(kind):
    return re.search(r"\bptr\b", kind) is not None


def type_at(text):
    """The type at the front of a text, and what follows it."""
    closing = {"{": "}", "[": "]", "<": ">"}.get(text[0])
    if closing is None:
        kind, _, rest = text.partition(" ")
        return kind.rstrip(","), rest if not kind.endswith(",") else ", " + rest
    depth = 0
    for i, sign in enumerate(text):
        depth += sign in "{[<"
        depth -= sign in "}]>"
        if depth == 0:
            return text[:i + 1], text[i + 1:].lstrip()
    raise Unknown(text)


def size_of(kind, line):
    """The bytes of a number or pointer on x86-64, which are its alignment too."""
    need(SCALAR.match(kind), line)
    bits = {"ptr": 64, "double": 64, "float": 32, "i1": 8}.get(kind) or int(kind[1:])
    need(bits in (8, 16, 32, 64, 128), line)
    return bits // 8


def fields_of(kind, line):
    """The fields of `{ a, b, .. }`, each with its place on x86-64."""
    need(kind.startswith("{"), line)
    found, at = [], 0
    for field in split(kind[1:-1]):
        size = size_of(field, line)
        at = -(-at // size) * size
        found.append((field, at))
        at += size
    return found


def placed(pointer, at, name):
    """A line, if one is needed, that finds the place of a field, and its name."""
    return ([f"  {name} = getelementptr i8, ptr {pointer}, i64 {at}"], name) if at else ([], pointer)


def loaded(name, kind, pointer, line):
    lines, front, last = [], f"%field.{name[1:]}" if name[1] != '"' else f'%"field.{name[2:-1]}', "" if name[1] != '"' else '"'
    value, fields = "poison", fields_of(kind, line)
    for i, (field, at) in enumerate(fields):
        more, place = placed(pointer, at, f"{front}.at{i}{last}")
        whole = name if i == len(fields) - 1 else f"{front}.with{i}{last}"
        lines += [*more, f"  {front}.{i}{last} = load {field}, ptr {place}", f"  {whole} = insertvalue {kind} {value}, {field} {front}.{i}{last}, {i}"]
        value = whole
    return lines


def stored(kind, value, pointer, number, line):
    lines = []
    for i, (field, at) in enumerate(fields_of(kind, line)):
        front = f"%stored.{number}.{i}"
        more, place = placed(pointer, at, f"{front}.at")
        lines += [f"  {front} = extractvalue {kind} {value}, {i}", *more, f"  store {field} {front}, ptr {place}"]
    return lines


def of_load(name, rest, line):
    kind, after = type_at(re.sub(r"^ (atomic |volatile )*", "", rest).lstrip())
    if not has_pointer(kind):
        return [line]
    pointer = re.match(r", ptr ([%@](?:\"[^\"]*\"|[^,\s]+))(, align \d+)?(, ![a-z.]+ !\d+)*$", after)
    need(pointer and "atomic" not in rest and "volatile" not in rest, line)
    return [line] if kind == "ptr" else loaded(name, kind, pointer.group(1), line)


def of_store(rest, number, line):
    kind, after = type_at(re.sub(r"^ (atomic |volatile )*", "", rest).lstrip())
    if not has_pointer(kind):
        return [line]
    need("atomic" not in rest and "volatile" not in rest, line)
    if kind == "ptr":
        return [line]
    value, target = split(after)[:2]
    need(target.startswith("ptr "), line)
    return stored(kind, value, target[4:], number, line)


def of_address(name, rest, line):
    taken = re.match(r" ptr ([%@](?:\"[^\"]*\"|\S+)) to i64$", rest)
    need(taken, line)
    return [f"  {name} = ptrtoint ptr {taken.group(1)} to i64"]


def of_variable(rest, line):
    kind, _ = type_at(rest.lstrip())
    if kind == "ptr":
        return [line.replace("alloca ptr", "alloca [8 x i8]", 1)]
    need(not has_pointer(kind), line)
    return [line]


def of_call(rest, line):
    need(" asm " not in rest or re.search(r'asm sideeffect "", "~\{memory\}"\(\)', rest), line)
    need(not re.search(r"\b(byval|inalloca|sret)\b", rest), line)
    fence = re.match(r"(  %\S+) = call double @llvm\.arithmetic\.fence\.f64\((double [^)]*)\)$", line)
    return [f"{fence.group(1)} = freeze {fence.group(2)}"] if fence else [line]


def of_instruction(line, number):
    found = VALUE.match(line) or OTHER.match(line)
    need(found, line)
    name, word, rest = found.groups() if len(found.groups()) == 3 else (None, *found.groups())
    need("inttoptr" not in rest and "ptrtoint" not in rest and "blockaddress" not in rest, line)
    if word == "ptrtoaddr":
        return of_address(name, rest, line)
    need("ptrtoaddr" not in rest, line)
    if word == "load":
        return of_load(name, rest, line)
    if word == "store":
        return of_store(rest, number, line)
    if word == "alloca":
        return of_variable(rest, line)
    if word == "getelementptr":
        need(re.match(r" ((inbounds|nuw|nusw) )*i8, ptr ", rest), line)
        return [line]
    if word in ("atomicrmw", "cmpxchg"):
        # (a pointer stands in the place of the number alone)
        need(len(re.findall(r"\bptr\b", rest)) == 1, line)
        return [line]
    need(word in PLAIN, line)
    return of_call(rest, line) if word in ("call", "tail") else [line]


def widened(kind, value, line):
    """A packed constant with four bytes of nothing after each pointer."""
    need(kind.startswith("<{") and value.startswith("<{"), line)
    kinds, values = split(kind[2:-2]), split(value[2:-2])
    need(len(kinds) == len(values), line)
    kinds = [k for kind in kinds for k in ([kind, "[4 x i8]"] if kind == "ptr" else [kind])]
    need(all(k == "ptr" or not has_pointer(k) for k in kinds), line)
    filled = []
    for one in values:
        filled += [one, "[4 x i8] zeroinitializer"] if one.startswith("ptr ") else [one]
    need(len(kinds) == len(filled), line)
    return f"<{{ {', '.join(kinds)} }}>", f"<{{ {', '.join(filled)} }}>"


def of_constant(line):
    found = re.match(r'(@(?:"[^"]*"|\S+) = (?:(?:private|internal|unnamed_addr|local_unnamed_addr) )*(?:constant|global) )(.*)$', line)
    need(found, line)
    kind, after = type_at(found.group(2))
    if not has_pointer(kind):
        need("ptr" not in re.sub(r'c"[^"]*"', "", after), line)
        return [line]
    value, after = type_at(after)
    need(re.match(r"(, align \d+)?$", after), line)
    kind, value = widened(kind, value, line)
    return [f"{found.group(1)}{kind} {value}{after}"]


def of_attributes(line):
    found = re.match(r"attributes #\d+ = \{ (.*) \}$", line)
    need(found, line)
    kept = []
    for word in re.findall(r'"[^"]*"(?:="[^"]*")?|\w+(?:\([^)]*\))?', found.group(1)):
        if word.startswith('"'):
            need(word.split('"')[1] in DROPPED, line)
        elif word != "sanitize_address":
            kept.append(word)
    # (a group may not be empty, and nothing unwinds here)
    return [f"{line.split('{', 1)[0]}{{ {' '.join(kept or ['nounwind'])} }}"]


def of_declaration(line):
    name = re.search(r'@("[^"]*"|[\w.$]+)\(', line)
    need(name and (name.group(1) in HOST or INTRINSICS.match(name.group(1))), line)
    return [] if name.group(1) == "llvm.arithmetic.fence.f64" else [line]


def of_definition(line):
    if not re.match(r"define internal ", line):
        need(re.match(r"define (noundef )?i32 @main\(\)", line), line)
        return [line.replace("@main(", f"@{ENTRY}(", 1)]
    need(not re.search(r"\b(byval|inalloca|sret)\b|x86_\w*cc", line), line)
    return [line]


def of_top(line):
    if line.startswith("target datalayout"):
        return [f'target datalayout = "{LAYOUT}"']
    if line.startswith("target triple"):
        return [f'target triple = "{TRIPLE}"']
    if line.startswith("source_filename"):
        return ['source_filename = "codes"']
    if line.startswith("attributes #"):
        return of_attributes(line)
    if line.startswith("declare "):
        return of_declaration(line)
    if line.startswith("@"):
        return of_constant(line)
    need(line == "" or line.startswith(("!", ";")), line)
    return [] if line.startswith((";", "!llvm.ident")) else [line]


def retargeted(lines):
    """The module of `lines`, for WebAssembly."""
    inside = in_switch = False
    number = 0
    for line in lines:
        line = line.rstrip("\n")
        number += 1
        if line.startswith("define "):
            inside = True
            yield from of_definition(line)
        elif not inside:
            yield from of_top(line)
        elif line == "}":
            inside = False
            yield line
        elif in_switch:
            need(re.match(r"    i\d+ -?\d+, label %|  \]", line), line)
            in_switch = not line.startswith("  ]")
            yield line
        elif line == "" or re.match(r'("[^"]*"|[\w.$-]+):( |$)', line):
            yield line
        else:
            in_switch = line.startswith("  switch ") and line.endswith("[")
            yield from of_instruction(line, number)
