#!/usr/bin/env python3
"""Whether web/retarget.py rewrites the forms that it knows as it should, and refuses others. Prints what fails, and ends with 1 if something does."""
import sys
from pathlib import Path

sys.path.insert(0, str(Path(__file__).resolve().parent))

import retarget  # noqa: E402

# a line of a function, and what it becomes
BECOMES = [
    ("  %a = alloca ptr, align 8", ["  %a = alloca [8 x i8], align 8"]),
    ("  %a = load ptr, ptr %b, align 8", ["  %a = load ptr, ptr %b, align 8"]),
    ("  store ptr %a, ptr %b, align 8", ["  store ptr %a, ptr %b, align 8"]),
    ("  %a = ptrtoaddr ptr %b to i64", ["  %a = ptrtoint ptr %b to i64"]),
    ("  %a = load { i8, i64 }, ptr %b, align 8", ["  %a = load { i8, i64 }, ptr %b, align 8"]),
    ("  %a = load { i8, ptr }, ptr %b, align 8", [
        "  %field.a.0 = load i8, ptr %b", "  %field.a.with0 = insertvalue { i8, ptr } poison, i8 %field.a.0, 0",
        "  %field.a.at1 = getelementptr i8, ptr %b, i64 8", "  %field.a.1 = load ptr, ptr %field.a.at1", "  %a = insertvalue { i8, ptr } %field.a.with0, ptr %field.a.1, 1"]),
    ("  store { ptr, ptr } %a, ptr %b, align 8", [
        "  %stored.2.0 = extractvalue { ptr, ptr } %a, 0", "  store ptr %stored.2.0, ptr %b", "  %stored.2.1 = extractvalue { ptr, ptr } %a, 1",
        "  %stored.2.1.at = getelementptr i8, ptr %b, i64 8", "  store ptr %stored.2.1, ptr %stored.2.1.at"]),
    ("  %a = getelementptr i8, ptr %b, i64 %c", ["  %a = getelementptr i8, ptr %b, i64 %c"]),
    ("  %a = atomicrmw add ptr %b, i64 1 seq_cst, align 8", ["  %a = atomicrmw add ptr %b, i64 1 seq_cst, align 8"]),
]
# lines of a function that are refused
REFUSED = """
  %a = inttoptr i64 %b to ptr
  %a = ptrtoint ptr %b to i32
  %a = ptrtoaddr ptr %b to i32
  %a = alloca { i8, ptr }, align 8
  %a = alloca [2 x ptr], align 8
  %a = getelementptr { i8, ptr }, ptr %b, i32 0, i32 1
  %a = getelementptr ptr, ptr %b, i64 1
  %a = load atomic ptr, ptr %b seq_cst, align 8
  %a = load <2 x ptr>, ptr %b, align 16
  %a = load [2 x ptr], ptr %b, align 8
  store volatile { i8, ptr } %a, ptr %b, align 8
  store ptr inttoptr (i64 8 to ptr), ptr %b, align 8
  %a = cmpxchg ptr %b, ptr %c, ptr %d seq_cst seq_cst, align 8
  %a = atomicrmw xchg ptr %b, ptr %c seq_cst, align 8
  call void asm sideeffect "nop", ""()
  call void @f(ptr sret({ i8, ptr }) %a)
  %a = va_arg ptr %b, i32
  %a = invoke i32 @f() to label %b unwind label %c
  indirectbr ptr %a, [label %b]
  nonsense
""".strip("\n").split("\n")
# lines outside functions, and what they become, or None if they are refused
OUTSIDE = [
    ("@a = private unnamed_addr constant <{ [8 x i8], ptr }> <{ [8 x i8] c\"12345678\", ptr @f }>, align 8",
     ["@a = private unnamed_addr constant <{ [8 x i8], ptr, [4 x i8] }> <{ [8 x i8] c\"12345678\", ptr @f, [4 x i8] zeroinitializer }>, align 8"]),
    ("@a = private unnamed_addr constant [3 x i8] c\"ptr\", align 1", ["@a = private unnamed_addr constant [3 x i8] c\"ptr\", align 1"]),
    ("@a = private global ptr null, align 8", None),
    ("@a = private constant [2 x ptr] [ptr @f, ptr @g], align 8", None),
    ("@a = external global i8", None),
    ("declare i32 @read(i32, ptr, i64) #1", ["declare i32 @read(i32, ptr, i64) #1"]),
    ("declare i32 @system(ptr) #1", None),
    ("declare <16 x i8> @llvm.x86.ssse3.pshuf.b.128(<16 x i8>, <16 x i8>) #1", None),
    ("attributes #0 = { nounwind \"target-cpu\"=\"x86-64\" }", ["attributes #0 = { nounwind }"]),
    ("attributes #0 = { nounwind \"other\"=\"x\" }", None),
    ("define i32 @other() #0 {", None),
    ("define void @main() #0 {", None),
    ("module asm \"nop\"", None),
]


def rewritten(lines):
    try:
        return list(retarget.retargeted(lines))
    except retarget.Unknown:
        return None


def main():
    failed = []
    inside = [(line, wanted) for line, wanted in BECOMES] + [(line, None) for line in REFUSED]
    for line, wanted in inside:
        got = rewritten(["define internal void @f() {", line, "}"])
        if (got[1:-1] if got else got) != wanted:
            failed.append(f"{line.strip()}: {got}")
    failed += [f"{line}: {rewritten([line])}" for line, wanted in OUTSIDE if rewritten([line]) != wanted]
    print("\n".join(failed) or f"{len(inside) + len(OUTSIDE)} lines are rewritten or refused as they should be")
    return 1 if failed else 0


if __name__ == "__main__":
    sys.exit(main())
