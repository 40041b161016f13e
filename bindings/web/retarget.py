#!/usr/bin/env python3
"""Turns the library as it was compiled for processors of the kind x86-64 into one for WebAssembly with 64-bit addresses.

    bindings/web/retarget.py IN.ll OUT.ll    both are LLVM's text; it prints the names of the exports, one a line

Both targets have 64-bit pointers, the lower byte first, and the same layouts. So what is changed is small:

- the layout, the target and the processor that the text names, and words on stack probes, which WebAssembly hasn't;
- round each export a guard is written. It enters, calls and leaves. A call after one that trapped traps too (helpers.c).

It stops where the text has an instruction of one kind of processor, or assembler.
"""

import re
import sys

LAYOUT = "e-m:e-p:64:64-p10:8:8-p20:8:8-i64:64-i128:128-n32:64-S128-ni:1:10:20"
TARGET = "wasm64-unknown-unknown"
# The compiler may not write calls of these in place of loops: there is no C library that has them.
PROCESSOR = '"no-builtin-bcmp" "no-builtin-memcmp" "no-builtin-strlen" "target-cpu"="lime1"'
BOUND = re.compile(r"llvm\.(?:x86|aarch64)\.[\w.]+|\basm (?:sideeffect )?\"[^\n]*")
EXPORT = re.compile(r"^define (?!internal\b|private\b)([^@\n]*)@(dm_\w+)\(([^\n]*?)\)([^\n{]*)\{$", re.M)
ATTRIBUTE = re.compile(r"\b(?:noundef|zeroext|signext|noalias|nonnull|dso_local|hidden) +")
GUARDED = """define {kind} @{name}({taken}) #999 {{
start:
  %was_inside = call i1 @__rattle_enter()
  br i1 %was_inside, label %spent, label %run
spent:
  call void @llvm.trap()
  unreachable
run:
  {result}call {kind} @"guarded {name}"({taken})
  call void @__rattle_leave()
  ret {answer}
}}

define internal {kind} @"guarded {name}"({given}){rest}{{"""
TAIL = """
declare i1 @__rattle_enter()
declare void @__rattle_leave()
attributes #999 = { noinline nounwind "target-cpu"="lime1" }
"""


def stop(why):
    sys.exit(f"retarget.py: {why}")


def guarded(export):
    """An export as a guard, and a function of the module's own that has its body."""
    kind, name, given, rest = export.groups()
    kind = ATTRIBUTE.sub("", kind).strip()
    taken = ATTRIBUTE.sub("", given)
    is_void = kind == "void"
    words = {"kind": kind, "name": name, "given": given, "taken": taken, "rest": rest}
    return GUARDED.format(**words, result="" if is_void else "%answer = ", answer="void" if is_void else f"{kind} %answer")


def retargeted(text):
    """The text for WebAssembly, and the names of its exports."""
    bound = BOUND.search(text)
    if bound:
        stop(f"it is bound to a processor: {bound.group()[:80]}")
    text = re.sub(r"^target datalayout = .*$", f'target datalayout = "{LAYOUT}"', text, flags=re.M)
    text = re.sub(r"^target triple = .*$", f'target triple = "{TARGET}"', text, flags=re.M)
    text = re.sub(r' "(?:probe-stack|stack-probe-size)"="[^"]*"', "", text)
    text = re.sub(r'"target-cpu"="[^"]*"(?: "target-features"="[^"]*")?', PROCESSOR, text)
    names = [export.group(2) for export in EXPORT.finditer(text)]
    if not names:
        stop("it exports nothing that begins with dm_")
    text = EXPORT.sub(guarded, text)
    if "declare void @llvm.trap()" not in text:
        text += "\ndeclare void @llvm.trap()\n"
    return text + TAIL, names


def main(words):
    if len(words) != 2:
        sys.exit(__doc__)
    with open(words[0], encoding="utf-8", errors="surrogateescape") as file:
        text, names = retargeted(file.read())
    with open(words[1], "w", encoding="utf-8", errors="surrogateescape") as file:
        file.write(text)
    print("\n".join(names))


if __name__ == "__main__":
    main(sys.argv[1:])
