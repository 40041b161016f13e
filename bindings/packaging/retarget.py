#!/usr/bin/env python3
"""Turns the library's LLVM text, as it was compiled for x86-64, into text for another 64-bit processor with the lower byte first.

    retarget.py IN.ll OUT.ll LAYOUT TRIPLE ATTRIBUTES [--shim]

LAYOUT and TRIPLE are what the kit's clang writes for an empty C file of the target; ATTRIBUTES are the words "target-cpu"="..."
"target-features"="..." that it writes there. It prints the exports, one a line.

--shim (Windows): the exports become sysv_dm_*, with the calling convention of System V, as the structs of 16 bytes were lowered for it. A shim in C
calls them and has the names dm_* in the target's own convention.
"""

import re
import sys

BOUND = re.compile(r"llvm\.(?:x86|aarch64)\.[\w.]+|\basm (?:sideeffect )?\"[^\n]*")
# What the kit's C part does for x86-64, here as LLVM text, and the library's own: so nothing but dm_* is exported, on any system.
HEAP = """
@nothing = internal global i8 0
declare ptr @malloc(i64)
declare ptr @realloc(ptr, i64)
declare void @free(ptr)

define internal { i64, i64 } @rattle_granted(ptr %at) #998 {
  %is_there = icmp ne ptr %at, null
  %some = select i1 %is_there, ptr %at, ptr @nothing
  %word = zext i1 %is_there to i64
  %place = ptrtoint ptr %some to i64
  %half = insertvalue { i64, i64 } poison, i64 %word, 0
  %both = insertvalue { i64, i64 } %half, i64 %place, 1
  ret { i64, i64 } %both
}

define internal { i64, i64 } @rattle_alloc(i64 %bytes, i64 %align) #998 {
  %is_none = icmp eq i64 %bytes, 0
  %size = select i1 %is_none, i64 %align, i64 %bytes
  %at = call ptr @malloc(i64 %size)
  %given = call { i64, i64 } @rattle_granted(ptr %at)
  ret { i64, i64 } %given
}

define internal { i64, i64 } @rattle_realloc(ptr %old, i64 %kept, i64 %bytes, i64 %align) #998 {
  %is_none = icmp eq i64 %bytes, 0
  %size = select i1 %is_none, i64 %align, i64 %bytes
  %at = call ptr @realloc(ptr %old, i64 %size)
  %given = call { i64, i64 } @rattle_granted(ptr %at)
  ret { i64, i64 } %given
}

define internal void @rattle_dealloc(ptr %at) #998 {
  call void @free(ptr %at)
  ret void
}

attributes #998 = { noinline nounwind TARGET }
"""
HEAP_DECLARED = re.compile(r"^declare [^@\n]*@rattle_(?:alloc|realloc|dealloc)\([^\n]*\n", re.M)
EXPORT = re.compile(r"^(define )(?!internal\b|private\b)([^@\n]*)@(dm_\w+)\(", re.M)


def main(words):
    source, to, layout, triple, attributes = words[:5]
    shim = "--shim" in words
    text = open(source, encoding="utf-8", errors="surrogateescape").read()
    bound = BOUND.search(text)
    if bound:
        sys.exit(f"it is bound to a processor: {bound.group()[:80]}")
    text, layouts = re.subn(r"^target datalayout = .*$", f'target datalayout = "{layout}"', text, flags=re.M)
    text, triples = re.subn(r"^target triple = .*$", f'target triple = "{triple}"', text, flags=re.M)
    if layouts != 1 or triples != 1:
        sys.exit("it names no layout or no target, or several")
    if "windows" in triple:
        # Windows has a probe of its own (___chkstk_ms), which the compiler writes by itself
        text = re.sub(r' "(?:probe-stack|stack-probe-size)"="[^"]*"', "", text)
    text, processors = re.subn(r'"target-cpu"="[^"]*"(?: "target-features"="[^"]*")?', lambda _: attributes, text)
    if not processors:
        sys.exit("no function names a processor")
    text = re.sub(r' ?"tune-cpu"="[^"]*"', "", text)
    text, heap = HEAP_DECLARED.subn("", text)
    if heap != 3 or re.search(r"^declare [^@\n]*@rattle_", text, flags=re.M):
        sys.exit("it asks for other parts in C than the heap's three")
    text += HEAP.replace("TARGET", attributes)
    names = [found.group(3) for found in EXPORT.finditer(text)]
    if not names:
        sys.exit("it exports nothing that begins with dm_")
    if shim:
        text = EXPORT.sub(lambda f: f"{f.group(1)}x86_64_sysvcc {f.group(2)}@sysv_{f.group(3)}(", text)
        for name in names:
            if re.search(rf"call [^\n]*@{name}\(", text):
                sys.exit(f"{name} is called within the library: the shim can't rename it alone")
    open(to, "w", encoding="utf-8", errors="surrogateescape").write(text)
    print("\n".join(sorted(names)))


main(sys.argv[1:])
