#!/usr/bin/env python3
"""Writes the shim in C for Windows from the header: shim.py dillmonth.h > shim.c

The library inside was lowered for System V, where a struct of 16 bytes comes as two words. Windows passes its address. The shim has each name of the
header in the target's own convention, and calls sysv_NAME.
"""

import re
import sys

header = re.sub(r"/\*.*?\*/", "", open(sys.argv[1], encoding="utf-8").read(), flags=re.S)
found = re.findall(r"^(?:DM_KEEP )?((?:\w+) dm_\w+\([^;]*\));", header, flags=re.M)
print('#include "dillmonth.h"\n#define SYSV __attribute__((sysv_abi))\n')
for each in found:
    answer, name, taken = re.match(r"(\w+) (dm_\w+)\((.*)\)$", " ".join(each.split())).groups()
    names = [] if taken == "void" else [re.search(r"(\w+)$", one.strip()).group(1) for one in taken.split(",")]
    print(f"SYSV {answer} sysv_{name}({taken});")
    print(f"{answer} {name}({taken}) {{ {'' if answer == 'void' else 'return '}sysv_{name}({', '.join(names)}); }}")
