#!/usr/bin/env python3
"""Builds and runs what the pages show: the code of docs/EMBEDDING_C.md in C, C++, Rust and Python, and of docs/GOING_BACK.md.

    bindings/tests/pages.py     with the library that bindings/build makes; the last line is 'N passed, M failed'

A page's code in a language is one program. Its first lines, up to an empty one, come first, and all others into `main`; what closes the world comes last. A page
without code in its language fails, and so does a program that prints nothing. A language whose compiler isn't there is skipped.
"""

import os
import re
import shutil
import subprocess
import sys
import tempfile
from pathlib import Path

TOP = Path(__file__).resolve().parent.parent.parent
BINDINGS = TOP / "bindings"
OUT = BINDINGS / "out"
BLOCK = re.compile(r"^```(\w+)\n(.*?)^```$", re.M | re.S)
CLOSES = "dm_close(&world);\n"
OURS = re.compile(r"\bdm_|\bworld\.|\bWorld\b")
INCLUDES = [f"-I{BINDINGS}/c", f"-I{BINDINGS}/cpp"]
# what stands round the code, and how it is run
C = ("c", "{}\nint main(void) {{\n{}\nreturn 0;\n}}\n", ["cc", "-Wall", "-Wextra", "-Werror", *INCLUDES, "FILE", str(OUT / "libdillmonth.a"), "-o", "PROGRAM"])
CPP = ("cpp", "{}\nint main() {{\n{}\n}}\n", ["c++", "-std=c++17", *INCLUDES, "FILE", str(OUT / "libdillmonth.a"), "-o", "PROGRAM"])
RUST = ("rust", '#[path = "dillmonth.rs"]\nmod dillmonth;\n{}\nfn main() -> Result<(), Box<dyn std::error::Error>> {{\n{}\nOk(())\n}}\n',
        ["rustc", "--edition", "2021", "-O", "-L", str(OUT), "-l", "static=dillmonth", "FILE", "-o", "PROGRAM"])
PYTHON = ("python", "{}\n{}\n", None)
PAGES = [("docs/EMBEDDING_C.md", language) for language in (C, CPP, RUST, PYTHON)] + [("docs/GOING_BACK.md", C)]
ENDINGS = {"c": "c", "cpp": "cpp", "rust": "rs", "python": "py"}


def code_of(page, language):
    """The code that a page has in a language, as far as it is of a world."""
    blocks = BLOCK.findall((TOP / page).read_text(encoding="utf-8"))
    code = "\n".join(code for name, code in blocks if name == language and OURS.search(code))
    return code.replace(CLOSES, "") + CLOSES if CLOSES in code else code


def run(folder, page, language):
    """What the page's program prints; None where there is no compiler."""
    name, frame, compiler = language
    code = code_of(page, name)
    if not code:
        raise ValueError("there is no code")
    if compiler and not shutil.which(compiler[0]):
        return None
    head, _, body = code.partition("\n\n")
    file, program = Path(folder, f"game.{ENDINGS[name]}"), str(Path(folder, "game"))
    file.write_text(frame.format(head, body), encoding="utf-8")
    shutil.copy(BINDINGS / "rust" / "dillmonth.rs", folder)
    words = [sys.executable, str(file)]
    if compiler:
        subprocess.run([{"FILE": str(file), "PROGRAM": program}.get(word, word) for word in compiler], check=True)
        words = [program]
    found = {**os.environ, "PYTHONPATH": str(BINDINGS / "python")}
    printed = subprocess.run(words, check=True, capture_output=True, text=True, env=found).stdout
    if not printed.strip():
        raise ValueError("it prints nothing")
    return printed


def main():
    passed = failed = 0
    for page, language in PAGES:
        with tempfile.TemporaryDirectory() as folder:
            try:
                printed = run(folder, page, language)
            except (subprocess.CalledProcessError, ValueError) as error:
                failed += 1
                print(f"{page} in {language[0]}: {error}\n{getattr(error, 'stderr', None) or ''}")
                continue
        if printed is None:
            print(f"skipped {page} in {language[0]}: there is no compiler")
            continue
        passed += 1
        print(f"{page} in {language[0]} prints {printed.split()[:6]}")
    print(f"{passed} passed, {failed} failed")
    sys.exit(1 if failed or not passed else 0)


main()
