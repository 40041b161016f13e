#!/usr/bin/env python3
"""Tries a crate's program or tests as `rt try` does, with about half of its work.

    tools/try.py CRATE [WORD..]

The words are those of `rt try`, as `--test`, `--cases FOLDER` or `--seconds N`, and after `--` the program's own. Beside
the try `rt try` has the compiler look for names that a check will refuse, which takes a processor as long as the try
lasts. That is left out here: the proof of the crate looks for them.

It calls functions within the kit's command `rt`, and may need a change where another kit has other ones.
"""

import os
import sys
from pathlib import Path

sys.dont_write_bytecode = True
sys.path.insert(0, str(Path(__file__).resolve().parent))
from prove import HERE, load_rt


def main(crate, words):
    rt = load_rt(HERE)
    # (what looks for names ends at once)
    rt.rtlib.RATTLE = "/bin/true"
    os.chdir(HERE / "crates" / crate)
    sys.exit(rt.rtlib.main("try", *words))


if __name__ == "__main__":
    if len(sys.argv) < 2:
        sys.exit(__doc__)
    crate, *words = sys.argv[1:]
    sys.argv[1:] = ["help"]
    main(crate, words)
