"""The program of a crate as `tools/prove.py` proves and builds it, for the scripts that run one."""

import subprocess
import sys
from pathlib import Path

TOP = Path(__file__).resolve().parent.parent


def built(crate):
    """Proves and builds a program of the repository where it has changed, and answers where it lies."""
    made = subprocess.run([TOP / "tools" / "prove.py", crate], capture_output=True, text=True)
    program = TOP / "crates" / crate / "out" / crate
    if made.returncode != 0 or not program.exists():
        sys.exit(f"{crate} could not be built:\n{made.stdout}{made.stderr}")
    return str(program)
