#!/usr/bin/env python3
"""Makes wheels of dillmonth.py and a library. `pip install bindings/python` calls it too, as pyproject.toml says, and takes the library of bindings/build.

    bindings/python/dillmonth_wheel.py FOLDER PLATFORM LIBRARY    PLATFORM is that of a wheel's name, such as manylinux2014_x86_64

The same files give the same bytes.
"""

import base64
import hashlib
import re
import sys
import sysconfig
import zipfile
from pathlib import Path

HERE = Path(__file__).resolve().parent
DATE = (1980, 1, 1, 0, 0, 0)


def project():
    """The fields of pyproject.toml that a wheel tells."""
    text = (HERE / "pyproject.toml").read_text(encoding="utf-8")
    return {name: re.search(rf'^{name} = "(.*)"$', text, re.M).group(1) for name in ("name", "version", "description", "requires-python")}


def metadata(told):
    return (f"Metadata-Version: 2.1\nName: {told['name']}\nVersion: {told['version']}\nSummary: {told['description']}\nLicense: MIT\n"
            f"Requires-Python: {told['requires-python']}\n")


def make(folder, platform, library):
    """Writes the wheel into a folder, and answers its name."""
    told = project()
    stem = f"{told['name']}-{told['version']}"
    files = {
        "dillmonth/__init__.py": (HERE / "dillmonth.py").read_bytes(),
        "dillmonth/py.typed": b"",
        f"dillmonth/{Path(library).name.replace('.so.1', '.so')}": Path(library).read_bytes(),
        f"{stem}.dist-info/METADATA": metadata(told).encode(),
        f"{stem}.dist-info/WHEEL": f"Wheel-Version: 1.0\nGenerator: dillmonth\nRoot-Is-Purelib: false\nTag: py3-none-{platform}\n".encode(),
    }
    licence = next((place for place in (HERE.parent.parent / "LICENSE", HERE.parent / "LICENSE") if place.is_file()), None)
    if licence:
        files[f"{stem}.dist-info/LICENSE"] = licence.read_bytes()
    record = f"{stem}.dist-info/RECORD"
    rows = [f"{name},sha256={base64.urlsafe_b64encode(hashlib.sha256(data).digest()).decode().rstrip('=')},{len(data)}" for name, data in files.items()]
    files[record] = "\n".join([*rows, f"{record},,", ""]).encode()
    name = f"{stem}-py3-none-{platform}.whl"
    with zipfile.ZipFile(Path(folder, name), "w") as wheel:
        for place, data in files.items():
            entry = zipfile.ZipInfo(place, DATE)
            entry.external_attr, entry.compress_type = 0o644 << 16, zipfile.ZIP_DEFLATED
            wheel.writestr(entry, data, compresslevel=9)
    return name


# what pip calls


def build_wheel(wheel_directory, config_settings=None, metadata_directory=None):
    sys.path.insert(0, str(HERE))
    from dillmonth import find_library

    return make(wheel_directory, re.sub(r"[-.]", "_", sysconfig.get_platform()), find_library())


def build_sdist(sdist_directory, config_settings=None):
    raise NotImplementedError("there is no source of the library that pip could build: take a wheel")


def main(words):
    if len(words) != 3:
        sys.exit(__doc__)
    print(make(*words))


if __name__ == "__main__":
    main(sys.argv[1:])
