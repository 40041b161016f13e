#!/usr/bin/env python3
"""Writes docs/FUNCTIONS.md: each public function of the libraries with its clauses, what each type keeps, and the edits of the gate.

    tools/docs/functions.py             writes the page
    tools/docs/functions.py --check     writes nothing, and fails where the page isn't what this script makes of the sources

Of a function the page has its name, the first sentence of its comment and the names of its clauses (`ensures`). It has the functions that a
crate hands on by `pub use` in its lib.rt: free ones, the public methods of a type, and those of a trait. Of a type with an invariant it has
the definitions that say the invariant, each with the first sentence of its comment. Programs and checks are left out. An edit is named by
its file.
"""

import re
import sys
from collections import namedtuple

from sources import TOP, Imports, crates_below, definition_files, read_lines, read_storeys

PAGE = TOP / "docs" / "FUNCTIONS.md"
# the storeys of crates.txt whose crates nobody else stands on
LEFT_OUT = {"checks"}
HANDED_ON = re.compile(r"pub use ([\w:]+?)(?:::\{([^}]*)\}|::(\w+));", re.S)
BLOCK = re.compile(r"^(?:unsafe )?(impl|pub trait)\b(?:<[^{]*?>)?\s+(\w+)")
OF_TRAIT = re.compile(r"^(?:unsafe )?impl\b.* for ")
FUNCTION = re.compile(r'^( *)(pub )?(?:unsafe )?(?:extern "C" )?fn (\w+)')
CLAUSE = re.compile(r"^ensures\*?(?: (\w+))? \{")
INVARIANT = re.compile(r"^    ghost invariant = \{ (.*?) \};?$")
TYPE = re.compile(r"^pub(?:\(crate\))? (?:struct|enum) (\w+)")
MODEL = re.compile(r"^impl(?:<.*>)? Model for (\w+)")
PREDICATE = re.compile(r"(?<![.\w])((?:Is|Are|Has|Have|Can|Ends|Holds)[A-Z]\w*)")
SENTENCE = re.compile(r"(.*?[.!?])(?:\s+[A-Z`\[]|$)", re.S)
HEAD = (
    "`tools/docs/functions.py` writes this page from the sources; don't edit it. It has each public function of the libraries with the first "
    "sentence of its comment and the names of its clauses. The comment is prose; what is proved is what the clauses say, which stand beside "
    "the function in the file. A function with one clause needs no name for it, and has \"its clause\". A `-` stands where there is none. "
    "[PROVED.md](PROVED.md) says what a clause is, what is proved of all functions alike, and which wrong code would pass."
)
KEPT = (
    "What a type's invariant says holds of each value of the type, whenever nobody changes it. It is proved where values are made and "
    "changed. Types without an invariant aren't listed. The last column has the definitions that say it, or the invariant itself."
)

EDITS = (
    "Each is a file of `crates/CRATE/must-fail/`, named by what is wrong with the body that it makes. The gate fails where the prover lets "
    "one pass. Further edits stand in `must-fail-beside-the-gate/`, and `tests/run edits` tries them."
)

# A function as the page shows it.
Call = namedtuple("Call", "name comment clauses file")


def exported(lines, crates):
    """The names that a lib.rt hands on from the crate's own modules."""
    names = set()
    for path, many, one in HANDED_ON.findall("\n".join(lines)):
        if path.split("::")[0] not in crates:
            names |= {part.split(" as ")[-1].strip() for part in (many or one).split(",")} - {""}
    return names


def first_sentence(comment):
    """The first sentence of a comment's lines, fit for a cell of a table. An empty line ends it."""
    lines = [line.strip().lstrip("/!-").strip() for line in comment]
    text = " ".join(lines[: lines.index("")] if "" in lines[1:] else lines)
    text = re.sub(r"\[(`[^`]*`)\]", r"\1", text)
    found = SENTENCE.match(text)
    return (found.group(1) if found else text).replace("|", "\\|")


def clauses_of(lines, start):
    """The names of a function's clauses, from its first line on."""
    names = []
    for index in range(start, len(lines)):
        text = lines[index].strip()
        found = CLAUSE.match(text)
        if found:
            names.append(found.group(1))
        elif not text.startswith(("ghost", "requires", "ensures")) and text.endswith(("{", "}", ";")):
            break
        if text.endswith(";"):
            break
    if names == [None]:
        return "its clause"
    return ", ".join(f"`{name}`" for name in names if name) or "-"


def calls_of(crate, path, names):
    """The functions of a file that the crate hands on."""
    lines, comment, block, kind = read_lines(path), [], None, None
    for index, line in enumerate(lines):
        opened = BLOCK.match(line)
        if opened:
            kind, block = opened.group(1), None if OF_TRAIT.match(line) else opened.group(2)
        elif line == "}":
            kind = block = None
        found = FUNCTION.match(line)
        if line.strip().startswith("///"):
            comment = comment + [line]
        elif found:
            indent, public, name = found.groups()
            free = not indent and public and name in names
            method = len(indent) == 4 and block in names and (public or kind == "pub trait")
            if free or method:
                shown = f"{block}::{name}" if method else name
                yield Call(shown, first_sentence(comment), clauses_of(lines, index), str(path.relative_to(TOP / "crates" / crate / "src")))
            comment = []
        elif not line.strip().startswith("#"):
            comment = []


def comments_of_types(lines):
    """The comment of each type of a file."""
    comments, comment = {}, []
    for line in lines:
        found = TYPE.match(line)
        if line.startswith("///"):
            comment = comment + [line]
        elif found:
            comments[found.group(1)], comment = comment, []
        elif not line.startswith("#"):
            comment = []
    return comments


def kept_by(crate, path, definitions):
    """Rows of the types of a file that have an invariant."""
    lines = read_lines(path)
    imports, name = Imports(line.strip() for line in lines if "use Rattle." in line), None
    comments = comments_of_types(lines)
    for line in lines:
        model, found = MODEL.match(line), INVARIANT.match(line)
        name = model.group(1) if model else name
        if not found:
            continue
        cells, sentences = [], []
        for word in dict.fromkeys(PREDICATE.findall(found.group(1))):
            where = imports.names.get(word)
            definition = definitions[where.where].find(where.name) if where and where.where in definitions else None
            if definition:
                cells.append(f"`{where.where}.{where.name}`")
                sentences.append(first_sentence(definition.comment))
        said = ", ".join(cells) or f"`{found.group(1).replace('|', chr(92) + '|')}`"
        kept = "; ".join(filter(None, sentences))
        yield f"| `{name}` of `{crate}` | {first_sentence(comments.get(name, []))} | {kept} | {said} |"


def crates_shown(storeys):
    """The storeys from the highest down with their libraries."""
    for storey, crates in reversed(storeys):
        libraries = [crate for crate in crates if (TOP / "crates" / crate / "src" / "lib.rt").is_file()]
        if storey not in LEFT_OUT and libraries:
            yield storey, libraries


def crate_lines(crate, below):
    """A crate's part of the page."""
    folder = TOP / "crates" / crate / "src"
    top = read_lines(folder / "lib.rt")
    about = first_sentence([line for line in top if line.startswith("//!")])
    names = exported(top, set(below) | set(below[crate]))
    rows = [call for path in sorted(folder.rglob("*.rt")) for call in calls_of(crate, path, names)]
    if crate == "dillmonth":
        rows = [call for path in sorted(folder.rglob("*.rt")) for call in exports_of(crate, path)]
    if not rows:
        return []
    lines = [f"### {crate}", "", about, "", "| Call | In | It does | Clauses |", "|---|---|---|---|"]
    return lines + [f"| `{call.name}` | `{call.file}` | {call.comment} | {call.clauses} |" for call in rows] + [""]


def exports_of(crate, path):
    """The functions of a file that the library for C exports."""
    found = re.findall(r"^pub (?:unsafe )?extern \"C\" fn (\w+)|^#\[unsafe\(no_mangle\)\]\n(?:#.*\n)*pub .*?fn (\w+)", path.read_text(encoding="utf-8"), re.M)
    return calls_of(crate, path, {name for names in found for name in names if name})


def edit_lines(shown):
    """A row for each crate with the names of the edits that the gate tries."""
    for crate in (crate for _, crates in shown for crate in crates):
        names = sorted(path.stem.replace("_", " ") for path in (TOP / "crates" / crate / "must-fail").glob("*.edit"))
        if names:
            yield f"| `{crate}` | {'; '.join(names)} |"


def made_page():
    """The page as it should be."""
    below, definitions = crates_below(), definition_files()
    storeys, _ = read_storeys(read_lines(TOP / "crates.txt"))
    shown = list(crates_shown(storeys))
    parts = {crate: crate_lines(crate, below) for _, crates in shown for crate in crates}
    lines = ["# Functions and invariants", "", HEAD, "", "| Storey | Crates |", "|---|---|"]
    for storey, crates in shown:
        links = ", ".join(f"[{crate}](#{crate})" for crate in crates if parts[crate])
        lines.append(f"| {storey} | {links} |")
    lines += ["", "[What each type keeps](#what-each-type-keeps)", "", "## Functions", ""]
    lines += [line for _, crates in shown for crate in crates for line in parts[crate]]
    lines += ["## What each type keeps", "", KEPT, "", "| Type | It is | It keeps | Said in |", "|---|---|---|---|"]
    for _, crates in shown:
        for crate in crates:
            for path in sorted((TOP / "crates" / crate / "src").rglob("*.rt")):
                lines += kept_by(crate, path, definitions)
    lines += ["", "## The edits of the gate", "", EDITS, "", "| Crate | Edits |", "|---|---|", *edit_lines(shown)]
    return "\n".join(lines) + "\n"


def main(words):
    if words not in ([], ["--check"]):
        sys.exit(__doc__)
    text = made_page()
    if not words:
        PAGE.write_text(text, encoding="utf-8")
    elif not PAGE.is_file() or PAGE.read_text(encoding="utf-8") != text:
        sys.exit("docs/FUNCTIONS.md isn't what tools/docs/functions.py makes of the sources")


if __name__ == "__main__":
    main(sys.argv[1:])
