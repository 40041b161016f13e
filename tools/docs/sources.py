"""Reads what the repository's scripts ask of its sources: crates, definitions of `specs/`, and items of `src/`.

Used by `definitions.py` and `check.py` beside it; it prints nothing.

A definition is an item of a file `crates/CRATE/specs/FILE.antt`: its comment, its head and its equations. A name in it
is one that its file defines, or one that a line `use Rattle.CRATE.specs.FILE.{NAME, ..}` of its file brings in.
"""

import re
from collections import namedtuple
from pathlib import Path

TOP = Path(__file__).resolve().parent.parent.parent

# An item of a file of definitions. `file` is CRATE/FILE; `comment` and `text` are lists of lines.
Definition = namedtuple("Definition", "file name kind line comment text")
# An item of the code, a type or a constant, with its comment. `file` is CRATE/src/NAME.rt.
Item = namedtuple("Item", "file name kind line comment text")
# What an import names: `where` is CRATE/FILE, or the dotted module of an item of the code or of the kit's library.
Import = namedtuple("Import", "where name")
# A function with its contract: `block` is the head of the `impl` or the trait that it stands in, `head` the function up to its clauses, and `clauses`
# has (name, text) of each `ensures` and `requires`, in their order.
Function = namedtuple("Function", "file name block head clauses")

HEAD = re.compile(r"^(?:(abbrev|unfoldable)\s+)?(?:pub\s+)?(?:(record|data)\s+)?([^\s:(){}]+)")
STARTS = re.compile(r"^(?:abbrev|unfoldable|pub)\b(?!\s+mod\b)")
USE = re.compile(r"^(?:ghost )?use\s+([\w.]+?)(?:\.\{(.*)\}|\s+as\s+(\w+))?;?$")
RUST_ITEM = re.compile(r"^pub(?:\(crate\))? (struct|enum|const|trait) (\w+)|^(struct|enum|const|trait) (\w+)")
BLOCK = re.compile(r"^(?:pub )?(?:unsafe )?(impl|trait)\b(?:<.*?>(?= ))?\s+(\w+)")
FUNCTION = re.compile(r'^(?:    )?(?:pub(?:\(crate\))? )?(?:unsafe )?(?:extern "C" )?fn (\w+)')
CLAUSE = re.compile(r"(ensures|requires|ghost)\*?(?: (\w+):?)? \{")


def read_lines(path):
    return path.read_text(encoding="utf-8").splitlines()


def crates_below():
    """Each crate of crates.txt, in its order, with the crates and libraries that it stands on."""
    parts = [line.partition("#")[0].partition(":") for line in read_lines(TOP / "crates.txt")]
    return {name.split()[0]: below.split() for name, colon, below in parts if colon}


def read_storeys(lines):
    """By the lines of crates.txt the storeys from the lowest up, each a name and its crates, and what each crate stands on.

    A comment line right above crates is the name of their storey, up to a colon.
    """
    storeys, stands_on, comment = [], {}, None
    for line in lines:
        if line.startswith("#"):
            comment = line[1:].strip()
        elif ":" in line:
            if comment is not None:
                storeys.append((comment.split(":")[0], []))
                comment = None
            crate, _, below = line.partition(":")
            name = crate.split()[0]
            storeys[-1][1].append(name)
            stands_on[name] = below.split()
    return storeys, stands_on


def crates_from_below():
    """The crates of crates.txt, each after those that it stands on, and else in its order."""
    below, order = crates_below(), []

    def add(crate):
        if crate in below and crate not in order:
            for each in below[crate]:
                add(each)
            order.append(crate)

    for crate in below:
        add(crate)
    return order


def module_key(dotted):
    """CRATE/FILE of a module of definitions; any other module keeps its dotted name."""
    found = re.fullmatch(r"Rattle\.(\w+)\.specs\.(\w+)", dotted)
    return "/".join(found.groups()) if found else dotted


class Imports:
    """What the `use` lines of a file bring in: single names, and short names of modules."""

    def __init__(self, lines):
        self.names = {}
        self.modules = {}
        for line in lines:
            found = USE.match(line.strip())
            if found and "." in found.group(1):
                self._take(*found.groups())

    def operators_in(self, text):
        """The imports of signs such as `◌+◌` that stand in a text."""
        signs = set(text.replace("(", " ").replace(")", " ").split())
        spoken = {name: name.replace("◌", " ").split() for name in self.names if not name[0].isalpha() or "◌" in name}
        return [self.names[name] for name, parts in spoken.items() if parts and signs.issuperset(parts)]

    def _take(self, dotted, names, short):
        if short:
            self.modules[short] = module_key(dotted)
        for part in filter(None, map(str.strip, (names or "").split(","))):
            name, _, other = part.partition(" as ")
            self.names[(other or name).strip()] = Import(module_key(dotted), name.strip())


class DefinitionFile:
    """A file of definitions: its items in their order, and what it imports."""

    def __init__(self, path):
        self.path = path
        self.key = f"{path.parent.parent.name}/{path.stem}"
        self.lines = read_lines(path)
        self.imports = Imports(line for line in self.lines if line.startswith("use "))
        self.definitions = {}
        self.parameters = ""  # of a `module _ {..} where`, which all its definitions have
        self._read()

    def find(self, name):
        """The definition of this name, or that of the type which has it as a constructor."""
        if name in self.definitions:
            return self.definitions[name]
        types = [item for item in self.definitions.values() if item.kind == "data"]
        return next((item for item in types if f"  {name} :" in "\n".join(item.text)), None)

    def _read(self):
        comment, current = [], None
        for number, line in enumerate(self.lines, start=1):
            if line.startswith("module _ "):
                self.parameters = line[len("module _ ") : -len(" where")]
                continue
            line = line[2:] if self.parameters else line
            if line.startswith("--"):
                comment, current = comment + [line], None
            elif STARTS.match(line):
                current, comment = self._begin(number, line, comment), []
            elif not line.strip() or line.startswith("use "):
                comment = []
            elif current:
                current.text.append(line)

    def _begin(self, number, line, comment):
        modifier, kind, name = HEAD.match(line).groups()
        own = [each for each in comment if not each.startswith("-- ----")]
        self.definitions[name] = Definition(self.key, name, kind or modifier or "law", number, own, [line])
        return self.definitions[name]


def definition_files():
    """Each file of definitions of the repository, by CRATE/FILE."""
    paths = [path for path in sorted(TOP.glob("crates/*/specs/*.antt")) if path.stem != "Lib"]
    return {file.key: file for file in map(DefinitionFile, paths)}


class CodeFile:
    """A file of a crate's code: its types and constants, its imports, and how contracts see its types."""

    def __init__(self, path):
        self.path = path
        self.crate = path.relative_to(TOP / "crates").parts[0]
        self.key = str(path.relative_to(TOP / "crates"))
        self.lines = read_lines(path)
        self.imports = Imports(line for line in self.lines if "use Rattle." in line)
        self.items = {}
        self._functions = None  # found once they are asked for
        self._read()

    def _read(self):
        comment = []
        for index, line in enumerate(self.lines):
            found = RUST_ITEM.match(line)
            if line.startswith("///"):
                comment.append(line)
            elif found:
                kind, name = [group for group in found.groups() if group]
                text = self._until_closed(index)
                self.items[name] = Item(self.key, name, kind, index + 1, comment, text)
                comment = []
            elif not line.startswith(("#", "//")):
                comment = []

    def _until_closed(self, start):
        """The lines of an item, up to that which ends it."""
        depth = 0
        for end, line in enumerate(self.lines[start:], start=start):
            depth += sum(map(line.count, "{([")) - sum(map(line.count, "})]"))
            if depth == 0 and line.rstrip().endswith((";", "}")):
                return self.lines[start : end + 1]
        raise SystemExit(f"{self.path}:{start + 1}: an item without an end")

    def value_of(self, type_name):
        """How contracts see a type: the text of its `ghost Value`, or None where they see its fields."""
        pattern = re.compile(rf"^impl(?:<.*>)? Model for {type_name}\b")
        starts = [index for index, line in enumerate(self.lines) if pattern.match(line)]
        for line in self.lines[starts[0] :] if starts else []:
            if line.strip().startswith("ghost Value = {"):
                return line.strip()[len("ghost Value = {") :].rstrip(" ;}").strip()
        return None

    def functions(self):
        """Each function of the file with its contract, by `TYPE::NAME`, or by its name where it is in no block."""
        if self._functions is None:
            self._functions = self._read_functions()
        return self._functions

    def _read_functions(self):
        found, block, owner = {}, "", ""
        for index, line in enumerate(self.lines):
            opened, function = BLOCK.match(line), FUNCTION.match(line)
            if opened:
                block, owner = line, opened.group(2)
            elif line == "}":
                block = owner = ""
            elif function:
                name = f"{owner}::{function.group(1)}" if line.startswith(" ") and owner else function.group(1)
                found.setdefault(name, self._contract(index, name, block))
        return found

    def _contract(self, start, name, block):
        """The function that begins in this line."""
        head, clauses = [], []
        for line in map(str.strip, self.lines[start:]):
            clause = CLAUSE.match(line)
            if clause:
                clauses.append((clause.group(2) or "", line))
            elif clauses and not _is_closed(clauses[-1][1]):
                clauses[-1] = (clauses[-1][0], f"{clauses[-1][1]}\n    {line}")
            elif clauses or line.startswith("{") or line.startswith("->") and line.endswith("{"):
                break
            else:
                head.append(line)
            if line.endswith((";", "{")):
                break
        text = re.sub(r"(?<=\() | (?=\))|,(?= ?\))", "", " ".join(head).split(" where ")[0].rstrip("{; "))
        return Function(self.key, name, block.rstrip("{ "), text, [(key, clause.rstrip(";")) for key, clause in clauses])


def _is_closed(text):
    """Whether each brace and each bracket that a text opens is closed in it."""
    return all(text.count(opened) == text.count(closed) for opened, closed in ("{}", "()"))


def code_files():
    """Each file of the crates' code, by its path below crates/."""
    return {file.key: file for file in map(CodeFile, sorted(TOP.glob("crates/*/src/**/*.rt")))}
