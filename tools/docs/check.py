#!/usr/bin/env python3
"""Checks what the repository's pages say of the repository.

    tools/docs/check.py [PAGE..]     checks these pages, or with no word those at the top, of docs/, docs/definitions/, examples/ and tools/

It tests that each of these is there:

- a path in code, such as `tools/docs/check.py`, `crates/*/specs`, `shapes/src/pose.rt`, or `shapes/Poses` for a file of
  definitions;
- a definition `CRATE/File.name`, in WORLD.md also `File.name`, and a method `Type::method` of a type of the repository;
- the page, the file and the heading to which a link leads;

and that a number of crates or of definitions is one that the sources have, and a version the one that the program prints. A section that is
meant to name every crate does, and the headline is the same sentence on each page that has it. So is each figure of `SAME`, and README.md's speed is
that of BENCH.md's first table.
What fails is printed with its page and line. Where dist/ is of other sources than the tree's, a line says so, and fails nothing.
The last line is `N passed, M failed`.
"""

import re
import subprocess
import sys
from pathlib import Path

from sources import TOP, code_files, crates_below, definition_files, read_lines

CODE = re.compile(r"`([^`]+)`")
LINK = re.compile(r"\]\(([^)\s]+)\)")
TAG = re.compile(r"</?a\b[^>]*>")
TARGET = re.compile(r"^\[[^\]]+\]: (\S+)$")
HREF = re.compile(r'<a href="([^"]+)"')
INDENTED = re.compile(r"^(?: {4}|\t)\s*(\S.*)$")
PATH = re.compile(r"^(?:\.\./)*[\w.*-]+(?:/[\w.*-]+)*/?$")
NAMED_FILE = re.compile(r"^[\w-]+\.(?:md|py|rt|antt|edit|svg|txt)$")
DEFINED = re.compile(r"^(?:(\w+)/)?([A-Z]\w*)\.([A-Za-z]\w*)$")
METHOD = re.compile(r"^([A-Z]\w*)::(\w+)(?:\(.*\))?$")
CRATES = re.compile(r"\b(\d+) (?:of its |Rattle )?crates\b")
DEFINITIONS = re.compile(r"\b(\d[\d,]*) definitions(?: of (\d[\d,]*) lines)?")
# The version of README.md, and what the program prints; the code has it in one place.
VERSION = re.compile(r"(?:^Version |\bworld_script )(\d+\.\d+\.\d+(?:, rules \d+)?)")
VERSION_IN_CODE = re.compile(r'^const VERSION: &str = "([^"]+)";$', re.M)
ENDINGS = {"rt", "antt"}
BOOK = TOP / "docs" / "definitions"
# Sections that have to name each crate, by page.
NAME_ALL = {"PROVED.md": "## What wrong code would pass", "ARCHITECTURE.md": "## The crates"}
# How the headline begins and ends.
HEADLINE = re.compile(r"Whenever the (?:world's )?lock is free, (.*? called or solved)\.", re.S)
# Figures that several pages say.
SAME = {
    "the Box2D that is measured": re.compile(r"Box2D (2\.\d+\.\d+)"),
    "the kit": re.compile(r"rattle-kit-(\w+)"),
    "the gate's minutes": re.compile(r"\b(\d+) (?:minutes |by the clock )?on four processors"),
    "the milliseconds of a save": re.compile(r"some (\d+) milliseconds (?:of a processor for )?a megabyte"),
}
# A row of a tree of calls: names, with what they are given, and the file where they stand.
CALLS = re.compile(r"^ {4,}([A-Za-z_:]+(?:\([^)]*\))?(?:, [A-Za-z_:]+)*) +([a-z_]+/src/[\w/]+\.rt)\b")
# A row of BENCH.md's first table: the scene, and then nanoseconds, with a ratio after those of another program.
STEPS = re.compile(r"^\| \w+, [\d,]+ \| ([\d,]+) \| ([\d,]+) \| ([\d.]+) \| ([\d,]+) \| ([\d.]+) \|", re.M)
# CRATE/NAME is short for a file of one of these folders of a crate, without its ending.
SHORT_FORMS = [(folder, end) for folder in ("src", "specs", "proofs", ".") for end in ("", ".rt", ".antt")]
SHORT_FORMS += [(folder, ".edit") for folder in ("must-fail", "must-fail-beside-the-gate", ".")]
# Parts of a path that stand for a name, and folders that only a run makes.
STANDS_FOR_NAMES = re.compile(r"\b[A-Z]{2,}\b(?!\.md)")
MADE_BY_RUNS = {"out"}


def number(text):
    return int(text.replace(",", ""))


class Repository:
    """What the pages may speak of."""

    def __init__(self):
        self.below = crates_below()
        self.definitions = definition_files()
        self.code = code_files()
        self.files = [path for path in TOP.rglob("*") if ".git" not in path.parts and "out" not in path.parts]
        self.file_names = {path.name for path in self.files}
        self.tops = {path.name for path in TOP.iterdir()}
        self.types = {}
        for file in self.code.values():
            for name, item in file.items.items():
                if item.kind in ("struct", "enum", "trait"):
                    self.types.setdefault(name, set()).add(file.crate)
        self.words = {}
        self.version = VERSION_IN_CODE.search((TOP / "crates/script_options/src/words.rt").read_text(encoding="utf-8")).group(1)

    def crate_counts(self):
        """How many crates there are, and how many each has with those below it."""
        return {len(self.below)} | {len(self.all_below(crate)) for crate in self.below}

    def all_below(self, crate):
        """A crate with all crates of the repository on which it stands."""
        found, waiting = set(), [crate]
        while waiting:
            each = waiting.pop()
            if each in self.below and each not in found:
                found.add(each)
                waiting += self.below[each]
        return found

    def definition_counts(self):
        """How many definitions and lines the chapters of the book have, and all together, and how many definitions there are in all."""
        counts = {(sum(len(file.definitions) for file in self.definitions.values()), None)}
        contents = (BOOK / "README.md").read_text(encoding="utf-8")
        rows = re.findall(r"^\| .* \| ([\d,]+) \| ([\d,]+) \|$", contents, re.M)
        return counts | {(number(count), number(lines)) for count, lines in rows}

    def has_path(self, page, path):
        """Whether a path is there: from the top, from the page, among the crates or among the files of definitions."""
        path = re.sub(r"^(\.\./)+", "", path).rstrip("/")
        crate, _, rest = path.partition("/")
        places = [path, f"docs/{path}", f"{page.parent.relative_to(TOP)}/{path}", f"crates/{path}"]
        places += [f"crates/{crate}/{folder}/{rest}{end}" for folder, end in SHORT_FORMS if rest]
        return any(True for place in places for _ in TOP.glob(place))

    def is_path(self, page, word):
        """Whether a word in code is meant as a path of the repository."""
        if not PATH.match(word) or STANDS_FOR_NAMES.search(word) or MADE_BY_RUNS & set(word.split("/")):
            return False
        if NAMED_FILE.match(word):
            return True
        first = re.sub(r"^(\.\./)+", "", word).split("/")[0]
        return "/" in word.rstrip("/") and (first in self.tops or first in self.below)

    def is_definition(self, crate, file, name, page):
        """Whether CRATE/FILE.NAME means a definition. In WORLD.md FILE.NAME does so, too."""
        if name in ENDINGS:
            return False
        if crate:
            return f"{crate}/{file}" in self.definitions or (crate in self.below and not STANDS_FOR_NAMES.search(file))
        return page.name == "WORLD.md" and file != "File" and not NAMED_FILE.match(file)

    def has_definition(self, crate, file, name):
        keys = [key for key in self.definitions if key.endswith(f"/{file}") and (not crate or key == f"{crate}/{file}")]
        return any(self.definitions[key].find(name) for key in keys)

    def has_method(self, type_name, name):
        """Whether a crate that declares the type has a function, a variant or a field of this name."""
        return any(name in self.words_of(crate) for crate in self.types[type_name])

    def words_of(self, crate):
        if crate not in self.words:
            text = "\n".join("\n".join(file.lines) for file in self.code.values() if file.crate == crate)
            self.words[crate] = set(re.findall(r"\w+", text))
        return self.words[crate]


def anchors_of(path):
    """The anchors of a page's headings, as the usual viewers make them."""
    anchors, seen = set(), {}
    for line in read_lines(path):
        anchors.update(re.findall(r'<a (?:id|name)="([^"]+)"', line))
    for _, line in lines_of(path, in_code=False):
        found = re.match(r"#+\s+(.*?)\s*#*$", line)
        if found:
            plain = re.sub(r"\[([^\]]*)\]\([^)]*\)", r"\1", found.group(1))
            slug = re.sub(r"[^\w\- ]", "", plain.lower()).replace(" ", "-")
            count = seen[slug] = seen.get(slug, -1) + 1
            anchors.add(f"{slug}-{count}" if count else slug)
    return anchors


def lines_of(path, in_code):
    """The numbered lines of a page that fences enclose, or all others."""
    fenced = False
    for place, line in enumerate(read_lines(path), start=1):
        if line.lstrip().startswith(("```", "~~~")) or line in ("<pre>", "</pre>"):
            fenced = not fenced
        elif fenced == in_code:
            yield place, line


class Check:
    """The result of all checks."""

    def __init__(self, repository):
        self.repository = repository
        self.passed = self.failed = 0
        self.anchors = {}
        self.figures = {}
        self.headline = None

    def test(self, holds, page, place, complaint):
        if holds:
            self.passed += 1
        else:
            self.failed += 1
            print(f"{page.relative_to(TOP)}:{place}: {complaint}")

    def page(self, page):
        for place, line in lines_of(page, in_code=True):
            self.code(page, place, TAG.sub("", line))
            for link in HREF.findall(line):
                self.link(page, place, link)
        for place, line in lines_of(page, in_code=False):
            indented = INDENTED.match(line)
            for code in [indented.group(1)] if indented and "`" not in line else CODE.findall(line):
                self.code(page, place, code)
            for link in LINK.findall(CODE.sub("", line)) + TARGET.findall(line):
                self.link(page, place, link)
            self.numbers(page, place, line)
            self.calls(page, place, line)
        self.whole(page, page.read_text(encoding="utf-8"))

    def whole(self, page, text):
        """What a page has to say as a whole."""
        if page.name in NAME_ALL:
            start = text.index(NAME_ALL[page.name])
            named = set(re.findall(r"`(\w+)`", text[start:].split("\n## ")[0]))
            for crate in self.repository.below:
                self.test(crate in named, page, text[:start].count("\n") + 1, f"a section that doesn't name {crate}")
        for found in HEADLINE.finditer(text):
            said = " ".join(found.group(1).replace("\n>", " ").split())
            self.headline = self.headline or said
            self.test(said == self.headline, page, text[: found.start()].count("\n") + 1, "another headline than that of the page before")
        for what, figure in SAME.items():
            for said in figure.findall(" ".join(text.split())):
                first = self.figures.setdefault(what, (said, page.name))
                self.test(said == first[0], page, 1, f"{what}: {said}, where {first[1]} says {first[0]}")
        if page == TOP / "README.md":
            self.speed(page, " ".join(text.split()))

    def speed(self, page, text):
        """README.md's ranges of a step's time, beside other programs."""
        rows = STEPS.findall((TOP / "docs" / "BENCH.md").read_text(encoding="utf-8"))
        for name, column in (("Box2D", 2), ("Chipmunk", 4)):
            ratios = sorted((row[column] for row in rows), key=float)
            self.test(f"{ratios[0]} to {ratios[-1]} times as long as in {name}" in text, page, 1, f"another speed beside {name} than BENCH.md's")

    def calls(self, page, place, line):
        """Whether the names of a row of a tree of calls stand in the row's file."""
        row = CALLS.match(line)
        file = row and TOP / "crates" / row.group(2)
        if not row or not file.is_file():
            return
        text = file.read_text(encoding="utf-8")
        for name in re.sub(r"\([^)]*\)", "", row.group(1)).split(", "):
            item = re.compile(rf"\b(?:fn|struct|enum|trait|type|const) {name.split('::')[-1]}\b")
            self.test(item.search(text), page, place, f"{name} doesn't stand in {row.group(2)}")

    def code(self, page, place, code):
        for word in code.replace("<", " ").replace(">", " ").split():
            self.word(page, place, word.rstrip(",;:"))
        method = METHOD.match(code)
        if method and method.group(1) in self.repository.types:
            self.test(self.repository.has_method(*method.groups()), page, place, f"no such method: {code}")

    def word(self, page, place, word):
        """A word in code: a definition, a path, or neither."""
        repository, defined = self.repository, DEFINED.match(word)
        if defined and repository.is_definition(*defined.groups(), page):
            self.test(repository.has_definition(*defined.groups()), page, place, f"no such definition: {word}")
        elif repository.is_path(page, word):
            here = NAMED_FILE.match(word) and word in repository.file_names
            self.test(here or repository.has_path(page, word), page, place, f"no such path: {word}")

    def link(self, page, place, link):
        if re.match(r"[a-z]+:", link):
            return
        name, _, anchor = link.partition("#")
        path = (page.parent / name).resolve() if name else page
        self.test(path.exists(), page, place, f"a link to what isn't there: {link}")
        if anchor and path.is_file() and path.suffix == ".md":
            if path not in self.anchors:
                self.anchors[path] = anchors_of(path)
            self.test(anchor in self.anchors[path], page, place, f"a link to no heading: {link}")

    def numbers(self, page, place, line):
        crates = self.repository.crate_counts()
        for found in CRATES.findall(line):
            self.test(int(found) in crates, page, place, f"{found} crates, where there are {max(crates)}")
        for found in VERSION.findall(line):
            here = self.repository.version
            self.test(found in (here, here.split(",")[0]), page, place, f"version {found}, where the program prints {here}")
        if page.parent == BOOK:
            return
        for count, lines in DEFINITIONS.findall(line):
            known = [each for each in self.repository.definition_counts() if each[0] == number(count)]
            fits = any(not lines or lines_known == number(lines) for _, lines_known in known)
            self.test(fits, page, place, f"{count} definitions{lines and f' of {lines} lines'} are on no page")


def pages(words):
    if words:
        return [Path(word).resolve() for word in words]
    return sorted(page for folder in (".", "docs", "docs/definitions", "examples", "tools") for page in (TOP / folder).glob("*.md"))


def tell_of_dist():
    """A line where dist/ is of other sources than the tree's. That fails nothing: dist/ is made anew for a release."""
    origin, sources = TOP / "dist" / "ORIGIN", TOP / "bindings" / "packaging" / "sources.py"
    if not origin.is_file():
        return
    told = subprocess.run([sys.executable, sources, origin], capture_output=True, text=True, check=True).stdout
    if "other sources" in told:
        print("dist/ is of other sources than the tree's: bindings/package makes it anew")


def main(words):
    check = Check(Repository())
    for page in pages(words):
        check.page(page)
    for path in check.repository.files:
        check.test(not path.is_symlink(), path, 1, "is a link, and the kit takes no tree with one")
    tell_of_dist()
    print(f"{check.passed} passed, {check.failed} failed")
    sys.exit(1 if check.failed or not check.passed else 0)


if __name__ == "__main__":
    main(sys.argv[1:])
