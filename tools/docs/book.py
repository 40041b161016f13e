"""The book of definitions: what the claims rest on, and the page and the place of each definition, type and constant.

Used by `definitions.py`, which writes the pages. `claims.py` has the claims, and `chapters.py` says which definitions a chapter has.
"""

import re
from collections import Counter, namedtuple
from pathlib import PurePath

from chapters import CHAPTERS
from claims import all_claims
from reach import key_of, unique
from sources import Definition

# A contract as a page prints it: the first claim that it carries, the function and the texts of its clauses.
Printed = namedtuple("Printed", "claim function clauses")
# A part of a page: a file with its definitions, and the types and constants of the code that are first used there.
Section = namedtuple("Section", "file definitions items")


def clauses_of(function, names):
    """The texts of a function's clauses, among which are those of these names."""
    missing = set(names) - {name for name, _ in function.clauses}
    if missing or not function.clauses:
        raise SystemExit(f"{function.name} has no clause {' '.join(missing)}, which a claim names")
    return [text for _, text in function.clauses]


class Book:
    """Which page has what."""

    def __init__(self, reach):
        self.reach = reach
        self.contracts = {chapter.page: [] for chapter in CHAPTERS}
        self.starts_of = {}  # what the contracts of each claim name
        self._read_claims()
        self.starts = unique(node for starts in self.starts_of.values() for node in starts)
        self.nodes = reach.closure(self.starts)
        self.rank = {}  # the number of the first claim that rests on a definition, and whether the claim's contracts don't name it
        known, named = set(), set(map(key_of, self.starts))
        for number, claim in enumerate(all_claims()):
            self.rank.update({key_of(node): (number, key_of(node) not in named) for node in self.added_by([claim], known)})
        self.page_of = self._pages_of_definitions()
        self.sections, self.shown = {}, set()
        for chapter in CHAPTERS:
            self.sections[chapter.page] = self._sections_of(chapter)
        self.anchor_of = self._anchors()

    def link(self, page, node):
        """What leads from a page to a node."""
        other = self.page_of[key_of(node)]
        return ("" if other == page else f"{other}.md") + f"#{self.anchor_of[key_of(node)]}"

    def definitions(self, page=None):
        """The definitions of a page, or of all."""
        pages = [page] if page else list(self.sections)
        return [each for page in pages for section in self.sections[page] for each in section.definitions]

    def items(self):
        return [node for node in self.nodes if not isinstance(node, Definition)]

    def functions_of(self, contract):
        """The functions of a contract. `PREFIX*` means each public one of the crate that begins so, has a contract and is named by no claim."""
        contracts = [each for claim in all_claims() for each in claim.contracts if each.crate == contract.crate]
        named, found = " ".join(each.functions for each in contracts).split(), []
        for name in contract.functions.split():
            if name.endswith("*"):
                others = self.reach.public_functions(contract.crate)
                found += [each for each in others if each.name.startswith(name[:-1]) and each.name not in named and each.clauses]
            else:
                found.append(self.reach.function(contract.crate, name))
        return found

    def _read_claims(self):
        """Finds what the contracts of each claim name, and where they are printed, each once."""
        printed = set()
        for claim in all_claims():
            self.starts_of[claim.words] = []
            for contract in claim.contracts:
                for function in self.functions_of(contract):
                    clauses = clauses_of(function, contract.clauses.split())
                    self.starts_of[claim.words] += self._named_by(function, clauses)
                    if (function.file, function.name) not in printed:
                        self.contracts[contract.page].append(Printed(claim, function, clauses))
                        printed.add((function.file, function.name))

    def added_by(self, claims, known):
        """The definitions on which these claims rest beyond those that are known, which they are added to."""
        starts = [node for claim in claims for node in self.starts_of[claim.words]]
        found = [node for node in self.reach.closure(starts) if isinstance(node, Definition) and key_of(node) not in known]
        known.update(map(key_of, found))
        return found

    def _named_by(self, function, clauses):
        places = [place for clause in clauses for place in self.reach.places_of_clause(function, clause)]
        return [node for _, _, node in places + self.reach.places_of_head(function) + self.reach.places_of_block(function)]

    def _pages_of_definitions(self):
        """The page of each definition, and of the items that chapters name; ends the script where a definition has none."""
        files = {source: chapter.page for chapter in CHAPTERS for source in chapter.sources.split()}
        pages = {key_of(node): chapter.page for chapter in CHAPTERS for node in self._led_to_by(chapter)}
        for node in self.nodes:
            folder = node.file.split("/")[0] + "/src"
            page = files.get(node.file) or (None if isinstance(node, Definition) else files.get(folder))
            if page:
                pages.setdefault(key_of(node), page)
        self._test_sources(files, pages)
        return pages

    def _test_sources(self, files, pages):
        """Ends the script where a file of definitions has no chapter, or where a chapter has one of which nobody needs anything."""
        definitions = [node for node in self.nodes if isinstance(node, Definition)]
        without = sorted({node.file for node in definitions if key_of(node) not in pages})
        needed = {node.file for node in definitions}
        needless = sorted(source for source in files if re.fullmatch(r"\w+/[A-Z]\w+", source) and source not in needed)
        if without:
            raise SystemExit(f"tools/docs/chapters.py has no chapter for what a claim rests on: {', '.join(without)}")
        if needless:
            raise SystemExit(f"tools/docs/chapters.py has what no claim rests on: {', '.join(needless)}")

    def _led_to_by(self, chapter):
        """The definitions that a chapter takes out of files by name: the named ones, and those of their files that are reached by them alone."""
        names = {tuple(source.rsplit(".", 1)) for source in chapter.sources.split() if re.fullmatch(r"\w+/\w+\.\w+", source)}
        missing = names - {key_of(node) for node in self.nodes}
        if missing:
            raise SystemExit(f"tools/docs/chapters.py has what no claim rests on: {sorted(missing)}")
        kept = {key_of(node) for node in self.reach.closure(self.starts, names)}
        files = {file for file, _ in names}
        return [node for node in self.nodes if node.file in files and key_of(node) not in kept]

    def _sections_of(self, chapter):
        """The files of a chapter in reading order, each with the items that are first used there."""
        files = {}
        for node in self.nodes:
            if isinstance(node, Definition) and self.page_of[key_of(node)] == chapter.page:
                files.setdefault(node.file, []).append(node)
        order = list(dict.fromkeys(source.split(".")[0] for source in chapter.sources.split()))
        contracts = [node for printed in self.contracts[chapter.page] for node in self._named_by(printed.function, printed.clauses)]
        sections = [Section("", [], self._new_items(chapter.page, contracts))]
        for file in sorted(files, key=order.index):
            definitions = self.reach.reading_order(files[file], self.rank)
            used = [node for each in definitions for _, _, node in self.reach.places_of(each)]
            sections.append(Section(file, definitions, self._new_items(chapter.page, used)))
        sections.append(Section("", [], self._new_items(chapter.page, self.items(), only_own=True)))
        return sections

    def _new_items(self, page, used, only_own=False):
        """The items of the code among what is used here, and in one another, that are this page's or no other's and aren't shown yet."""
        found, waiting = [], [node for node in used if not isinstance(node, Definition)]
        while waiting:
            item = waiting.pop(0)
            home = self.page_of.get(key_of(item))
            if key_of(item) not in self.shown and (home == page or not home and not only_own):
                self.page_of[key_of(item)] = page
                self.shown.add(key_of(item))
                found.append(item)
                waiting += [node for _, _, node in self.reach.places_of(item) if not isinstance(node, Definition)]
        return found

    def _anchors(self):
        """The name of each node's place on its page, with that of its file where two on the page have the same."""
        homes = {key_of(node): (self.page_of[key_of(node)], node.name) for node in self.nodes}
        counts = Counter(homes.values())
        return {(file, name): name if counts[home] == 1 else f"{PurePath(file).stem}.{name}" for (file, name), home in homes.items()}
