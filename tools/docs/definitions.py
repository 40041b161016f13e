#!/usr/bin/env python3
"""Writes docs/definitions, the book of the definitions on which the claims of README.md rest, and what other pages have of it.

    tools/docs/definitions.py             writes the chapters and their contents, the table of claims in PROVED.md, and the ends of the pages that
                                          lead to chapters
    tools/docs/definitions.py --check     fails where a page isn't what the script makes of the sources as they are
    tools/docs/definitions.py --mark      says in the first line of each file of definitions whether it is trusted, and then writes the pages

A contract is worth what the definitions that it cites say. `claims.py` has what is claimed, and the contracts that say it. The book has what the
clauses of these name, what these definitions name, and so on, each on the page that `chapters.py` gives to its file. It fails where

- README.md claims what `claims.py` doesn't have, or the other way round;
- a claim names a function or a clause that isn't there;
- a claim rests on a definition that no chapter has, or a chapter has a file of which no claim needs anything;
- a chapter has more lines than a reader takes in one piece;
- a file of definitions says in its first line that it is trusted and no claim rests on it, or the other way round;
- a constant on which a claim rests is said in digits by no law;
- the count of `recount.py`, which finds the definitions a second time on the pages, disagrees.

In a chapter the contracts come first. In a file each definition comes before those that it uses. Types and constants of the code follow the file
in which they are first used. Each use leads to its definition.
"""

import html
import re
import sys
import textwrap
from collections import namedtuple

from book import Book
from chapters import CHAPTERS, PARTS
from claims import FURTHER, OF_README, all_claims
from reach import Reach, key_of
from recount import Recount
from sources import TOP

BOOK, README, PROVED = TOP / "docs" / "definitions", TOP / "README.md", TOP / "docs" / "PROVED.md"
MOST_LINES = 400
# Pages whose [`CRATE/FILE.NAME`] lead to chapters, and the line under which they have where each leads.
LEADING = [TOP / "docs" / "WORLD.md", TOP / "docs" / "GLOSSARY.md"]
TARGETS = "<!-- Where the definitions are: tools/docs/definitions.py writes the rest of this page -->"
NAMED = re.compile(r"\[`(\w+/[A-Z]\w*)\.([\w']+)`\](?!:)")
# The lines of docs/PROVED.md between which the table of claims stands.
TABLE_STARTS = "<!-- The claims: tools/docs/definitions.py writes this table -->"
TABLE_ENDS = "<!-- The end of the claims -->"
# What the first line of a file of definitions begins with on which a claim rests.
TRUSTED = "-- Trusted: "
# A row of the table counts the functions of one crate from so many on.
MANY = 7
# A row names so many clauses of a function, and counts more.
FEW = 4
# A place in a text, and the tag that it gets: it leads elsewhere, or has a name of its own.
Mark = namedtuple("Mark", "start end tag")

# How a reader who knows no proof language reads a page.
NOTATION = [
    ("`abbrev pub f : A → B → C`, `unfoldable pub f : ..`", "the type of f: it takes an A and a B, and is a C; both words mean a definition"),
    ("`f x y = ..`", "what f is at x and y; where there are several such lines, each is a case"),
    ("`f x y`, `f (g x)`", "f of x and y; f of what g is at x"),
    ("`record { a = ..; b = ..; }`", "a value with these fields; `record w { a = ..; }` is w with another a"),
    ("`cond b x y`", "x if b is true, else y"),
    ("`[]`, `x ∷ xs`, `xs ++ ys`", "the empty list; x before the list xs; one list and then another"),
    ("`None`, `Some x`; `Ok x`, `Err e`", "as in Rust"),
    ("`λ x. ..`", "the function that takes x, as a closure"),
    ("`ℕ`, `ℤ`, `pos n`", "the natural numbers from 0; all integers; n as one of these"),
    ("`slice_get xs n`, `slice_set xs n x`", "the item at n, or none; the list with x at n"),
    ("`option_map f o`, `replicate n x`", "f of what is there, or none; n times x"),
    ("`option_map_or f o d`, `unwrap_or o d`", "f of what is there, or d where o is none; what is there, or d"),
    ("`option_and_then f o`, `option_or o p`", "f of what is there, which may give none; o, or p where o is none"),
    ("`option_flatten o`", "the option in an option, or none"),
    ("`result_map_both f g r`", "f of what r has where it is Ok, g of it where it is Err"),
    ("`.. → Type 0`", "a statement, which holds or doesn't, or a type; its name has a capital letter"),
    ("`pub record N .. where`", "a type with these fields; of a statement the fields are what has to hold together"),
    ("`a ≡ b`, `a ≢ b`; `a × b`, `a ⊎ b`, `a ↔ b`, `⊥`", "a equals b, or doesn't; both, one or the other, one just if the other, what never holds"),
    ("`(x : A) → ..`, `(x : A) × ..`", "for each x; there is an x"),
    ("`All P xs`, `AllPairs R xs`, `Contains xs x`", "P of each item; R of each item with each later one; x is among the items"),
    ("`map f xs`, `filter p xs`, `find p xs`, `fold f s xs`", "as the iterators of Rust; `fold` from the left, starting at s"),
    ("`x +ℤ y`, `nat_le m n`, `int_lt x y`, `unsigned_abs x`", "a sum of integers; whether m ≤ n, whether x < y; the size of x"),
    ("`requires`, `ensures`", "in a contract: what a caller has to keep; what then holds"),
    ("`self.old`, `self.new`, `x.now`, `result`", "in a contract: the value before the call and after it, the argument x, the answer"),
    ("`IfOk r P`, `IfErr r P`, `IfSome o P`", "P of what r or o has, if it is Ok, Err or Some"),
    ("`IsSome o`", "o is Some of anything"),
    ("`OnOk r a`, `OnErr r a`; `IsOkUnless r e`", "a, if r is Ok, or Err; r is Ok or else Err of e"),
    ("`MatchResult r P Q`, `MatchBool b P Q`", "P of the value or else Q of the error; P if b is true, else Q"),
    ("`v.items`, `arc_value x`", "the items of a Vec; what an Arc has"),
]
CONTENTS = """The claims of this repository rest on the definitions of these chapters and on no others: they are what a reviewer reads and trusts. A
chapter begins with its contracts, and then has the definitions by file. Each name leads to its definition. [PROVED](../PROVED.md#in-short) has
the claims with the contracts that say them. `tools/docs/definitions.py` writes these pages from the sources; don't edit them."""
RESTING = """Each row counts what the claim needs beyond the rows above it. So `apply` is most of the work."""
READING = """A line that begins with `--` is a comment. A definition is written in the language of the kit's proofs, of which a reader needs no more
than this:"""


def length(definitions):
    return sum(len(each.comment) + len(each.text) for each in definitions)


def many(count, word):
    return f"{count} {word}" + ("" if count == 1 else "s")


def wrapped(text):
    return textwrap.wrap(" ".join(text.split()), 120, break_on_hyphens=False, break_long_words=False)


def marked(text, marks):
    """A text as HTML, with a tag round each marked part."""
    parts, last = [], 0
    for start, end, tag in sorted(set(marks)):
        if start >= last:
            parts += [html.escape(text[last:start], quote=False), tag, html.escape(text[start:end], quote=False), "</a>"]
            last = end
    return "".join(parts) + html.escape(text[last:], quote=False)


class Pages:
    """The pages of a book."""

    def __init__(self, book):
        self.book = book
        self.reach = book.reach

    def links(self, page, places):
        return [Mark(start, end, f'<a href="{self.book.link(page, node)}">') for start, end, node in places]

    def named(self, text, name, anchor):
        """The mark of the place in a text where its name first stands alone."""
        found = re.search(rf"(?<![\w.'◌]){re.escape(name)}(?![\w'◌])", text)
        return Mark(*found.span(), f'<a id="{anchor}">')

    def node_lines(self, page, node, shown):
        """A definition or an item with its comment."""
        marks = self.links(page, self.reach.places_of(node)) + [self.named(shown, node.name, self.book.anchor_of[key_of(node)])]
        return [html.escape(line, quote=False) for line in node.comment] + marked(shown, marks).split("\n") + [""]

    def contract_lines(self, page):
        """The contracts of a page, each with the claim that it carries."""
        lines, claimed, place = [], None, None
        for claim, function, clauses in self.book.contracts[page]:
            if claim != claimed:
                lines += closed(lines) + [f"*{claim.words}*", "", "<pre>"]
                claimed, place = claim, None
            if (function.file, function.block) != place:
                place = (function.file, function.block)
                lines += [self.place_line(page, function)]
            lines += self.function_lines(page, function, clauses)
        return ["## Contracts", "", *lines[:-1], "</pre>", ""] if lines else []

    def place_line(self, page, function):
        """Where a function is: its file, and the head of its block where that says of its parameters what they are."""
        block = function.block if "<" in function.block else ""
        return source_line(function.file) + (", " + marked(block, self.links(page, self.reach.places_of_block(function))) if block else "")

    def function_lines(self, page, function, clauses):
        """The head of a function and its clauses."""
        head, short = function.head, function.name.split("::")[-1]
        start = re.search(rf"\bfn {short}\b", head).end() - len(short)
        marks = [Mark(start, start + len(short), f'<a id="fn.{function.name}">'), *self.links(page, self.reach.places_of_head(function))]
        lines = [marked(head, marks).replace(f">{short}</a>", f">{function.name}</a>", 1)]
        lines += ["    " + marked(clause, self.links(page, self.reach.places_of_clause(function, clause))) for clause in clauses]
        return lines + [""]

    def section_lines(self, page, section):
        """The definitions of a file, and the types and constants of the code that are first used there."""
        lines = []
        if section.file:
            file = self.reach.files[section.file]
            about = about_of(file)
            crate, name = section.file.split("/")
            source = f"[{section.file}](../../crates/{crate}/specs/{name}.antt)"
            of_any = f" For any `{file.parameters}`." if file.parameters else ""
            lines += [f"## {section.file}", "", *wrapped(f"{about} {source}.{of_any}"), "", "<pre>"]
            for node in section.definitions:
                lines += self.node_lines(page, node, "\n".join(node.text))
            lines += closed(lines)
        return lines + self.item_lines(page, section.items)

    def item_lines(self, page, items):
        """Types and constants of the code, by file."""
        lines, last = ["<pre>"], None
        for item in items:
            if item.file != last:
                lines.append(source_line(item.file))
                last = item.file
            lines += self.node_lines(page, item, self.reach.shown(item))
        return [*lines[:-1], "</pre>", ""] if items else []

    def chapter_text(self, chapter):
        definitions = self.book.definitions(chapter.page)
        counted = f"{many(len(definitions), 'definition')} of {length(definitions):,} lines, from {many(len({each.file for each in definitions}), 'file')}"
        about = f"{chapter.about} {counted}. [How to read them](README.md#how-to-read-them)."
        lines = [f"# {chapter.title}", "", *wrapped(about), "", *self.contract_lines(chapter.page)]
        for section in self.book.sections[chapter.page]:
            lines += self.section_lines(chapter.page, section)
        return "\n".join(lines).rstrip("\n") + "\n"

    def contents_text(self):
        """The page of contents: the chapters, how to read them, and the names of the kit's library."""
        lines = ["# The definitions", "", *wrapped(CONTENTS), "", "| Chapter | It has | Definitions | Lines |", "|---|---|---|---|"]
        for part, chapters in PARTS.items():
            lines.append(f"| **{part}** | | | |")
            for chapter in chapters:
                own = self.book.definitions(chapter.page)
                lines.append(f"| [{chapter.title}]({chapter.page}.md) | {chapter.about} | {len(own)} | {length(own):,} |")
        definitions, items = self.book.definitions(), self.book.items()
        lines += [f"| together | of {len({each.file for each in definitions})} files | {len(definitions):,} | {length(definitions):,} |", ""]
        constants = sum(item.kind == "const" for item in items)
        taken = f"They take {len(items) - constants} types and {constants} constants from the code, and {len(self.reach.kit)} names from the kit's library."
        lines += [*wrapped(taken), "", "## What each claim rests on", "", *wrapped(RESTING), "", *self.resting_lines()]
        lines += ["## How to read them", "", *wrapped(READING), "", "| Written | Read |", "|---|---|"]
        lines += [f"| {written} | {read} |" for written, read in NOTATION]
        return "\n".join(lines + ["", "## Names of the kit's library", "", "Their meaning is the kit's, by module:", "", *self.kit_lines()]) + "\n"

    def resting_lines(self):
        """The claims in their order, with how much each adds to what is to be read."""
        lines, known = ["| Claim | Definitions more | Lines more |", "|---|---|---|"], set()
        for claims in [[claim] for item in OF_README for claim in item] + [FURTHER]:
            added = self.book.added_by(claims, known)
            words = claims[0].words if claims is not FURTHER else "What PROVED claims beside these"
            lines.append(f"| {words} | {len(added)} | {length(added):,} |")
        return lines + [""]

    def kit_lines(self):
        modules = {}
        for where, name in sorted(self.reach.kit):
            modules.setdefault(where.replace("Rattle.", "").replace(".specs.", "/"), []).append(f"`{name}`")
        return [f"- `{module}`: {', '.join(names)}" for module, names in sorted(modules.items())]

    def table_lines(self):
        """The claims, each with the contracts that say it."""
        lines = ["| Claim | Said by |", "|---|---|"]
        for claim in all_claims():
            said = [self.functions_said(contract) for contract in claim.contracts] or ["the prover, of each function"]
            if claim.definition:
                node = self.reach.target(*claim.definition.rsplit(".", 1))
                said.append(f"the definition [`{node.name}`](definitions/{self.book.link('', node)})")
            lines.append(f"| {claim.words} | {'; '.join(said)} |")
        return lines

    def functions_said(self, contract):
        """The functions of a contract with their clauses, each leading to the chapter that prints it."""
        page = f"definitions/{contract.page}.md"
        functions = self.book.functions_of(contract)
        if len(functions) >= MANY:
            return f"[{len(functions)} functions of `{contract.crate}`]({page}#contracts)"
        links = [f"[`{function.name}`]({page}#fn.{function.name})" for function in functions]
        said = [clauses_said(function, contract) for function in functions]
        if len(set(said)) == 1:
            return f"{', '.join(links)}: {said[0]}"
        return "; ".join(f"{link}: {clauses}" for link, clauses in zip(links, said))


def clauses_said(function, contract):
    """Which clauses of a function say what is claimed."""
    promised = [name for name, text in function.clauses if text.startswith("ensures")]
    named = contract.clauses.split() or promised
    if named == [""]:
        return "its clause"
    return ", ".join(f"`{name}`" for name in named) if len(named) <= FEW else f"its {len(named)} clauses"


def about_of(file):
    """What the comment at the head of a file of definitions says."""
    head = "\n".join(file.lines).split("\nuse ")[0].splitlines()
    about = re.sub(r"^(Trusted|Inner): ", "", " ".join(line.lstrip("- ") for line in head if line.startswith("--")))
    return about[:1].upper() + about[1:]


def source_line(file):
    """The line of a block that says of which file of code it is."""
    return f'// <a href="../../crates/{file}">{file}</a>'


def closed(lines):
    """What ends the block of code that is open at the end of these lines."""
    if not lines:
        return []
    if lines[-1] == "":
        lines.pop()
    return ["</pre>", ""]


def claims_of_readme(text):
    """The words of each item of README.md's list of what is proved, without links."""
    listed = text[text.index("**Proved:**") : text.index("**Only tested:**")]
    items = re.split(r"^\d+\. ", re.sub(r"\[([^\]]*)\]\([^)]*\)", r"\1", listed), flags=re.M)[1:]
    return [" ".join(item.split()) for item in items]


def readme_faults():
    """Where README.md claims something else than `claims.py`."""
    written = claims_of_readme(README.read_text(encoding="utf-8"))
    known = [" ".join(claim.words for claim in item) for item in OF_README]
    return [f"README.md claims what tools/docs/claims.py doesn't: {words}" for words in written if words not in known] + [
        f"tools/docs/claims.py claims what README.md doesn't: {words}" for words in known if words not in written
    ]


def is_marked(file):
    return file.lines[0].startswith(TRUSTED)


def trusted_files(book):
    return {each.file for each in book.definitions()}


def source_faults(book):
    """Files of definitions whose first line says the wrong of their being trusted, and constants without digits."""
    trusted, files = trusted_files(book), book.reach.files
    wrong = [key for key, file in files.items() if is_marked(file) != (key in trusted)]
    found = [f"{key}: the first line says the wrong of whether a claim rests on it, which --mark mends" for key in wrong]
    constants = [item for item in book.items() if item.kind == "const" and not book.reach.digits_of(item)]
    return found + [f"{item.name} of {item.file} is said in digits by no law of its crate" for item in constants]


def mark_files(book):
    """Writes into the first line of each file of definitions whether it is trusted."""
    trusted = trusted_files(book)
    for key, file in book.reach.files.items():
        if is_marked(file) != (key in trusted):
            about = re.sub(r"^-- (Trusted: |Inner: )?", "", file.lines[0])
            file.lines[0] = (TRUSTED if key in trusted else "-- ") + about
            file.path.write_text("\n".join(file.lines) + "\n", encoding="utf-8")


def with_table(text, table):
    """A text with the table of claims between the lines that enclose it."""
    if TABLE_STARTS not in text or TABLE_ENDS not in text:
        sys.exit(f"docs/PROVED.md has no place for the table of claims: {TABLE_STARTS} .. {TABLE_ENDS}")
    before, _, rest = text.partition(TABLE_STARTS)
    return "\n".join([before + TABLE_STARTS, "", *table, "", TABLE_ENDS + rest.partition(TABLE_ENDS)[2]])


def with_targets(book, path):
    """A page with the places to which its definitions lead."""
    body, found = path.read_text(encoding="utf-8").partition(TARGETS)[0].rstrip("\n"), {}
    for file, name in NAMED.findall(body):
        if (file, name) not in book.page_of:
            sys.exit(f"{path.relative_to(TOP)} leads to {file}.{name}, which no chapter has")
        page, anchor = book.page_of[file, name], book.anchor_of[file, name]
        found[f"{file}.{name}"] = f"definitions/{page}.md#{anchor}"
    return "\n".join([body, "", TARGETS, "", *(f"[`{name}`]: {target}" for name, target in sorted(found.items()))]) + "\n"


def made_pages(book):
    """Each page by its path, as it should be."""
    pages, reach = Pages(book), book.reach
    made = {BOOK / f"{chapter.page}.md": pages.chapter_text(chapter) for chapter in CHAPTERS}
    made[BOOK / "README.md"] = pages.contents_text()
    made[PROVED] = with_table(PROVED.read_text(encoding="utf-8"), pages.table_lines())
    made.update({path: with_targets(book, path) for path in LEADING})
    return made


def faults_of(book, made):
    """What is wrong with a book."""
    found = readme_faults() + source_faults(book)
    chapters = {path: text for path, text in made.items() if path.parent == BOOK and path.name != "README.md"}
    for path, text in chapters.items():
        if text.count("\n") > MOST_LINES:
            found.append(f"{path.name} has {text.count(chr(10))} lines, more than {MOST_LINES}: part it in tools/docs/chapters.py")
    of_types = [node for item in book.items() for _, _, node in book.reach.places_of(item)]
    again = Recount("\n".join(chapters.values()), {key_of(node) for node in book.starts + of_types})
    definitions = book.definitions()
    if len(again.blocks) != len(definitions) or again.lines != length(definitions):
        found.append(f"printed are {len(again.blocks)} definitions of {again.lines} lines, and found {len(definitions)} of {length(definitions)}")
    return found + again.faults()


def main(words):
    if words not in ([], ["--check"], ["--mark"]):
        sys.exit(__doc__)
    book = Book(Reach())
    if words == ["--mark"]:
        mark_files(book)
    made = made_pages(book)
    faults = faults_of(book, made)
    left = {path for path in BOOK.glob("*.md") if path not in made}
    if words != ["--check"]:
        BOOK.mkdir(exist_ok=True)
        for path, text in made.items():
            path.write_text(text, encoding="utf-8")
        for path in left:
            path.unlink()
    else:
        stale = [path for path, text in made.items() if not path.is_file() or path.read_text(encoding="utf-8") != text]
        faults += [f"not what tools/docs/definitions.py makes: {path.relative_to(TOP)}" for path in sorted({*stale, *left})]
    print(f"docs/definitions: {len(book.definitions())} definitions of {length(book.definitions()):,} lines in {len(CHAPTERS)} chapters")
    if faults:
        sys.exit("\n".join(faults))


if __name__ == "__main__":
    main(sys.argv[1:])
