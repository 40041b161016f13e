"""Counts the definitions of the book a second time, on its pages, and tests that they are those that the claims need.

Used by `definitions.py`. `reach.py` goes from texts to names: it reads a text word by word and looks each word up. This count goes from names to
texts, on the pages that were made. It takes each name that a file knows, and searches the texts that the pages print from this file. A name that it
finds must be printed; what is printed must be reached from where the claims start. It counts heads and lines on the pages. Both counts leave out a
word that its equation binds. Nothing else is shared.
"""

import html
import re

from sources import TOP

BLOCK = re.compile(r"^## (\w+/\w+)\n\n[^<]*?\n\n<pre>\n(.*?)\n</pre>$", re.M | re.S)
TAG = re.compile(r"<a [^>]*>|</a>")
HEAD = re.compile(r"^(?:abbrev |unfoldable )?pub (?:record |data )?([^\s:(){}]+)(?= .*:)", re.M)
BROUGHT = re.compile(r"^use Rattle\.(\w+)\.specs\.(\w+)\.\{(.*)\}$", re.M)
RENAMED = re.compile(r"^use Rattle\.(\w+)\.specs\.(\w+) as (\w+)$", re.M)
BINDERS = re.compile(r"λ([^.]*)\.|[({]([\w' ]+) :|let ([\w']+) =")


def all_names():
    """Each file of definitions with its text and the names of its definitions, found by one expression."""
    files = {}
    for path in TOP.glob("crates/*/specs/*.antt"):
        text = path.read_text(encoding="utf-8")
        if "\nmodule _ " in text:
            text = re.sub(r"^  ", "", text, flags=re.M)
        files[f"{path.parts[-3]}/{path.stem}"] = (text, HEAD.findall(text))
    return files


def known_words(files, file):
    """Each word that a file has for a definition, with the definition."""
    text, heads = files[file]
    words = {name: (file, name) for name in heads}
    for crate, module, names in BROUGHT.findall(text):
        for name, _, other in (part.strip().partition(" as ") for part in names.split(",")):
            words[other or name] = (f"{crate}/{module}", name)
    for crate, module, short in RENAMED.findall(text):
        heads = files.get(f"{crate}/{module}", ("", []))[1]
        words.update({f"{short}.{name}": (f"{crate}/{module}", name) for name in heads})
    return {word: other for word, other in words.items() if other[1] in files.get(other[0], ("", []))[1]}


def is_used(text, word):
    """Whether a word stands in an equation as a name, neither bound by it nor the name of a field."""
    whole = rf"(?<![\w.']){re.escape(word)}(?![\w'])"
    has_sides = not re.match(r"abbrev |unfoldable |pub ", text)
    left, *right = re.split(r" =(?:\s|$)", text, maxsplit=1) if has_sides else ["", text]
    bound = " ".join([left] + [part for parts in BINDERS.findall(text) for part in parts])
    if word[0].islower() and re.search(whole, bound):
        return False
    return bool(re.search(whole + r"(?! =\s)", text))


class Recount:
    """What the pages print: `blocks` has the file, the name and the text of each definition; `lines` counts their lines."""

    def __init__(self, pages, starts):
        self.files = all_names()
        self.words = {}  # the words that each file knows, kept once they were asked for
        self.starts = starts
        self.blocks, self.lines = [], 0
        for file, block in BLOCK.findall(pages):
            for line in filter(None, html.unescape(TAG.sub("", block)).split("\n")):
                self._read(file, line)

    def _read(self, file, line):
        self.lines += 1
        if line.startswith("--"):
            return
        if HEAD.match(line):
            self.blocks.append((file, HEAD.match(line).group(1), line))
        else:
            self.blocks[-1] = (*self.blocks[-1][:2], self.blocks[-1][2] + "\n" + line)

    def faults(self):
        """What is named and isn't printed, and what is printed and isn't reached."""
        uses = {(file, name): self._named_by(file, name, text) for file, name, text in self.blocks}
        found = [f"{'.'.join(key)} names {'.'.join(other)}, which isn't printed" for key, others in uses.items() for other in sorted(others - set(uses))]
        reached, waiting = set(), list(self.starts)
        while waiting:
            key = waiting.pop()
            if key in uses and key not in reached:
                reached.add(key)
                waiting += uses[key]
        return found + [f"{'.'.join(key)} is printed, and no claim leads to it" for key in uses if key not in reached]

    def _named_by(self, file, name, text):
        """The definitions that a printed text names, of all those that its file knows."""
        fields = re.sub(r"^(\s+(?:pub )?)[\w']+ :", r"\1:", text, flags=re.M)
        equations = re.split(rf"\n(?={re.escape(name)} )", fields)
        if file not in self.words:
            self.words[file] = known_words(self.files, file)
        found = {other for word, other in self.words[file].items() if any(is_used(each, word) for each in equations)}
        return found - {(file, name)}
