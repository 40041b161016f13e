#!/usr/bin/env python3
"""Makes stubs of crates in a copy, so that what stands above them can be checked before they are proved.

    tools/stubs.py COPY CRATE.. [--keep CRATE/FUNCTION ..] [--open TRAIT ..] [--without TRAIT ..] [--mark CRATE:TRAIT ..] [--for ABOVE ..]

COPY is a copy of a clone, without the `out/` of the stubbed crates. It is changed in place. In each CRATE

- a public function has the body `unreachable!()` under `requires impossible { ⊥ }`, and private ones go, with the proofs of
  functions, edits and tests. Types, models, definitions and laws stay;
- a trait of a stubbed crate with an impl in one of them gets `impossible` at its methods. Impls of other traits stay.

  --keep C/F   that function stays as it is, with its proof
  --open T     the trait stays as it is, with the bodies of its impls
  --without T  the trait stays as it is, and its impls in stubbed crates go
  --mark C:T   the trait of a crate that isn't stubbed gets `impossible` at its methods
  --for A ..   only functions stay that these crates name, and laws that they cite: the stubs are checked sooner then

Then, in COPY, `rt lib --jobs 1` in the highest stubbed crate, and `rt check --allow-holes --only PATH` in the crate above.
Whoever calls a stub has one open goal `..-impossible` for each call, and no other goal may stay open. A call is never
impossible for its caller, so nothing is proved by it that isn't so. A `requires` without a name is named `given` beside
`impossible`: COPY/renamed.txt lists the functions whose goals have other names there for that. `tools/prove.py` and `rt ci`
refuse a stub, since no call can meet it.
"""

import argparse
import re
import shutil
import sys
from pathlib import Path

OPEN = {"{": "}", "(": ")", "[": "]"}
WORD = re.compile(r"[A-Za-z_]\w*")
NAME = r"\w+(?: as \w+)?"
ITEM = re.compile(r"(?P<vis>pub(?:\([a-z: ]+\))? )?(?P<const>const )?(?P<unsafe>unsafe )?fn (?P<name>\w+)")


def skip(text, at):
    """Where what can't have brackets in it ends: a comment, a text or a character; or `at`."""
    if text.startswith("//", at):
        end = text.find("\n", at)
        return len(text) if end < 0 else end
    if text.startswith("/*", at):
        return text.index("*/", at) + 2
    if text[at] == '"':
        found = re.compile(r'"(?:\\.|[^"\\])*"', re.S).match(text, at)
        return found.end()
    if text[at] == "'":
        found = re.compile(r"'(?:\\.[^']*|[^'\\])'").match(text, at)
        return found.end() if found else at
    return at


def close(text, at):
    """The place behind the bracket that closes the one at `at`."""
    depth = 0
    while at < len(text):
        after = skip(text, at)
        if after > at:
            at = after
            continue
        if text[at] in "{([":
            depth += 1
        elif text[at] in "})]":
            depth -= 1
            if depth == 0:
                return at + 1
        at += 1
    raise ValueError("no end")


def parts_of(text, at):
    """Of a function whose `fn NAME` ends at `at`: where its clauses begin, where they end, where the body begins and ends (or None: `;`)."""
    while text[at] != "(":
        if text[at] == "<":
            depth = 0
            while True:
                if text[at] == "<":
                    depth += 1
                elif text[at] == ">" and text[at - 1] not in "-=":
                    depth -= 1
                    if depth == 0:
                        break
                at += 1
        at += 1
    at = close(text, at)
    first = None
    while True:
        after = skip(text, at)
        if after > at:
            at = after
            continue
        word = WORD.match(text, at)
        if word and word[0] in ("requires", "ensures") and not WORD.match(text[at - 1]):
            first = at if first is None else first
            brace = text.index("{", at)
            at = close(text, brace)
            last = at
            continue
        if word:
            at = word.end()
            continue
        if text[at] in "([":
            at = close(text, at)
            continue
        if text[at] == ";":
            return first or at, at, at, None
        if text[at] == "{":
            return first or at, at, at, close(text, at)
        at += 1


def with_attributes(text, at):
    """Where the comments and attributes before an item begin, whose line begins at `at`."""
    while at > 0:
        before = text.rfind("\n", 0, at - 1) + 1
        line = text[before:at].strip()
        if line.startswith(("///", "#[", "// ")) or re.match(r"[^{};]*\)\]$", line):
            at = before
        else:
            break
    return at


def blocks(text):
    """The `impl` and `trait` blocks: (begin of the brace, end, header)."""
    found = []
    for match in re.finditer(r"^(?P<indent>[ \t]*)(?:pub(?:\([a-z: ]+\))? )?(?:unsafe )?(?:impl|trait)\b", text, re.M):
        at = match.end()
        while text[at] != "{" and text[at] != ";":
            after = skip(text, at)
            if after > at:
                at = after
            elif text[at] in "([":
                at = close(text, at)
            else:
                at += 1
        if text[at] == "{":
            found.append((at, close(text, at), text[match.start():at].strip()))
    return found


def trait_of(header):
    """The name of the trait of an impl's header, or None."""
    header = re.sub(r"\s+", " ", header)
    body = re.sub(r"^(unsafe )?impl", "", header)
    if body.startswith("<"):
        depth = 0
        for at, sign in enumerate(body):
            depth += (sign == "<") - (sign == ">" and body[at - 1] not in "-=")
            if depth == 0:
                body = body[at + 1:]
                break
    if " for " not in body:
        return None
    return re.split(r"[<:]", body.split(" for ")[0].strip().split("::")[-1])[0].strip()


def declared_trait(header):
    found = re.search(r"\btrait (\w+)", header)
    return found and found[1]


class Stubs:
    def __init__(self, words):
        self.copy, self.names = words.copy, words.crates
        self.keep = {tuple(each.split("/", 1)) for each in words.keep}
        self.opened, self.without = set(words.open) | set(words.without), set(words.without)
        self.marked = {}
        self.external = set()
        for each in words.mark:
            crate, trait = each.split(":")
            self.marked.setdefault(crate, set()).add(trait)
            self.external.add(trait)
        self.named, self.gone = set(), set()
        self.used, self.above = None, words.above
        if words.above:
            texts = [source.read_text() for crate in words.above for source in self.sources(crate)]
            self.used = set(re.findall(r"\w+", re.sub(r"//[^\n]*|^ghost use [^;]*;|^\s*(?:requires|ensures|ghost) [^\n]*", "", "\n".join(texts), flags=re.M)))
        self.lost, self.there = {}, {}

    def sources(self, crate):
        return sorted((self.copy / "crates" / crate / "src").rglob("*.rt"))

    def find_traits(self):
        """The traits of stubbed crates with an impl in one of them."""
        declared, made = set(), set()
        for crate in self.names:
            for source in self.sources(crate):
                for _, _, header in blocks(source.read_text()):
                    if header.lstrip().startswith("impl") or header.startswith("unsafe impl"):
                        made.add(trait_of(header))
                    else:
                        declared.add(declared_trait(header))
        return ((declared & made) - self.opened) | self.external

    def change(self, crate, source, closed, is_stub):
        """Writes a source anew; answers the names of the functions that are kept whole."""
        text = source.read_text()
        for begin, last, header in reversed(blocks(text) if is_stub else []):
            if header.startswith("impl") and trait_of(header) in self.without:
                line = text.rfind("\n", 0, text.rfind(header, 0, begin)) + 1
                text = text[:with_attributes(text, line)] + text[last:]
        spans = blocks(text)
        edits, kept = [], []
        at = 0
        for match in ITEM.finditer(text):
            if match.start() < at:
                continue
            line = text.rfind("\n", 0, match.start()) + 1
            if text[line:match.start()].strip() or "//" in text[line:match.start()]:
                continue
            clauses, _, body, end = parts_of(text, match.end())
            at = end or body
            inside = [header for begin, last, header in spans if begin < match.start() < last]
            header = inside[-1] if inside else ""
            name = match["name"]
            is_trait = bool(re.match(r"(pub(\([a-z: ]+\))? )?trait\b", header))
            trait = declared_trait(header) if is_trait else trait_of(header) if header else None
            if not is_stub:
                if is_trait and trait in closed:
                    edits += self.impossible(text, name, clauses, body)
                continue
            if is_trait:
                if trait in closed:
                    edits += self.impossible(text, name, clauses, body)
                    if end:
                        edits.append((body, end, "{ unreachable!() }"))
                elif end:
                    kept.append(name)
                continue
            if trait:
                if trait in closed:
                    edits.append((body, end, "{ unreachable!() }"))
                else:
                    kept.append(name)
                continue
            if (crate, name) in self.keep or match["const"]:
                kept.append(name)
                continue
            is_unused = self.used is not None and name not in self.used
            if not match["vis"] or match["vis"].startswith("pub(") or is_unused:
                if name in self.called[source]:
                    kept.append(name)
                    continue
                if match["vis"]:
                    self.gone.add((crate, source.stem, name))
                    if not header:
                        self.lost.setdefault(crate, set()).add(name)
                edits.append((with_attributes(text, line), at, ""))
                continue
            self.there.setdefault(crate, set()).add(name)
            edits += self.impossible(text, name, clauses, body)
            edits.append((body, end, "{ unreachable!() }"))
        for begin, end, new in sorted(edits, reverse=True):
            text = text[:begin] + new + text[end:]
        if is_stub:
            text = re.sub(r"^[ \t]*#!?\[tactic\((?!auto\)\])[^\n]*\n", "", text, flags=re.M) if not kept else text
        source.write_text(text)
        return kept

    def impossible(self, text, name, clauses, body):
        """The edits that add the clause. A `requires` that stood alone with no name gets one, since it may have none beside another."""
        edits = [(clauses, clauses, "\n    requires impossible { ⊥ }\n    ")]
        at, has_other = clauses, False
        while at < body:
            after = skip(text, at)
            word = WORD.match(text, at)
            if after > at:
                at = after
            elif word and word[0] in ("requires", "ensures"):
                brace = text.index("{", at)
                if word[0] == "requires":
                    has_other = True
                    if not text[word.end():brace].strip():
                        edits.append((word.end(), word.end(), " given"))
                        self.named.add(name)
                at = close(text, brace)
            else:
                at += 1
        if not has_other:
            edits[0] = (clauses, clauses, "\n    requires { ⊥ }\n    ")
        return edits

    def rename_answers(self):
        """In the proofs of the crates that aren't stubbed: goals of clauses that have a name now."""
        goal = re.compile(r"\b(" + "|".join(sorted(self.named)) + r")-requires((?:-(?!clause\b)\w+)*)(?![\w-])") if self.named else None
        for folder in sorted((self.copy / "crates").iterdir()):
            if goal and folder.name not in self.names and (folder / "proofs").is_dir():
                for file in (folder / "proofs").rglob("*.antt"):
                    text = file.read_text()
                    new = goal.sub(r"\1-requires\2-clause-given", text)
                    if new != text:
                        file.write_text(new)

    def calls_of_kept(self, crate, closed):
        """Of each source, names that the bodies call which stay, and those that these call there."""
        called = {}
        for source in self.sources(crate):
            text = source.read_text()
            spans = blocks(text)
            bodies, ahead, names = {}, set(), set()
            at = 0
            for match in ITEM.finditer(text):
                if match.start() < at:
                    continue
                line = text.rfind("\n", 0, match.start()) + 1
                if text[line:match.start()].strip():
                    continue
                _, _, body, end = parts_of(text, match.end())
                at = end or body
                inside = [header for begin, last, header in spans if begin < match.start() < last]
                header = inside[-1] if inside else ""
                is_trait = bool(re.match(r"(pub(\([a-z: ]+\))? )?trait\b", header))
                trait = declared_trait(header) if is_trait else trait_of(header) if header else None
                stays = (trait and trait not in closed and trait not in self.without) or (crate, match["name"]) in self.keep or match["const"]
                calls = set(re.findall(r"(\w+)(?:::<[^()]*>)?\(", text[body:end])) if end else set()
                if stays:
                    ahead |= calls
                elif not trait:
                    bodies.setdefault(match["name"], set()).update(calls)
            while ahead:
                name = ahead.pop()
                if name not in names:
                    names.add(name)
                    ahead |= bodies.get(name, set())
            called[source] = names
        return called

    def mend_imports(self, crate):
        """Takes imports of functions away that aren't there."""
        for source in self.sources(crate):
            text = source.read_text()

            def left(found):
                public, path, names = found[1] or "", found[2], re.findall(NAME, found[3] or found[4])
                module, first = path.split("::")[-1], path.split("::")[0]
                is_own = (self.copy / "crates" / crate / "src" / f"{first}.rt").is_file()
                owner = first if first in self.names and not is_own else crate
                first = crate if path == "crate" else first
                lost = self.lost.get(first, set()) - self.there.get(first, set()) if "::" not in path else set()
                here = [each for each in names if (owner, module, each.split()[0]) not in self.gone and each.split()[0] not in lost]
                if len(here) == len(names):
                    return found[0]
                return f"{public}use {path}::{{{', '.join(here)}}};" if here else ""

            source.write_text(re.sub(rf"^(pub (?:\([a-z]+\) )?)?use (\w+(?:::\w+)*)::(?:\{{([^{{}}]*)\}}|({NAME}));", left, text, flags=re.M))

    def clean(self, crate, kept):
        """Takes away the edits and the proofs of functions that aren't there."""
        folder = self.copy / "crates" / crate
        for name in ("must-fail", "must-fail-beside-the-gate"):
            shutil.rmtree(folder / name, ignore_errors=True)
        proofs = folder / "proofs"
        if proofs.is_dir():
            for path in sorted(proofs.rglob("*"), reverse=True):
                relative = path.relative_to(proofs)
                if path.is_file() and len(relative.parts) > 1 and relative.parts[-2] not in kept:
                    path.unlink()
                elif path.is_dir() and not any(path.iterdir()):
                    path.rmdir()

    def leave_cited_laws(self, above):
        """Takes away the law files that nothing cites of the crates above, nor a law file that stays."""
        cite = re.compile(r"\bRattle\.(\w+)\.proofs\.(\w+)")
        texts = [file.read_text() for crate in above for kind in ("proofs", "specs", "src") for file in (self.copy / "crates" / crate / kind).rglob("*.*t*") if file.suffix in (".antt", ".rt")]
        for crate in self.names:
            texts += [file.read_text() for folder in (self.copy / "crates" / crate / "proofs").iterdir() if folder.is_dir() for file in folder.rglob("*.antt")]
        wanted, ahead = set(), set().union(*(cite.findall(text) for text in texts)) if texts else set()
        while ahead:
            crate, name = ahead.pop()
            file = self.copy / "crates" / crate / "proofs" / f"{name}.antt"
            if (crate, name) not in wanted and crate in self.names and file.is_file():
                wanted.add((crate, name))
                ahead |= set(cite.findall(file.read_text()))
        for crate in self.names:
            folder = self.copy / "crates" / crate / "proofs"
            for file in folder.glob("*.antt"):
                if file.stem != "Lib" and (crate, file.stem) not in wanted:
                    file.unlink()
            lib = folder / "Lib.antt"
            if lib.is_file():
                lines = [line for line in lib.read_text().splitlines() if not re.match(r"(pub )?mod (\w+)", line) or (crate, line.split()[-1]) in wanted]
                lib.write_text("".join(f"{line}\n" for line in lines))

    def run(self):
        closed = self.find_traits()
        print("traits with `impossible`:", " ".join(sorted(closed)) or "none")
        for crate in self.names:
            self.called = self.calls_of_kept(crate, closed)
            kept = []
            for source in self.sources(crate):
                kept += self.change(crate, source, closed, True)
            self.clean(crate, set(kept))
            print(f"{crate}: stubbed" + (f"; kept: {' '.join(sorted(set(kept)))}" if kept else ""))
        if self.above:
            self.leave_cited_laws(self.above)
        for crate, traits in self.marked.items():
            for source in self.sources(crate):
                if crate not in self.names:
                    self.change(crate, source, traits, False)
        for crate in self.names:
            self.mend_imports(crate)
        self.rename_answers()
        (self.copy / "renamed.txt").write_text("\n".join(sorted(self.named)) + "\n")


def main():
    parser = argparse.ArgumentParser(description=__doc__.split("\n")[0])
    parser.add_argument("copy", type=Path)
    parser.add_argument("crates", nargs="+")
    parser.add_argument("--keep", nargs="*", default=[])
    parser.add_argument("--open", nargs="*", default=[])
    parser.add_argument("--mark", nargs="*", default=[])
    parser.add_argument("--without", nargs="*", default=[])
    parser.add_argument("--for", nargs="*", default=[], dest="above")
    words = parser.parse_args()
    if words.copy.resolve() == Path(__file__).resolve().parent.parent:
        sys.exit("that is the project itself: give a copy")
    for name in words.crates:
        if not (words.copy / "crates" / name / "src").is_dir():
            sys.exit(f"there is no crate {name} in {words.copy}")
    Stubs(words).run()


if __name__ == "__main__":
    main()
