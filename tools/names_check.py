#!/usr/bin/env python3
"""Looks whether names that crates use are there, and proves nothing.

    tools/names_check.py [CHECKOUT]     the checkout is that of this script where none is named

A rename or a move leaves such faults, and a check finds them only after the crates below are proved. It looks whether

- each name that a line `use`, `pub use` or `ghost use` brings in from a crate of the repository is defined there, and
  may be named there: nothing outside a crate names what is `pub(crate)`;
- each folder `proofs/MODULE/FUNCTION` belongs to a function;
- a definition of `specs/` or `proofs/` stands above those of its file that use it;
- the names in each line `new:` of an edit are there.

It goes by the words of the sources. So a fault that it prints is one, but for a word that only the kit knows: those of
edits stand in `KIT_WORDS`. The last line is `N passed, M failed`.
"""

import re
import sys
from functools import lru_cache
from pathlib import Path

# Words of Rust and of the kit's library that edits use and no code of the repository does.
KIT_WORDS = set("and ilog2 is_some_and leak len swap_remove".split())

ITEM = re.compile(
    r"^[ \t]*(?P<seen>pub(?:\((?P<where>[^)]*)\))?\s+)?(?:(?:unsafe|const|default|extern\s*\"\")\s+)*"
    r"(?P<kind>fn|struct|enum|union|trait|type|const|static|mod|macro_rules!)\s+(?P<name>\w+)",
    re.M,
)
RUST_USE = re.compile(r"^[ \t]*(?P<seen>pub(?:\([^)]*\))?\s+)?use\s+(?P<tree>[^;]+);", re.M)
ANTT_USE = re.compile(
    r"^[ \t]*(?P<seen>pub )?(?:ghost )?use (?P<where>[\w.]+)(?:\.\{(?P<names>[^}]*)\}| as (?P<short>[\w']+));?[ \t]*$", re.M
)
WORD = re.compile(r"(?<!\w)[^\W\d][\w']*")
# A word of a definition, which may have hyphens; a dot before it makes it a field.
TERM_WORD = re.compile(r"(?<![\w'.-])[^\W\d][\w']*(?:-[\w']+)*")
RUST_WORDS = set(
    "as async await break const continue crate dyn else enum extern false fn for if impl in let loop match mod move mut pub ref return "
    "self Self static struct super trait true type unsafe use where while i8 i16 i32 i64 i128 u8 u16 u32 u64 u128 usize isize bool char str".split()
)


class Tree:
    """The texts of a checkout, without comments, and what its crates define."""

    def __init__(self, top):
        self.top, self.faults, self.passed = top, [], 0
        self.deps = self.read_crates()
        self.rust, self.antt = {}, {}
        for crate in self.deps:
            base = top / "crates" / crate
            for path in sorted((base / "src").rglob("*.rt")):
                parts = path.relative_to(base / "src").with_suffix("").parts
                module = "" if parts in (("lib",), ("main",)) else "::".join(parts)
                self.rust[crate, module] = Module(crate, module, path, path.read_text(encoding="utf-8"))
            for folder in ("specs", "proofs"):
                for path in sorted((base / folder).rglob("*.antt")):
                    place = (crate, folder, ".".join(path.relative_to(base / folder).with_suffix("").parts))
                    self.antt[place] = Terms(path, path.read_text(encoding="utf-8"))

    def read_crates(self):
        """The repository's crates, each with those that it names."""
        deps = {}
        for line in (self.top / "crates.txt").read_text(encoding="utf-8").splitlines():
            name, colon, words = line.split("#")[0].partition(":")
            if colon:
                deps[name.split()[0]] = words.split()
        return {name: [word for word in words if word in deps] for name, words in deps.items()}

    def look(self, path, fault):
        """Counts what was looked at: a fault in words, or None."""
        if fault:
            self.faults.append(f"{path.relative_to(self.top)}: {fault}")
        else:
            self.passed += 1


class Module:
    """A file of Rust: the items that it has, and the names that it brings in."""

    def __init__(self, crate, name, path, text):
        self.crate, self.name, self.path, self.text = crate, name, path, text
        self.code = rust_code(text)
        self.words = set(WORD.findall(self.code))
        plain = ghost_free(self.code)
        # (functions that call one another are proved together, under the name of their cycle)
        self.items, self.methods, self.variants = {}, set(re.findall(r"#\[cycle\((\w+)\)\]", plain)), {}
        for found in ITEM.finditer(plain):
            indent = len(found.group(0)) - len(found.group(0).lstrip(" \t\n"))
            seen = "own" if not found["seen"] else "crate" if found["where"] else "all"
            if found["kind"] == "fn":
                self.methods.add(found["name"])
            if indent == 0:
                self.items[found["name"]] = (found["kind"], seen)
                if found["kind"] == "enum":
                    self.variants[found["name"]] = variants_of(plain[found.end() :])
        self.uses = [
            (path, alias, "all" if (found["seen"] or "").strip() == "pub" else "crate" if found["seen"] else "own")
            for found in RUST_USE.finditer(plain)
            for path, alias in leaves(found["tree"])
        ]


class Terms:
    """A file of definitions or of proofs."""

    def __init__(self, path, text):
        self.path, self.text = path, text
        self.code = re.sub(r"(^|\s)--.*", r"\1", text)
        self.words = set(WORD.findall(self.code))

    @property
    def names(self):
        if not hasattr(self, "_names"):
            self._names = defined_in(self.code)
        return self._names


def rust_code(text):
    """Rust without its comments and texts; each line stays where it is."""
    return re.sub(r'"(?:\\.|[^"\\\n])*"|//.*', lambda found: '""' if found.group(0)[0] == '"' else "", text)


def ghost_free(code):
    """Rust without the lines that bring in names of definitions."""
    return re.sub(r"^[ \t]*ghost use [^;]*;", "", code, flags=re.M)


def variants_of(text):
    """The variants of an enum, of which the text has what follows its name."""
    depth, names, fresh = 0, set(), False
    for found in re.finditer(r"[{}()\[\],;]|#\[[^\]]*\]|\w+", text):
        sign = found.group(0)
        if sign.startswith("#"):
            continue
        if sign in "{([":
            depth += 1
            fresh = depth == 1
        elif sign in "})]":
            depth -= 1
            if depth == 0:
                break
        elif sign == "," and depth == 1:
            fresh = True
        elif depth == 1 and fresh and sign[0].isalpha():
            names.add(sign)
            fresh = False
    return names


def leaves(tree):
    """Each path that a `use` brings in, with the word for it."""
    tree = " ".join(tree.split())
    head, brace, rest = tree.partition("{")
    if not brace:
        path, _, alias = tree.partition(" as ")
        parts = [part.strip() for part in path.split("::")]
        last = parts[-1] if parts[-1] != "self" else parts[-2]
        return [(parts, (alias or last).strip())]
    prefix = [part.strip() for part in head.split("::") if part.strip()]
    out = []
    for part in split_list(rest[: rest.rindex("}")]):
        out += [(prefix + path if path != ["self"] else prefix, alias if path != ["self"] or alias != "self" else prefix[-1]) for path, alias in leaves(part)] if part != "self" else [(prefix, prefix[-1])]
    return out


def split_list(text):
    parts, depth, last = [], 0, ""
    for sign in text:
        depth += (sign == "{") - (sign == "}")
        if sign == "," and depth == 0:
            parts.append(last.strip())
            last = ""
        else:
            last += sign
    return [part for part in parts + [last.strip()] if part]


def defined_in(code):
    """Each name that a file of definitions or of proofs has, with the fields and constructors of its types."""
    names = set()
    shift = "\nmodule _ " in "\n" + code
    for line in code.splitlines():
        own = line[2:] if shift and line.startswith("  ") else line
        head = re.match(r"(?:(?:abbrev|unfoldable|pub|opaque)\s+)*(?:(?:record|data|ruleset)\s+)?(?:pub\s+)?([^\s:(){}]+)", own)
        if head and not own[0].isspace():
            names.add(head.group(1))
        field = re.match(r"\s+(?:pub )?([^\s:(){}]+) :", line)
        if field:
            names.add(field.group(1))
        brought = re.match(r"\s*pub use [\w.]+\.\{([^}]*)\}", line)
        if brought:
            names.update(part.split(" as ")[-1].strip() for part in brought.group(1).split(","))
    return names


# ---- names of Rust


class Paths:
    """Where paths of Rust lead."""

    def __init__(self, tree):
        self.tree = tree
        self.known = lru_cache(maxsize=None)(self.fault_from)

    def fault(self, module, path):
        """What is wrong with a path that a module brings in, or None. Paths of the kit's libraries are right."""
        crate, name, parts = module.crate, module.name, list(path)
        if parts[0] == "crate":
            return self.known(crate, "", tuple(parts[1:]), crate)
        if parts[0] in ("self", "super"):
            at = name.split("::") if name else []
            while parts and parts[0] in ("self", "super"):
                if parts.pop(0) == "super":
                    at = at[:-1]
            return self.known(crate, "::".join(at), tuple(parts), crate)
        if parts[0] in self.tree.deps and parts[0] not in module.items:
            if parts[0] not in self.tree.deps[crate] and parts[0] != crate:
                return f"crates.txt doesn't give it {parts[0]}"
            return self.known(parts[0], "", tuple(parts[1:]), crate)
        if parts[0] in module.items or (crate, join(name, parts[0])) in self.tree.rust:
            return self.known(crate, name, tuple(parts), crate)
        return None

    def fault_from(self, crate, name, parts, user):
        """What is wrong with the rest of a path within a module of a crate, or None."""
        module = self.tree.rust.get((crate, name))
        if module is None:
            return f"{crate} has no module {name}"
        if not parts or parts == ("*",):
            return None
        first, rest = parts[0], parts[1:]
        below = (crate, join(name, first)) in self.tree.rust
        kind, seen = module.items.get(first, (None, None))
        if kind == "mod" and below:
            if user != crate and seen != "all":
                return f"{crate}::{join(name, first)} isn't public"
            return self.fault_from(crate, join(name, first), rest, user)
        if kind:
            if user != crate and seen != "all":
                return f"{crate}::{join(name, first)} isn't public"
            if rest and kind == "enum" and rest != ("*",) and rest[0] not in module.variants[first]:
                return f"{first} has no {rest[0]}"
            return None
        for path, alias, seen in module.uses:
            if alias == first:
                return f"{crate} doesn't pass on {first}" if user != crate and seen != "all" else self.fault(module, path)
            if path[-1] == "*" and not self.fault(module, path[:-1] + [first]):
                return None
        return f"{join(crate, name)} has no {first}"


def join(*parts):
    return "::".join(part for part in parts if part)


def check_rust_uses(tree):
    paths = Paths(tree)
    for module in tree.rust.values():
        for path, _, _ in module.uses:
            tree.look(module.path, paths.fault(module, path))


# ---- names of definitions and of proofs


def check_term_uses(tree):
    for module in tree.rust.values():
        check_imports(tree, module.crate, module.path, module.code)
    for (crate, _, _), terms in tree.antt.items():
        check_imports(tree, crate, terms.path, terms.code)


def check_imports(tree, crate, path, code):
    words = []
    for found in ANTT_USE.finditer(code):
        where = found["where"].split(".")
        parts = [part.strip() for part in (found["names"] or "").split(",") if part.strip()]
        words += [part.split(" as ")[-1].strip() for part in parts]
        if where[0] != "Rattle" or where[1] not in tree.deps or len(where) < 3:
            continue
        if where[1] != crate and where[1] not in tree.deps[crate]:
            tree.look(path, f"crates.txt doesn't give it {where[1]}")
            continue
        names = [part.split(" as ")[0].strip() for part in parts]
        if found["short"] and (where[1], where[2], ".".join(where[3:])) in tree.antt:
            names = sorted(set(re.findall(rf"(?<![\w'.-]){re.escape(found['short'])}\.([^\W\d][\w'-]*)", code)) - {where[-1]})
        for name in names or [None]:
            tree.look(path, import_fault(tree, crate, where[1], where[2:], name))
    if path.suffix == ".antt":
        for word in sorted({word for word in words if words.count(word) > 1}):
            tree.look(path, f"it brings in {word} twice")
    else:
        for whose, file, name in re.findall(r"\b(\w+)::specs::(\w+)::([\w'-]+)", code):
            whose = crate if whose == "crate" else whose
            tree.look(path, import_fault(tree, crate, whose, ["specs", file], name) if whose in tree.deps else None)


def import_fault(tree, user, crate, where, name):
    """What is wrong with the import of a name from a place of a crate, or None."""
    full = ".".join(where)
    if where[0] == "specs" and where[1:2] == ["declared"]:
        return declared_fault(tree, user, crate, where[2:], name)
    if where[0] == "specs" and where[1:2] == ["contracts"] and len(where) > 2:
        return row_fault(tree, crate, where[2:])
    if where[0] == "proofs" and where[-1] in ("Goals", "Given") and len(where) > 2:
        return function_fault(tree, crate, where[1:-1])
    place = (crate, where[0], ".".join(where[1:]))
    if place not in tree.antt:
        # what the toolchain makes lies at such places, too
        return None if len(where) > 2 else f"there is no {crate}.{full}"
    if name is None or name in tree.antt[place].names:
        return None
    return f"{crate}.{full} has no {name}"


def declared_fault(tree, user, crate, where, name):
    """The same of what the toolchain makes of a type or of constants: MODULE.TYPE, or MODULE.TheConstants."""
    at = 0
    while at < len(where) and (crate, "::".join(where[: at + 1])) in tree.rust:
        at += 1
    module = tree.rust.get((crate, "::".join(where[:at])))
    rest = where[at:]
    if not rest or (at == 0 and rest[0][0].islower()):
        return f"{crate} has no module {'.'.join(where)}"
    if rest[0] == "TheConstants":
        return visible_fault(module, name, user)
    if rest[0] in module.items:
        fault = visible_fault(module, rest[0], user)
        if not fault and rest[1:] == ["TheVariants"] and name and name not in module.variants.get(rest[0], ()):
            fault = f"{crate}::{rest[0]} has no {name}"
        return fault
    return None if rest[0].startswith("The") else f"{join(crate, module.name)} has no {rest[0]}"


def row_fault(tree, crate, where):
    """The same of how the toolchain lays out a type, or what an impl is: MODULE.TYPE, or MODULE.TYPETRAIT.TheImpl."""
    at = 0
    while at < len(where) and (crate, "::".join(where[: at + 1])) in tree.rust:
        at += 1
    module, rest = tree.rust.get((crate, "::".join(where[:at]))), where[at:]
    if not rest or (at == 0 and rest[0][0].islower()):
        return f"{crate} has no module {'.'.join(where)}"
    if rest[0] in module.items or rest[0].startswith("The") or rest[1:2] == ["TheImpl"]:
        return None
    return f"{join(crate, module.name)} has no {rest[0]}"


def visible_fault(module, name, user):
    """Whether a crate may name an item of a module."""
    if name is None:
        return None
    if name not in module.items:
        return f"{join(module.crate, module.name)} has no {name}"
    if user != module.crate and module.items[name][1] != "all":
        return f"{join(module.crate, module.name, name)} isn't public"
    return None


# A type with a trait that is given types.
GENERIC_IMPL = re.compile(r"\bimpl(?:<[^{}]*?>)?\s+(?:\w+::)*(\w+)<[^{}<>]*\b[A-Z][^{}<>]*>\s+for\s+(?:\w+::)*(\w+)")


def function_fault(tree, crate, where):
    """Whether a function stands where its proof's place says: MODULE.FUNCTION, or MODULE.TYPE.FUNCTION.

    A function of a type may stand in another file of the crate. For one of a trait it is the type's name with the trait's
    and its types', and for one that calls itself, or for a part of it, there is a sign before the name.
    """
    at = 0
    while at < len(where) - 1 and (crate, "::".join(where[: at + 1])) in tree.rust:
        at += 1
    module, rest = tree.rust.get((crate, "::".join(where[:at]))), where[at:]
    if module is None:
        return f"{crate} has no module {'.'.join(where)}"
    if len(rest) == 1:
        name = rest[0].lstrip("+")
        return None if name in module.methods else f"{join(crate, module.name)} has no function {name}"
    kind, name = rest[0], rest[1].lstrip("+")
    if not is_type_of(module, kind):
        return f"{join(crate, module.name)} has no {kind}"
    if any(kind == type_name + trait for trait, type_name in GENERIC_IMPL.findall(module.code)):
        return f"{join(crate, module.name)} has the trait of {kind} for types, whose names come last"
    if name.startswith("The") or any(name in other.methods for (whose, _), other in tree.rust.items() if whose == crate):
        return None
    return f"{crate} has no function {name}"


def is_type_of(module, kind):
    """Whether a word is a type that the module names, or such a type's name with a trait's and those of the types that the trait is given."""
    return kind in module.words or any(kind.startswith(word) and is_type_of(module, kind[len(word) :]) for word in module.words if word[0].isupper())


def check_proof_folders(tree):
    """Each answer stands in the folder of a function."""
    for (crate, folder, place), terms in tree.antt.items():
        parts = place.split(".")
        if folder == "proofs" and len(parts) > 1:
            tree.look(terms.path, function_fault(tree, crate, parts[:-1]))


# ---- the order of definitions

HEAD = re.compile(
    r"^(?P<indent>  )?(?:(?:abbrev|unfoldable|opaque|pub)\s+)*(?:(?P<type>record|data)\s+)?(?:pub\s+)?(?P<name>[^\W\d][\w'-]*)(?P<rest>(?:\s.*)?)$"
)
NO_HEADS = ("use ", "pub use", "module ", "unfolding", "mod ", "pub mod", "open ")


def check_order(tree):
    for (_, _, place), terms in tree.antt.items():
        if place.split(".")[-1] != "Lib":
            faults = order_faults(terms.code)
            for fault in faults or [None]:
                tree.look(terms.path, fault)


def order_faults(code):
    """The uses of definitions that stand further down in their file."""
    lines, shift = code.splitlines(), "\nmodule _ " in "\n" + code
    starts = []
    for number, line in enumerate(lines):
        found = None if line.startswith(NO_HEADS) else HEAD.match(line)
        if found and (shift or not found["indent"]) and (found["type"] or re.match(r"\s*(?:[({].*[)}])?\s*:(?:\s|$)", found["rest"])):
            starts.append((number, found["name"]))
    stands = {}
    for number, name in starts:
        stands.setdefault(name, number)
    faults = []
    for (number, name), (end, _) in zip(starts, starts[1:] + [(len(lines), None)]):
        later = {other for other, at in stands.items() if at > number}
        if later:
            faults += [f"{name} uses {other}, which stands below it" for other in sorted(words_of("\n".join(lines[number:end]), name) & later)]
    return faults


def words_of(block, name):
    """The words that a definition uses, without those that it binds."""
    used = set()
    parts = re.split(rf"^(?=(?:  )?{re.escape(name)}\s)", block, flags=re.M)
    for part in parts:
        bound = {word for group in re.findall(r"λ([^.λ]*)\.|[({]([\w' ]+?) :|\blet ([\w'-]+)|[\[|]([^\[|]*?) ↦", part) for words in group for word in TERM_WORD.findall(words)}
        head = re.match(rf"(?:  )?{re.escape(name)}\s(?P<given>.*?)\s=(?:\s|$)", part, re.S)
        if head:
            bound.update(TERM_WORD.findall(head["given"]))
        body = re.sub(r"^(\s+(?:pub )?)[\w'-]+ :", r"\1_ :", part, flags=re.M)
        body = re.sub(r"([({;,]\s*|^\s+|record \{ )[\w'-]+ =(?=\s|$)", r"\1_ =", body, flags=re.M)
        used |= set(TERM_WORD.findall(body)) - bound
    return used


# ---- edits


def check_edits(tree):
    crates = {crate: below(tree, crate) for crate in tree.deps}
    defined = {crate: set().union(*(set(m.items) | m.methods | fields_of(m) for (c, _), m in tree.rust.items() if c == crate)) for crate in tree.deps}
    anywhere = set().union(*(module.words for module in tree.rust.values()))
    of_the_kit = anywhere - set().union(*defined.values())
    own = {crate: set().union(*(m.words for (c, _), m in tree.rust.items() if c == crate)) for crate in tree.deps}
    own_terms = {crate: set().union(*(t.words for (c, _, _), t in tree.antt.items() if c == crate)) for crate in tree.deps}
    terms = {crate: set().union(*(t.names for (c, f, _), t in tree.antt.items() if c == crate)) for crate in tree.deps}
    for crate in tree.deps:
        known = own[crate] | of_the_kit | KIT_WORDS | RUST_WORDS | set().union(*(defined[other] for other in crates[crate]))
        known_terms = own_terms[crate] | KIT_WORDS | set().union(*(terms[other] | defined[other] for other in crates[crate]))
        for folder in ("must-fail", "must-fail-beside-the-gate"):
            for edit in sorted((tree.top / "crates" / crate / folder).glob("*.edit")):
                tree.look(edit, edit_fault(edit, known, known_terms | own[crate]))


def below(tree, crate):
    """The crate and all that it stands on."""
    found, waiting = set(), [crate]
    while waiting:
        name = waiting.pop()
        if name not in found:
            found.add(name)
            waiting += tree.deps[name]
    return found


def fields_of(module):
    return set(re.findall(r"^\s+(?:pub(?:\([^)]*\))?\s+)?(\w+):", module.code, re.M)) | set().union(*module.variants.values(), set())


def edit_fault(edit, known, known_terms):
    """The first new word of an edit that nothing has, or None."""
    file, old = "", ""
    text = edit.read_text(encoding="utf-8")
    made = set(re.findall(r"\b(?:fn|let mut|let|for) (\w+)|(\w+):(?=\s)|\|(\w+)\||λ ([\w ]+)\.", "\n".join(re.findall(r"^new: (.*)$", text, re.M))))
    made = {part for parts in made for group in parts for part in group.split()}
    for line in text.splitlines():
        word, _, text = line.partition(": ")
        if word == "file":
            file = text
        elif word == "old":
            old = text
        elif word == "new":
            code = rust_code(text) if file.endswith(".rt") else re.sub(r"(^|\s)--.*", "", text)
            pool = known if file.endswith(".rt") else known_terms
            if file.endswith(".rt") and "ghost use" in code:
                pool = pool | known_terms
            for name in WORD.findall(code):
                if name not in pool and name not in made and name not in WORD.findall(old):
                    return f"nothing that it may name is called {name}: {text.strip()}"
    return None


def main(words):
    top = Path(words[0]).resolve() if words else Path(__file__).resolve().parent.parent
    tree = Tree(top)
    check_rust_uses(tree)
    check_term_uses(tree)
    check_proof_folders(tree)
    check_order(tree)
    check_edits(tree)
    for fault in tree.faults:
        print(fault)
    print(f"{tree.passed} passed, {len(tree.faults)} failed")
    sys.exit(1 if tree.faults or not tree.passed else 0)


if __name__ == "__main__":
    main(sys.argv[1:])
