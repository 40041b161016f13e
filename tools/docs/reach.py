"""Finds what contracts and definitions rest on: definitions, items of the code, and names of the kit's library.

Used by `definitions.py`. A text is read word by word. A word stands for what its file defines or imports, unless the
equation in which it stands binds it: on the left of its `=`, after a `λ`, before a `:` or after a `let`. Each function that reads a text
answers the places in it with what stands there, so that a page can lead from each use to its definition.
"""

import re

from sources import Definition, code_files, crates_from_below, definition_files

WORD = re.compile(r"[^\W\d][\w']*")
# A word, the dot before it, the word after a dot behind it, and the sign that gives it a value.
USED = re.compile(r"(?P<dot>\.)?(?P<word>[^\W\d][\w']*)(?:\.(?P<inner>[^\W\d][\w']*))?(?P<given>\s+=(?=\s|$))?")
BINDERS = re.compile(r"λ([^.λ]*)\.|[({]([\w' ]+?) :|\blet ([\w']+)")
FIELD = re.compile(r"^(\s+(?:pub )?)([\w']+)(?= :)", re.M)
RUST_USE = re.compile(r"^(?:pub )?use (\w+)::(?:[\w:]*\{([^;]*)\}|(?:\w+::)*(\w+));", re.M)
GENERICS = re.compile(r"<[^()]*?>(?=\()")


def equations(definition):
    """The head of a definition and each of its equations, with the lines that go on with it."""
    parts = [[definition.text[0]]]
    for line in definition.text[1:]:
        if line.startswith(definition.name + " "):
            parts.append([line])
        else:
            parts[-1].append(line)
    return ["\n".join(part) for part in parts]


def bound_words(equation, name):
    """The words that an equation of this name binds."""
    words = {word for groups in BINDERS.findall(equation) for group in groups for word in WORD.findall(group)}
    if equation.startswith(name + " "):
        words.update(WORD.findall(re.split(r"\s=(?:\s|$)", equation, maxsplit=1)[0]))
    return {word for word in words if word[0].islower()}


def blanked(found):
    """As many signs as were found, of which none is a name's."""
    return "#" * len(found[0])


def without_words(text, words):
    """A text of the same length in which these words are blanked, where they stand alone, and so are the names of fields."""
    if words:
        text = re.sub(r"(?<![\w.'])(?:" + "|".join(map(re.escape, words)) + r")(?![\w'])", blanked, text)
    return FIELD.sub(lambda found: found[1] + "#" * len(found[2]), text)


def key_of(node):
    return node.file, node.name


def unique(nodes):
    """The nodes in their order, each once."""
    return list({key_of(node): node for node in reversed(list(nodes))}.values())[::-1]


def is_named_for_contracts(item):
    """Whether an item is a trait without calls: it only says of a type what contracts name."""
    return item.kind == "trait" and not any(" fn " in line for line in item.text)


class Reach:
    """What each text of the repository names."""

    def __init__(self):
        self.files = definition_files()
        self.code = code_files()
        self.crates = crates_from_below()
        self.items = {(file.crate, name): item for file in self.code.values() for name, item in file.items.items()}
        self.kit = set()  # (module, name) of each name of the kit's library that was met
        self.uses = {}  # what was found in each node, kept once it was asked for
        self.brought = {}  # what was found to be brought into each file of code, kept likewise

    def places_in(self, text, imports, own=None):
        """(start, end, node) of each use in a text, by these imports or as a definition of the file `own`."""
        found = []
        for use in USED.finditer(text):
            word, inner = use["word"], use["inner"]
            if use["dot"] or (use["given"] and word[0].islower()):
                continue
            if own and own.find(word):
                found.append((*use.span("word"), own.find(word)))
            elif word in imports.names:
                found.append((*use.span("word"), self.target(*imports.names[word])))
            elif inner and word in imports.modules:
                found.append((*use.span("inner"), self.target(imports.modules[word], inner)))
        self.kit.update((each.where, each.name) for each in imports.operators_in(text))
        return [place for place in found if place[2]]

    def target(self, where, name):
        """What an import names; of a name of the kit's library a note is kept, and None is the answer."""
        if where in self.files:
            found = self.files[where].find(name)
        elif where.startswith("Rattle.") and where.split(".")[1] in self.crates:
            found = self.declared(where, name)
        else:
            self.kit.add((where, name))
            return None
        if not found:
            raise SystemExit(f"{where} has no {name}, which an import names")
        return found

    def declared(self, where, name):
        """An item of the code: `where` is Rattle.CRATE.specs.declared.FILE.. with a type, or with what it holds."""
        crate, path = where.split(".")[1], where.split(".")[4:]
        if path[-1] != "TheConstants":
            name = path[-2] if path[-1].startswith("The") else path[-1]
        return self.items.get((crate, name))

    def places_of(self, node):
        """(start, end, node) of each use in the text of a definition or of an item of the code as a page shows it."""
        if key_of(node) not in self.uses:
            found = self.places_of_definition(node) if isinstance(node, Definition) else self.places_of_item(node)
            self.uses[key_of(node)] = [place for place in found if place[2] != node]
        return self.uses[key_of(node)]

    def places_of_definition(self, definition):
        file, found, start = self.files[definition.file], [], 0
        for text in equations(definition):
            visible = without_words(text, bound_words(text, definition.name))
            found += [(start + first, start + last, node) for first, last, node in self.places_in(visible, file.imports, file)]
            start += len(text) + 1
        return found

    def places_of_item(self, item):
        """The items in its text or, where contracts see a type otherwise than by its fields, what they see."""
        file, text = self.code[item.file], self.shown(item)
        if file.value_of(item.name):
            start = text.rindex("\n") + 1
            return [(start + first, start + last, node) for first, last, node in self.places_in(text[start:], file.imports)]
        return self.items_in(re.sub(r"//.*", blanked, text), file)

    def shown(self, item):
        """The text of an item of the code. The last line has what contracts see of a type, if that isn't its fields, or the digits of a constant."""
        value = self.code[item.file].value_of(item.name)
        if value:
            return item.text[0].split("{")[0].rstrip("; ") + ";\n// Contracts see it as: " + value
        digits = self.digits_of(item)
        return "\n".join([line for line in item.text if not line.strip().startswith("#")] + [f"// In digits: {digits}"] * bool(digits))

    def digits_of(self, item):
        """The digits of a constant and the law of its crate that says them; None where no law does."""
        said = re.compile(rf"^ensures[\w ]* \{{ {item.name} ≡ (?:pos )?(\d+) \}}$")
        for file in self.code.values():
            if item.kind == "const" and file.crate == item.file.split("/")[0]:
                for function in file.functions().values():
                    found = [said.match(clause)[1] for _, clause in function.clauses if function.name.endswith("_in_digits") and said.match(clause)]
                    if found:
                        return f"{found[0]}, by `{function.name}`"
        return None

    def items_in(self, text, file):
        """(start, end, item) of each item of the code that a text of a file names."""
        brought = self.brought_in(file)
        found = [(*word.span(), self.item(*brought.get(word[0], (file.crate, word[0])))) for word in WORD.finditer(text)]
        return [place for place in found if place[2] and text[place[0] - 1 : place[0]] != "."]

    def item(self, crate, name):
        """The item of a crate's code, also where the crate only hands it on; None where there is none."""
        top = self.code.get(f"{crate}/src/lib.rt")
        handed_on = self.brought_in(top).get(name, (crate, name)) if top else (crate, name)
        return self.items.get((crate, name)) or (self.item(*handed_on) if handed_on[0] != crate else None)

    def brought_in(self, file):
        """The crate and the name there of each name that a file of code brings in."""
        if file.key not in self.brought:
            names = self.brought[file.key] = {}
            for crate, many, one in RUST_USE.findall("\n".join(file.lines)):
                for part in filter(None, map(str.strip, (many or one).split(","))):
                    name, _, other = part.split("::")[-1].partition(" as ")
                    names[other or name] = (file.crate if crate in ("crate", "super") else crate, name)
        return self.brought[file.key]

    def function(self, crate, name):
        """A function of a crate by `NAME` or `TYPE::NAME`."""
        found = [file.functions()[name] for file in self.code.values() if file.crate == crate and name in file.functions()]
        if len(found) != 1:
            raise SystemExit(f"{crate} has {len(found)} functions {name}, of which a claim speaks")
        return found[0]

    def public_functions(self, crate):
        """The public functions of a crate, in the order of its files."""
        return [each for file in self.code.values() if file.crate == crate for each in file.functions().values() if each.head.startswith("pub ")]

    def places_of_head(self, function):
        """The types that a function's head names, where contracts see more of them than a name."""
        file, text = self.code[function.file], GENERICS.sub(blanked, function.head)
        return [place for place in self.items_in(text, file) if self.is_seen(place[2])]

    def is_seen(self, item):
        """Whether contracts see what a type holds: its fields, or another value."""
        fields = [line.strip() for line in item.text[1:-1] if line.startswith("    ")]
        return item.kind == "enum" or item.kind == "struct" and (
            bool(self.code[item.file].value_of(item.name)) or any(line.startswith("pub ") for line in fields)
        )

    def places_of_block(self, function):
        """In the head of a function's block the type whose method it is, and the traits that say of its parameters what contracts name."""
        found = self.items_in(function.block, self.code[function.file])
        return [place for place in found if self.is_seen(place[2]) or is_named_for_contracts(place[2])]

    def places_of_clause(self, function, clause):
        """What a clause of a function names."""
        file = self.code[function.file]
        return sorted(self.places_in(clause, file.imports) + self.items_in(clause, file), key=lambda place: place[:2])

    def closure(self, starts, without=()):
        """The starts and all that they rest on, but for some and what only they rest on."""
        met, waiting = {}, list(starts)
        while waiting:
            node = waiting.pop(0)
            if key_of(node) not in met and key_of(node) not in without:
                met[key_of(node)] = node
                waiting += [other for _, _, other in self.places_of(node)]
        return list(met.values())

    def reading_order(self, nodes, rank):
        """Definitions of one file, each before those that it uses: those of a lesser rank first, then those that others here use, as in their file."""
        left = {key_of(node): node for node in nodes}
        uses = {key: {key_of(other) for _, _, other in self.places_of(node)} & set(left) for key, node in left.items()}
        used_here = set().union(*uses.values())
        order = []
        while left:
            used = {key for each in left for key in uses[each]}
            ready = [node for key, node in left.items() if key not in used]
            if not ready:
                raise SystemExit(f"definitions that use one another: {', '.join(node.name for node in left.values())}")
            order.append(min(ready, key=lambda node: (rank[key_of(node)], key_of(node) not in used_here, node.line)))
            del left[key_of(order[-1])]
        return order
