"""Reads specs: which definitions a module has, and which others each of them names.

A name is looked up as the toolchain does: what a definition binds itself, then its own module, then the module's imports. Imports are followed through
`pub use` and `pub mod`, to a definition of a crate here, to a type of its Rust code, or to the toolchain's own library. A name, or an import, that leads
nowhere stops the reading: so what is left out of a closure is left out on purpose.
"""
import os
import re
import sys

WORD = re.compile(r"[^\W\d][\w'?]*(?:-[^\W\d][\w']*)*(?:\.(?:[^\W\d][\w'?]*|\d+))*")
USE = re.compile(r"(pub )?use ([\w.]+?)(?:\.\{(.*)\})?(?: as (\w+))?")
HEAD = re.compile(r"((?:(?:abbrev|unfoldable|pub) )*)(?:(record|data) )?([^\W\d][\w'?-]*|◌\S*◌)(?=[ :])(.*)")
KEYWORDS = set("record data where let in if then else λ Type module _ pub abbrev unfoldable".split())
# What the language has without an import.
BUILT_IN = {"Unit", "tt", "omega", "absurd", "do"}


def stop(text):
    sys.exit(f"tools/docs/make: {text}")


def read(path):
    with open(path, encoding="utf-8") as file:
        return file.read()


class Kit:
    """A name of the toolchain's library."""

    def __init__(self, path, name):
        self.path, self.name, self.key = path, name, (path, name)


class Declared:
    """A type of a crate's Rust code, or a constant of it."""

    def __init__(self, crate, module, name):
        self.crate, self.module, self.name = crate, module, name
        self.key = (crate, module, name)


class Definition:
    """A definition of a module, with the comment above it, the comments that stand above that by themselves, and the modules with parameters round it."""

    def __init__(self, module, name, kind, rounds, notes, comment):
        self.module, self.name, self.kind, self.rounds, self.notes, self.comment = module, name, kind, rounds, notes, comment
        self.lines, self.inner = [], []
        self.key = (module.path, name)

    def text(self):
        """What is shown of it: its comment and its lines."""
        return self.comment + self.lines

    def is_equation(self, text):
        """Whether a line begins an equation of it."""
        if self.kind != "function" or text.startswith("unfolding "):
            return False
        sign = self.name.strip("◌")
        if sign != self.name:
            return f" {sign} " in text.partition(" = ")[0]
        return bool(re.match(re.escape(self.name) + r"(?![\w'?-])", text)) and not text.startswith(f"{self.name} :")


class Module:
    """A file of specs."""

    def __init__(self, path):
        self.path = path
        self.head, self.definitions, self.inner, self.names, self.aliases, self.shown, self.mods = [], {}, {}, {}, {}, {}, set()
        self.read_lines(read(f"{path}.antt").split("\n"))

    def read_lines(self, lines):
        comment, notes, rounds, at, at_head = [], [], [], None, True
        for line in lines:
            text, indent = line.strip(), len(line) - len(line.lstrip(" "))
            if not text:
                if comment:
                    notes.append(comment)
                comment = []
                if notes and at_head:
                    self.head, notes, at_head = notes[0], [], False
                continue
            if at and (indent > at.indent or text[0] in "})]"):
                at.lines += comment + [line]
                comment = []
                if at.kind == "data" and re.match(r"[^\W\d]\w* :", text):
                    at.inner.append(text.split()[0])
                continue
            if text.startswith("--"):
                comment.append(line)
                continue
            rounds = [it for it in rounds if it[0] < indent]
            if text.startswith(("infixl ", "infixr ")):
                at = None
                continue
            if text.startswith("unfolding ") and at:
                at.lines.append(line)
                continue
            if text.startswith(("use ", "pub use ", "mod ", "pub mod ")):
                if comment and at_head:
                    self.head, comment = comment, []
                self.read_import(text)
                at, at_head = None, False
                continue
            at_head = False
            if re.fullmatch(r"module _ .* where", text):
                rounds.append((indent, line))
                notes, comment, at = notes + ([comment] if comment else []), [], None
                continue
            if at and at.is_equation(text):
                at.lines += comment + [line]
                comment = []
                continue
            head = HEAD.fullmatch(text)
            if not head or (not head[2] and not re.match(r" *(?:[({].*)?:", head[4])):
                stop(f"{self.path}.antt: this line is of no form that is known: {line}")
            at = Definition(self, head[3], head[2] or "function", [it for _, it in rounds], notes, comment)
            at.indent, at.lines, notes, comment = indent, [line], [], []
            if at.name in self.definitions:
                stop(f"{self.path}.antt: {at.name} stands twice")
            self.definitions[at.name] = at
        for it in self.definitions.values():
            for name in it.inner:
                self.inner[name] = it

    def read_import(self, text):
        named = re.fullmatch(r"(pub )?mod (\w+)", text)
        if named:
            self.mods.add(named[2])
            return
        found = USE.fullmatch(text)
        if not found:
            stop(f"{self.path}.antt: an import of no form that is known: {text}")
        is_pub, path, names, alias = found.groups()
        if names is None:
            self.aliases[alias or path.split(".")[-1]] = path
            return
        for it in names.split(","):
            name, _, other = it.strip().partition(" as ")
            self.names[other.strip() or name] = (path, name)
            if is_pub:
                self.shown[other.strip() or name] = (path, name)


class Specs:
    """The specs of all crates of a repository, as far as they were asked for."""

    def __init__(self, root):
        self.root, self.modules, self.uses = root, {}, {}

    def module(self, path):
        if path not in self.modules:
            self.modules[path] = Module(path)
        return self.modules[path]

    def place(self, path, whence):
        """Where the path of an import leads: to a module, or to the parts of a path of Rust code or of the toolchain."""
        parts = path.split(".")
        if parts[0] != "Rattle" or not os.path.isdir(f"{self.root}/crates/{parts[1]}"):
            return Kit(path, None)
        if parts[2:3] not in (["specs"], ["proofs"]):
            stop(f"{whence}: {path} is below neither specs nor proofs of a crate")
        return self.below(f"{self.root}/crates/{parts[1]}/{parts[2]}", None, parts[3:], f"{whence}: {path}")

    def below(self, folder, module, parts, whence):
        if not parts:
            return module
        if parts[0] == "contracts" and module is None:
            return Kit(whence.partition(": ")[2], None)
        if parts[0] == "declared" and module is None:
            crate = folder.split("/")[-2]
            return ("declared", crate, parts[1:])
        if module and parts[0] in module.aliases:
            target = self.place(module.aliases[parts[0]], module.path)
            if isinstance(target, Module):
                return self.below(target.path, target, parts[1:], whence)
            if isinstance(target, tuple):
                return (*target[:2], target[2] + parts[1:])
            return Kit(".".join([target.path, *parts[1:]]), None)
        if not os.path.isfile(f"{folder}/{parts[0]}.antt"):
            stop(f"{whence} leads nowhere: there is no {parts[0]} in {folder}")
        return self.below(f"{folder}/{parts[0]}", self.module(f"{folder}/{parts[0]}"), parts[1:], whence)

    def find(self, path, name, whence):
        """What a name is that stands at this path."""
        place = self.place(path, whence)
        if isinstance(place, Kit):
            return Kit(place.path, name)
        if isinstance(place, tuple):
            return self.declared(place[1], place[2], name, whence)
        return self.found(place, name) or stop(f"{whence}: there is no {name} in {place.path}.antt")

    def declared(self, crate, parts, name, whence):
        """A type, a variant of it, or a constant."""
        parts = [it for it in parts if it != "TheVariants"]
        if parts[-1] == "TheConstants":
            return Declared(crate, "/".join(parts[:-1]), name)
        if not parts[-1][0].isupper():
            stop(f"{whence}: {'.'.join(parts)} of {crate} is no type")
        return Declared(crate, "/".join(parts[:-1]), parts[-1])

    def found(self, module, name):
        """What a name is in a module, for those who import it."""
        if name in module.definitions:
            return module.definitions[name]
        if name in module.inner:
            return module.inner[name]
        if name in module.shown:
            return self.find(*module.shown[name], module.path)
        return None

    def meant(self, definition, word):
        """What a word of a definition means, by its module; None if the module doesn't know it."""
        module, (first, *rest) = definition.module, word.split(".")
        if first in module.definitions or first in module.inner:
            return self.found(module, first)
        if first in module.names:
            it = self.find(*module.names[first], module.path)
            if isinstance(it, Kit) and it.name != first:
                stop(f"{module.path}.antt: it takes the toolchain's {it.name} as {first}, and the page would not show that")
            return it
        if first in module.aliases and rest:
            place = self.place(module.aliases[first], module.path)
            if isinstance(place, Module) and not self.found(place, rest[0]) and len(rest) > 1:
                return self.find(f"{module.aliases[first]}.{rest[0]}", rest[1], module.path)
            return self.find(module.aliases[first], rest[0], module.path)
        return None

    def operators_in(self, definition, chunk):
        """The operators that a part uses, as its module imports or defines them."""
        signs = set(re.findall(r"[^\w\s(){}.;,']+", chunk)) | ({">>="} if re.search(r"\bdo\b", chunk) else set())
        for name in [*definition.module.names, *definition.module.definitions]:
            if "◌" in name and name.strip("◌") in signs:
                yield self.meant(definition, name)

    def used(self, definition):
        """What a definition names, in order, each once: definitions, types of Rust code and names of the toolchain."""
        if definition.key not in self.uses:
            found = {}
            for chunk, bound, patterns in chunks(definition):
                bound = bound | {it for it in patterns if it[0].islower() or not self.meant(definition, it)}
                for word in words_in(chunk, bound):
                    if word.split(".")[0] in definition.fields and not self.meant(definition, word):
                        continue
                    it = self.meant(definition, word)
                    if it is None:
                        stop(f"{definition.module.path}.antt: {definition.name}: nothing says what {word} is")
                    if it is not definition:
                        found.setdefault(it.key, it)
                # a name that it binds, and its module has as well, counts as used: rather too much than too little
                for it in [*self.operators_in(definition, chunk), *(self.meant(definition, it) for it in sorted(bound))]:
                    if it and it is not definition and not (isinstance(it, Kit) and "◌" not in it.name):
                        found.setdefault(it.key, it)
            self.uses[definition.key] = list(found.values())
        return self.uses[definition.key]


def bare(line):
    """A line without strings."""
    return re.sub(r'"(?:\\.|[^"\\])*"', " ", line)


def binders(text):
    """The names that a text binds: by types in brackets, by lambdas, by let, and as a record's fields."""
    found = set()
    for group in re.findall(r"[({]([^\W\d][\w' ]*?) *:(?![:=])", text):
        found |= set(group.split())
    for group in re.findall(r"λ ([^.()]*)\. ", text):
        found |= set(group.split())
    for group in re.findall(r"[({]([\w']+)[)}]", " ".join(re.findall(r"λ ([^.]*)\. ", text))):
        found.add(group)
    found |= set(re.findall(r"\blet ([\w']+)", text)) | set(re.findall(r"([\w']+) ←", text))
    return found


def chunks(definition):
    """The parts of a definition of which each binds its own names: its type, and each equation; a record or a data type is one part."""
    lines = [it for it in definition.lines if not it.strip().startswith("--")]
    round_names = set().union(*[binders(bare(it)) for it in definition.rounds])
    definition.fields = set()
    for it in definition.rounds:
        yield bare(it), round_names, set()
    if definition.kind != "function":
        body = bare("\n".join(lines))
        definition.fields = set(re.findall(r"(?m)^ +pub ([\w']+) :", body)) | ({definition.name} | set(definition.inner))
        yield re.sub(r"(?m)^( +)pub [\w']+ :", r"\1:", body.partition(definition.name)[2]), binders(body) | round_names, set()
        return
    parts = [[lines[0].strip().partition(f"{definition.name} ")[2]]]
    for line in (it for it in lines[1:] if not it.strip().startswith("unfolding ")):
        if definition.is_equation(line.strip()) and len(line) - len(line.lstrip(" ")) == definition.indent:
            parts.append([])
        parts[-1].append(line)
    yield bare("\n".join(parts[0])), binders(bare("\n".join(parts[0]))) | round_names, set()
    for part in parts[1:]:
        body = bare("\n".join(part))
        left, right = sides(body) or stop(f"{definition.module.path}.antt: {definition.name}: an equation without a right side: {body}")
        left = re.sub(r"\{[\w']+ = ", "{", left.strip() if "◌" in definition.name else left.strip()[len(definition.name) :])
        patterns = {it for it in WORD.findall(left) if "." not in it} - {"true", "false", "suc", "zero"}
        yield left + "\n" + right, binders(body) | round_names, patterns


def sides(equation):
    """What is left and what is right of an equation's sign, which stands in no brackets."""
    depth = 0
    for at, it in enumerate(equation):
        depth += (it in "({") - (it in ")}")
        if not depth and re.match(r" =\s", equation[at : at + 3]):
            return equation[:at], equation[at + 2 :]
    return None


def words_in(chunk, bound):
    """The words of a part that it doesn't bind itself."""
    chunk = re.sub(r"(?<=[{;])(\s*)[\w']+(?=\s*=(?!=))", r"\1", chunk)
    chunk = re.sub(r"(?m)^(\s*)[\w']+(?= = )", r"\1", chunk) if "record {" in chunk or re.search(r"record [\w'.]+ \{", chunk) else chunk
    for found in WORD.finditer(chunk):
        word = found[0]
        if found.start() and chunk[found.start() - 1] == ".":
            continue
        if word.split(".")[0] in KEYWORDS or word.split(".")[0] in bound or word in BUILT_IN:
            continue
        yield word
