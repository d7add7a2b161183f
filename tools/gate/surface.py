"""What crates above one can see of it: its surface, read from its sources, without comments and layout.

- of src: public functions with their clauses, and each type, trait, constant and macro whole. Of an impl its head, its ghost items and the heads
  of its functions. A function's body is no part of that: whoever calls it goes by its clauses alone, also where it is generic. Bodies count of
  functions that give an `impl ..`, of constant ones, and of those that a trait has itself.
- of specs: the definitions of the modules that tools/names/shown.md lists, those that the parts above name, and what these name in turn.
- of proofs: the lemmas of the modules that the table lists. Their proofs don't count, since a definition is abstract unless it is an abbrev, a
  record, data or unfoldable; these count whole.

A name is held together with the path that it is imported by, so that another path is another surface. What can't be read counts whole.
"""
import os
import re
from importlib.machinery import SourceFileLoader
from importlib.util import module_from_spec, spec_from_loader

from crates import read, sources

HERE = os.path.dirname(os.path.realpath(__file__))
names_check = module_from_spec(spec_from_loader("names_check", SourceFileLoader("names_check", f"{HERE}/../names/check")))
names_check.__loader__.exec_module(names_check)

WORD = re.compile(r"[^\W\d]\w*")
# Attributes that say how a function is proved, compiled or tested, and nothing of what it does.
UNSEEN = re.compile(r"#!?\[\s*(tactic|inline|cold|doc|allow|must_use)\b")
OPENING, CLOSING = "([{", ")]}"
WHOLE = {"abbrev", "unfoldable", "record", "data", "ruleset"}
MARKS = WHOLE | {"pub", "opaque"}


def plain(text, mark):
    """A text without comments, its strings kept, in one layout."""
    kept = re.sub(rf'("(?:\\[\s\S]|[^"\\])*"|\'[{{}}]\')|{mark}[^\n]*', lambda it: it[1] or "", text)
    return kept if mark == "--" else re.sub(r"(?s)/\*.*?\*/", "", kept)


def one_line(text):
    return " ".join(text.split())


def end_of(text, at):
    """The place after the bracket that closes the one here."""
    depth = 0
    for found in re.finditer(r'"(?:\\[\s\S]|[^"\\])*"|\'[{}]\'|[()\[\]{}]', text[at:]):
        if found[0] in OPENING or found[0] in CLOSING:
            depth += 1 if found[0] in OPENING else -1
            if depth == 0:
                return at + found.end()
    raise ValueError("a bracket doesn't close")


class Item:
    """An item of Rust: its attributes, its head, and the block that ends it, if one does."""

    def __init__(self, attributes, head, block):
        self.attributes, self.head, self.block = attributes, one_line(head), block
        self.is_test = any(re.match(r"#\[\s*(cfg\s*\(\s*)?test\b", it) for it in attributes)
        bare = re.sub(r"^pub(\s*\([^)]*\))?\s+", "", self.head)
        self.is_pub = self.head.startswith("pub ")
        bare = re.sub(r"^((?:const|unsafe|async|final|extern(?:\s*\"[^\"]*\")?)\s+)*(?=(fn|impl|trait)\b)", "", bare)
        found = re.match(r"(ghost use|ghost|use|mod|fn|struct|enum|trait|impl|const|static|type|macro_rules)\b\W*(\w*)", bare)
        self.kind, self.name = (found[1], found[2]) if found else ("", "")

    def shown(self):
        return one_line(" ".join([it for it in self.attributes if not UNSEEN.match(it)] + [self.head]))


def opens_body(before):
    """Whether a brace after this text opens a body: that of a clause follows its word."""
    return not (re.search(r"\bfn\b", before) and re.search(r"\b(requires|ensures|decreases)(\s*\*)?(\s*\w+)?\s*$", before))


def items_in(text):
    """The items of a plain text of Rust."""
    at = 0
    while text[at:].strip():
        at += len(text[at:]) - len(text[at:].lstrip())
        attributes = []
        while text.startswith("#", at):
            end = end_of(text, text.index("[", at))
            attributes.append(one_line(text[at:end]))
            at = end + len(text[end:]) - len(text[end:].lstrip())
        if not text[at:]:
            return
        begun, block = at, None
        ends_by_line = re.match(r"(pub(\s*\([^)]*\))?\s+)?(use|const(?!\s+fn)|static|type|ghost|mod\s+\w+\s*;)", text[at:])
        while True:
            found = re.compile(r'"(?:\\[\s\S]|[^"\\])*"|\'[{}]\'|[()\[\]{};]').search(text, at)
            if not found:
                raise ValueError("an item doesn't end")
            if found[0] == ";":
                head, at = text[begun : found.start()], found.end()
                break
            if found[0] not in OPENING:
                at = found.end()
                continue
            end = end_of(text, found.start())
            if found[0] == "{" and not ends_by_line and opens_body(text[begun : found.start()]):
                head, block, at = text[begun : found.start()], text[found.start() + 1 : end - 1], end
                break
            at = end
        yield Item(attributes, head, block)


class Part:
    """A part of a surface: what it is, in which file, its text, and the words by which it is named: a type and its method, say, or one alone."""

    def __init__(self, what, file, text, *words):
        self.what, self.file, self.text, self.words = what, file, text, [it for word in words for it in WORD.findall(word)]


def imports_of(head):
    """The names that a use brings, each with its path."""
    tree = re.sub(r"^(pub(\s*\([^)]*\))?\s+)?(ghost\s+)?use\s+", "", head).strip()
    found = re.match(r"(?s)(.*?)(?:::|\.)\{(.*)\}$", tree)
    path, inside = (found[1], found[2]) if found else ("", tree)
    for it in inside.split(","):
        names = re.split(r"\s+as\s+", it.strip())
        if names[0]:
            last = names[-1] if len(names) > 1 else re.split(r"::|\.", names[0])[-1]
            yield last.strip(), one_line(f"{path}.{names[0]}" if path else names[0]).replace("::", ".")


class Source:
    """A file of src: the parts of the surface that it has."""

    def __init__(self, crate, file, text):
        self.crate, self.file, self.parts, self.paths = crate, file, [], {}
        if not file.endswith(".rt"):
            return
        try:
            items = [*items_in(plain(text, "//"))]
            self.read_imports(items)
            for it in items:
                self.read(it)
        except ValueError:
            self.parts = [Part("all of it", file, one_line(plain(text, "//")))]

    def read_imports(self, items):
        for it in items:
            if it.kind in ("use", "ghost use"):
                for name, path in imports_of(it.head):
                    self.paths.setdefault(name, set()).add(path)
            elif it.kind in ("impl", "trait", "mod") and it.block:
                self.read_imports([*items_in(it.block)])

    def add(self, what, text, *words):
        paths = sorted(f"{it}={path}" for it in {*WORD.findall(text)} & {*self.paths} for path in self.paths[it])
        self.parts.append(Part(what, self.file, "\n".join([text, *paths]), *words))

    def read(self, item):
        if item.is_test or item.kind in ("use", "ghost use"):
            if item.kind == "use" and item.is_pub:
                for name, path in imports_of(item.head):
                    self.add(f"{name}, which it shows", path, name)
        elif item.kind == "mod":
            for it in items_in(item.block or ""):
                self.read(it)
        elif item.kind == "fn":
            if item.is_pub and item.name in self.crate.items:
                self.add(f"{item.name}, its signature or clauses", self.function(item), item.name)
        elif item.kind == "impl":
            self.read_impl(item)
        else:
            whole = f"{item.shown()} {one_line(item.block or '')}"
            kind = item.kind or "item"
            self.add(f"{item.name}, {'an' if kind[0] in 'aeiou' else 'a'} {kind}", whole, item.name)

    def function(self, item):
        """What others see of a function."""
        has_body = re.search(r"->\s*impl\b", item.head) or re.match(r"(pub\s+)?const\s", item.head)
        return f"{item.shown()} {one_line(item.block or '')}" if has_body else item.shown()

    def read_impl(self, item):
        head = item.shown()
        target = re.split(r"\bwhere\b", re.sub(r"^(unsafe\s+)?impl\s*(<(?:[^<>]|<[^<>]*>)*>)?", "", head))[0]
        trait, _, of = target.rpartition(" for ")
        owner = (WORD.findall(of or target) or [""])[0]
        self.add(f"an impl of {trait.split('<')[0].strip() or 'its own'} for {owner}", head, owner)
        for it in items_in(item.block or ""):
            if it.is_test or it.kind in ("use", "ghost use"):
                continue
            if it.kind == "fn" and (trait or it.is_pub):
                self.add(f"{owner}::{it.name}, its signature or clauses", f"{head} {self.function(it)}", owner, it.name)
            elif it.kind != "fn":
                whole = f"{head} {it.shown()} {one_line(it.block or '')}"
                self.add(f"{owner}::{it.name or it.kind}, a {it.kind} item{' of ' + trait.strip() if trait else ''}", whole, owner)


class Module:
    """A module of specs or proofs: its definitions, its imports, and the modules that it makes public."""

    def __init__(self, name, file, text):
        self.name, self.file, self.imports, self.shows, self.definitions = name, file, {}, [], {}
        self.read(plain(text, "--"), "")

    def read(self, text, above):
        """Reads chunks: a line at the margin, with those below it that are indented."""
        lines, chunks = [it for it in text.splitlines() if it.strip()], []
        for it in lines:
            if it[0].isspace() or it[0] in "}])":
                if chunks:
                    chunks[-1].append(it)
            else:
                chunks.append([it])
        last = None
        for chunk in chunks:
            last = self.read_chunk(chunk, above, last)

    def read_chunk(self, chunk, above, last):
        head, words = one_line(" ".join(chunk)), chunk[0].split()
        if re.match(r"(pub )?(use|mod) ", head):
            names = dict(imports_of(head)) if " use " in f" {head}" else {words[-1]: f"{self.name}.{words[-1]}"}
            self.imports.update(names)
            if head.startswith("pub "):
                self.shows += [(it, path) for it, path in names.items()]
            return last
        if words[0] == "module":
            inner = chunk[1:]
            indent = min((len(it) - len(it.lstrip()) for it in inner), default=0)
            self.read("\n".join(it[indent:] for it in inner), one_line(f"{above} {chunk[0]}"))
            return None
        if words[0] == "unfolding" and last:
            # (how the one above is proved)
            self.definitions[last][1].append(head)
            return last
        marks = [it for it in words[: next((at for at, it in enumerate(words) if it not in MARKS), 0)]]
        name = words[len(marks)] if len(words) > len(marks) else words[0]
        if not marks and name not in self.definitions and last and " : " not in head.partition(" = ")[0]:
            # (a row of an operator)
            name = last
        if name in self.definitions:
            self.definitions[name][1].append(head)
        else:
            self.definitions[name] = (f"{above} {head}".strip(), [], {*marks})
        return name

    def text_of(self, name):
        """What others see of a definition: all of it, or its statement alone."""
        head, rows, marks = self.definitions[name]
        return "\n".join([head, *rows]) if marks & WHOLE else head


class Crate:
    """The surface of a crate whose repository, or a part of it, is at a folder."""

    def __init__(self, root, name):
        self.name, self.folder, self.modules, self.parts = name, f"{root}/crates/{name}", {}, {}
        table = names_check.table_of(root)
        self.shown = table[name] if name in table else names_check.Shown(set(), set(), set())
        self.items = names_check.items_of(self.folder)
        found = [Source(self, os.path.relpath(it, self.folder), read(it)) for it in sorted(sources(self.folder)[0]) if "/src/" in it]
        for it in sorted(sources(self.folder)[0]):
            inside = os.path.relpath(it, self.folder)
            if inside.endswith(".antt"):
                module = inside[: -len(".antt")].replace("/", ".")
                self.modules[module] = Module(module, inside, read(it))
        for part in (part for source in found for part in source.parts):
            self.keep(part)
        self.read_logic({word for part in self.parts.values() for word in self.named_in(part.text)})

    def keep(self, part):
        at, number = f"{part.file}: {part.what}", 2
        while at in self.parts:
            at, number = f"{part.file}: {part.what} ({number})", number + 1
        self.parts[at] = part

    def own(self, path):
        """The module and name of a path into this crate's own specs or proofs."""
        found = re.match(rf"(?:Rattle\.{self.name}|crate)\.((?:specs|proofs)\b.*)", path)
        return found[1].rpartition(".")[::2] if found else None

    def named_in(self, text):
        """The definitions of this crate that a part of src names by its imports."""
        for path in re.findall(r"(?m)^\w+=(.*)$", text):
            if self.own(path):
                yield self.own(path)
                yield ".".join(it for it in self.own(path) if it), "*"

    def read_logic(self, begun):
        """Keeps the definitions that can be seen, from those that src names and those of the modules that the table lists."""
        left, done = [*begun], set()
        for lib in (self.modules[it] for it in ("specs.Lib", "proofs.Lib") if it in self.modules):
            for name, path in lib.shows:
                self.keep(Part(f"{name}, a module", lib.file, path, name))
        for part, names in (("specs", self.shown.modules), ("proofs", self.shown.proofs)):
            left += [(it, "*") for it in self.modules for name in names if it == f"{part}.{name}" or it.startswith(f"{part}.{name}.")]
        while left:
            module, name = it = left.pop()
            if it in done or module not in self.modules:
                continue
            done.add(it)
            there = self.modules[module]
            if name == "*":
                left += [(module, one) for one in there.definitions if "pub" in there.definitions[one][2]]
                left += [self.own(path) for one, path in there.shows if self.own(path)]
                left += [(f"{module}.{one}", "*") for one, path in there.shows]
                for one, path in there.shows:
                    self.keep(Part(f"{one}, which it shows", there.file, path, one))
            elif name in there.definitions:
                left += self.read_definition(there, name)
            elif name in there.imports and self.own(there.imports[name]):
                left.append(self.own(there.imports[name]))

    def read_definition(self, module, name):
        """Keeps a definition, and gives those of this crate that it names."""
        text = module.text_of(name)
        words = {*re.findall(r"[^\s(){}\[\],.;]+", text)}
        paths = sorted(f"{it}={module.imports[it]}" for it in words & {*module.imports})
        kind = "a definition" if module.name.startswith("specs") or module.definitions[name][2] & WHOLE else "the statement of a lemma"
        self.keep(Part(f"{name}, {kind}", module.file, "\n".join([text, *paths]), name))
        inside = [(module.name, it) for it in words if it in module.definitions and it != name]
        through = [self.own(module.imports[it]) for it in words if it in module.imports and self.own(module.imports[it])]
        return [*inside, *through, *[(".".join(it), "*") for it in through]]
