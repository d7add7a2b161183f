"""Reads Rust sources: a function's contract, and a type with its comment."""
import os
import re

from antt import WORD, Declared, read, stop

# Types of libraries, which are no type of a crate here.
FOREIGN = {"Vec", "Option", "Result", "ArrayVec", "Drop", "Copy", "Clone", "Debug"}


class Function:
    """A public function: its comment, its signature, its clauses by name, and what names mean in them."""

    def __init__(self, root, crate, file, name, clauses=None):
        self.crate, self.file, self.name = crate, file, name
        self.path = f"crates/{crate}/src/{file}"
        lines = read(f"{root}/{self.path}").split("\n")
        at = next((i for i, it in enumerate(lines) if re.match(rf" *(?:pub )?fn {name}\b", it)), None)
        if at is None:
            stop(f"{self.path} has no function {name}")
        head = at
        while head and re.match(r" *(///|#\[)", lines[head - 1]):
            head -= 1
        indent = len(lines[at]) - len(lines[at].lstrip(" "))
        end = next((i for i in range(at, len(lines)) if lines[i].strip() in ("{", "{}") or lines[i].endswith((" {", ";"))), None)
        if end is None:
            stop(f"{self.path}: the contract of {name} has no end that is known")
        if lines[end].strip() not in ("{", "{}"):
            lines[end] = lines[end].rstrip(" {;")
            end += 1
        self.comment = [it[indent:] for it in lines[head:at] if "///" in it]
        self.signature, self.clauses = [], []
        for line in lines[at:end]:
            if re.match(r" *(requires|ensures)\b", line):
                self.clauses.append(line[indent:])
            elif self.clauses:
                self.clauses[-1] += f"\n{line[indent:]}"
            else:
                self.signature.append(line[indent:])
        if clauses is not None:
            self.clauses = [*self.premises(), *(self.clause(it) for it in clauses)]
        self.uses = dict(self.ghost_uses("\n".join(it for it in lines if it.lstrip().startswith("ghost use "))))

    def premises(self):
        """What it requires."""
        return [it for it in self.clauses if it.lstrip().startswith("requires")]

    def clause(self, name):
        """One clause, by its name."""
        found = [it for it in self.clauses if re.match(rf" *ensures {name} \{{", it)]
        return found[0] if found else stop(f"{self.path}: {self.name} has no clause {name}")

    @staticmethod
    def ghost_uses(text):
        """What the file's `ghost use` lines name: a module by its short name, or names of one."""
        for path, names, alias in re.findall(r"ghost use (Rattle[\w.]+?)(?:\.\{(.*)\})?(?: as (\w+))?;", text):
            if not names:
                yield alias or path.split(".")[-1], (path, None)
            for it in (it.strip().partition(" as ") for it in names.split(",") if names):
                yield it[2] or it[0], (path, it[0])

    def named(self):
        """The names of specs in the clauses: each by the path of its module."""
        found = {}
        for clause in self.clauses:
            for word in WORD.findall(clause.partition("{")[2]):
                first, _, rest = word.partition(".")
                if first in self.uses:
                    path, name = self.uses[first]
                    found.setdefault((path, name or rest.split(".")[0]))
        return list(found)

    def text(self):
        """What is shown of it."""
        return self.comment + self.signature + self.clauses


class Type:
    """A type of Rust code, with the comment above it, or a constant."""

    kind = "type"

    def __init__(self, root, declared):
        self.root, self.key, self.name, self.crate = root, declared.key, declared.name, declared.crate
        self.path = f"crates/{declared.crate}/src/{declared.module}.rt"
        self.source = read(f"{root}/{self.path}")
        above, item = r"(?m)((?:^ *(?:///|#\[).*\n)*)^(?:pub |pub\(\w+\) )?", rf"(?:struct|enum) {self.name}\b[^;{{]*(?:\{{(?s:.*?)^\}}|;)"
        found = re.search(rf"{above}(?:{item}|const {self.name}\b[^;]*;)", self.source)
        if not found:
            found = re.search(rf"{above}trait {self.name}\b[^;{{]*\{{(?s:.*?)^\}}", self.source)
            if found:
                self.lines = self.ghosts_of(found[0].strip("\n").split("\n"))
                return
            stop(f"{self.path} has no type {self.name}")
        lines = [it for it in found[0].strip("\n").split("\n") if not it.startswith("#[")]
        self.lines = [it for it in lines if not re.match(r" *(?:pub )?ghost ", it)]

    @staticmethod
    def ghosts_of(lines):
        """Of a trait its ghost members, with their comments: what an implementation says of its values."""
        kept, comment = [], []
        for line in lines:
            if line.startswith(("///", "pub trait", "trait", "}")):
                kept.append(line)
            elif line.lstrip().startswith("///"):
                comment.append(line)
            else:
                if line.lstrip().startswith("ghost "):
                    kept += [*comment, line]
                comment = []
        return kept

    def text(self):
        return self.lines

    def used(self):
        """The types of crates here that its fields and variants name, each once."""
        body = re.sub(r"//[^\n]*|\"[^\"\n]*\"", " ", "\n".join(self.lines))
        found = {}
        for name in re.findall(r"\b[A-Z]\w*[a-z]\w*\b", body):
            place = None if name == self.name or name in FOREIGN else self.place(name)
            if place:
                found.setdefault(place.key, place)
        return list(found.values())

    def place(self, name):
        """Where a type that this one names is declared, if its file says."""
        if re.search(rf"(?m)^(?:pub |pub\(\w+\) )?(?:struct|enum) {name}\b", self.source):
            return Declared(self.crate, self.key[1], name)
        for path in re.findall(rf"(?m)^use ([\w:]+)::(?:{name}|\{{[^}}]*\b{name}\b[^}}]*\}});", self.source):
            crate = self.crate if path.startswith("crate") else path.split("::")[0]
            if os.path.isdir(f"{self.root}/crates/{crate}"):
                return self.declared_in(crate, name)
        return None

    def declared_in(self, crate, name):
        folder = f"{self.root}/crates/{crate}/src"
        for at, folders, files in os.walk(folder):
            folders.sort()
            for file in sorted(files):
                if file.endswith(".rt") and re.search(rf"(?m)^(?:pub |pub\(\w+\) )?(?:struct|enum) {name}\b", read(f"{at}/{file}")):
                    return Declared(crate, os.path.relpath(f"{at}/{file}", folder)[:-3], name)
        return None
