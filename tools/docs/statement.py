"""Makes docs/STATEMENT.md: what has to be read to believe what is claimed, part by part, with the words that the parts share.

A part begins with contracts of the code. The names in their clauses are its roots, and what these name is followed through the specs (antt.py) and into the
types of the Rust code (rust.py). What is left out is named in statement_parts.py, with the reason; nothing else is. So a definition that a claim comes to
rest on appears on the page, and a change of one changes the page.
"""
import re

from antt import Declared, Definition, Kit, Specs, stop
from rust import Function, Type
from statement_parts import ALONE, HOW_TO_READ, INTRODUCTION, LEFT_OUT, NOTATION, PARTS, TIES, TYPES_ALONE, WORDS


class Section:
    """What one part shows: its functions, its definitions by module, and its types."""

    def __init__(self, part, functions, also):
        self.part, self.functions, self.also, self.found, self.types, self.left = part, functions, also, {}, {}, {}

    def modules(self):
        """The modules, each after all that use it, with their definitions in the order of the source."""
        by_path = {}
        for it in self.found.values():
            by_path.setdefault(it.module.path, []).append(it)
        order, seen = [], set()

        def visit(path):
            seen.add(path)
            for it in reversed([used for one in by_path[path] for used in one.uses]):
                if isinstance(it, Definition) and it.key in self.found and it.module.path not in seen:
                    visit(it.module.path)
            order.append(path)

        for it in reversed(list(by_path)):
            if it not in seen:
                visit(it)
        for path in reversed(order):
            shown = {it.key for it in by_path[path]}
            yield by_path[path][0].module, [it for it in by_path[path][0].module.definitions.values() if it.key in shown]

    def counts(self):
        """Definitions, their lines with comments, files, crates, and types of the code."""
        paths = {it.module.path for it in self.found.values()}
        lines = sum(len(it.text()) for it in self.found.values())
        return len(self.found), lines, len(paths), len({crate_of(it) for it in paths}), len(self.types)


def crate_of(path):
    return re.search(r"/crates/(\w+)/", path)[1]


def inside(path):
    """The path of a module within its specs, or within its crate where it is among the proofs."""
    return re.search(r"/crates/\w+/(?:specs/)?(.*)", path)[1]


class Statement:
    """The whole page: all that its parts show, each thing once."""

    def __init__(self, root):
        self.root, self.specs, self.words = root, Specs(root), {}
        self.sections, self.home = [], {}
        self.left_out = {self.definition(key).key: (key, group) for group, (_, keys) in LEFT_OUT.items() for key in keys}
        self.alone = {self.definition(it).key for it in ALONE}
        functions = [[Function(root, *it) for it in part["functions"]] for part in PARTS]
        also = [[Function(root, *it) for it in part.get("also", [])] for part in PARTS]
        self.roots = [self.roots_of(part, [*its, *others]) for part, its, others in zip(PARTS, functions, also)]
        for at, part in enumerate(PARTS):
            self.sections.append(self.section(part, functions[at], also[at], at))
        for key, (name, _) in self.left_out.items():
            if not any(key in it.left for it in self.sections):
                stop(f"docs/STATEMENT.md: {name} is left out, but nothing there names it")
        self.name_all()

    def definition(self, text):
        """A definition by the path of its module below crates, a space, and its name."""
        module, _, name = text.partition(" ")
        crate, _, path = module.partition("/")
        found = self.specs.module(f"{self.root}/crates/{crate}/{path if path.startswith('proofs/') else f'specs/{path}'}")
        return found.definitions.get(name) or stop(f"docs/STATEMENT.md: there is no {name} in {found.path}.antt")

    def roots_of(self, part, functions):
        """The definitions and types that the clauses of these functions name, and those that the part names itself."""
        found = {}
        for function in functions:
            for path, name in function.named():
                it = self.specs.find(path, name, function.path)
                if not isinstance(it, Kit):
                    found.setdefault(it.key, it)
        for it in part.get("roots", []):
            definition = self.definition(it)
            found.setdefault(definition.key, definition)
        return found

    def section(self, part, functions, also, at):
        """What a part shows beside the parts before it. What it leaves to a later part is shown there."""
        section = Section(part, functions, also)
        later = {self.definition(it).key for it in part.get("leaves", [])}
        for it in self.roots[at].values():
            self.follow(it, section, later)
        return section

    def follow(self, it, section, later):
        """Puts a definition or a type into a section, and all that it names, unless it is left out or is shown already."""
        waiting = [it]
        while waiting:
            it = waiting.pop(0)
            if isinstance(it, Kit):
                self.words.setdefault(it.name, it)
            elif it.key in self.left_out:
                section.left.setdefault(it.key, it)
            elif it.key not in self.home and it.key not in later:
                self.home[it.key] = section
                if isinstance(it, Declared):
                    shown = section.types.setdefault(it.key, Type(self.root, it))
                    shown.uses = [] if it.name in TYPES_ALONE else shown.used()
                else:
                    shown = section.found.setdefault(it.key, it)
                    shown.uses = [] if it.key in self.alone else self.specs.used(it)
                waiting = shown.uses + waiting

    def name_all(self):
        """Gives each thing that is shown its title. One whose name something else has as well is named with its crate, and if need be with its module."""
        shown = [it for section in self.sections for it in self.shown_in(section)]
        crate = lambda it: it.crate if isinstance(it, Type) else crate_of(it.module.path)
        module = lambda it: it.path.split("/src/")[1][:-3] if isinstance(it, Type) else inside(it.module.path)
        self.titles = {}
        for form in (lambda it: it.name, lambda it: f"{it.name} ({crate(it)})", lambda it: f"{it.name} ({crate(it)}, {module(it)})"):
            names = [form(it) for it in shown if it.key not in self.titles]
            for it in shown:
                if it.key not in self.titles and names.count(form(it)) == 1:
                    self.titles[it.key] = form(it)

    def shown_in(self, section):
        for _, definitions in section.modules():
            yield from definitions
        yield from section.types.values()

    def page(self):
        """The lines of the page, with a link from each name to the heading of what it names."""
        lines = list(self.lines())
        anchors, taken = {}, {}
        for line in lines:
            if isinstance(line, Heading):
                slug = re.sub(r"[^\w\- ]", "", line.text.lower()).replace(" ", "-")
                taken[slug] = taken.get(slug, -1) + 1
                anchors[line.key or line.text] = slug + (f"-{taken[slug]}" if taken[slug] else "")
        known = lambda it: self.definition(it).key if "/" in it else it
        link = lambda it: f"[{it[1]}](#{anchors[it[0]]})" if it[0] in anchors else stop(f"docs/STATEMENT.md: nothing shows {it[0]}")
        for line in lines:
            if isinstance(line, Heading):
                yield f"{'#' * line.depth} {line.text}"
            elif isinstance(line, Links):
                yield line.before + ", ".join(link(it) for it in line.items) + line.behind
            else:
                yield re.sub(r"\[([^\]]*)\]\(@([^)]*)\)", lambda it: link((known(it[2]), it[1])), line)

    def lines(self):
        yield from INTRODUCTION.strip("\n").split("\n")
        yield from self.table_of_counts()
        yield from ["", Heading(2, "How to read it"), "", *HOW_TO_READ.strip("\n").split("\n")]
        yield from ["", Heading(3, "Notation"), "", "| written | meaning |", "|---|---|", *(f"| {a} | {b} |" for a, b in NOTATION)]
        yield from self.table_of_words()
        yield from ["", Heading(2, "What may be skipped"), "", *self.skipped()]
        yield from ["", Heading(2, "Where code is held to it"), "", "| what | function and clauses |", "|---|---|", *(self.tie(*it) for it in TIES)]
        yield from ["", "These are the clauses, with all that each function requires."]
        for function in (it for _, *functions in TIES for it in functions):
            yield from self.tied(*function)
        for at, section in enumerate(self.sections):
            yield from ["", Heading(2, f"{at + 1}. {section.part['title']}"), "", *section.part["text"].strip("\n").split("\n")]
            yield from self.part(section)

    def table_of_counts(self):
        yield from ["", "| part | definitions | lines with comments | files | crates | types of the code |", "|---|---|---|---|---|---|"]
        for at, section in enumerate(self.sections):
            counts = " | ".join(f"{it:,}" for it in section.counts())
            yield f"| [{section.part['title']}](@{at + 1}. {section.part['title']}) | {counts} |"

    def table_of_words(self):
        """The words of the toolchain's library that are used, with their meaning."""
        said, written = {it for names in WORDS for it in names.split()}, " ".join(it for it, _ in NOTATION)
        unknown = sorted(it for it in set(self.words) - said if it.strip("◌").split("◌")[0] not in written)
        if unknown:
            stop(f"docs/STATEMENT.md: statement_parts.py doesn't say what the toolchain means by {', '.join(unknown)}")
        if said - set(self.words):
            stop(f"docs/STATEMENT.md: no definition there uses {', '.join(sorted(said - set(self.words)))}")
        yield from ["", Heading(3, "Words of the toolchain"), "", "| word | meaning |", "|---|---|"]
        yield from (f"| {', '.join(f'`{it}`' for it in names.split())} | {meaning} |" for names, meaning in WORDS.items())

    def skipped(self):
        for group, (reason, keys) in LEFT_OUT.items():
            places = [self.definition(it) for it in keys]
            yield f"**{group}.** {reason}"
            yield f"Left out: {', '.join(f'[`{it.name}`](..{it.module.path[len(self.root):]}.antt)' for it in places)}."
            yield ""
        yield Links("Of these only the lines are shown, and not what these name: ", [(key, f"`{key[1]}`") for key in sorted(self.alone)], ".")
        count, lines = self.whole([it for it in self.roots[0].values() if isinstance(it, Definition)])
        yield f"With all that is left out the headline alone has {count:,} definitions in {lines:,} lines."

    def whole(self, definitions):
        """How many definitions these rest on with all that is left out, and how many lines these have."""
        found, waiting = {it.key: it for it in definitions}, list(definitions)
        while waiting:
            for it in self.specs.used(waiting.pop()):
                if isinstance(it, Definition) and it.key not in found:
                    found[it.key] = it
                    waiting.append(it)
        return len(found), sum(len(it.text()) for it in found.values())

    def tie(self, what, *functions):
        places = []
        for crate, file, name, clauses in functions:
            function = Function(self.root, crate, file, name)
            for it in clauses.split():
                function.clause(it)
            at = f": {', '.join(f'`{it}`' for it in clauses.split())}" if clauses else ""
            places.append(f"[`{name}`](../{function.path}) of `{crate}`{at}")
        return f"| {what} | {'; '.join(places)} |"

    def tied(self, crate, file, name, clauses):
        """The clauses of a function to which code is held, so that a weaker one changes the page."""
        it = Function(self.root, crate, file, name, clauses.split())
        yield from ["", f"[`{name}`](../{it.path}) of `{crate}`:", "", "```rust", *it.signature, *it.clauses, "```"]

    def part(self, section):
        for function in section.functions:
            yield from ["", f"[`{function.name}`](../{function.path}) of `{function.crate}`:", "", "```rust", *function.text(), "```"]
        if section.also:
            yield from ["", f"Of the same words are the contracts of {', '.join(f'[`{it.name}`](../{it.path})' for it in section.also)}."]
        roots = [(key, f"`{it.name}`") for key, it in self.roots[self.sections.index(section)].items() if key in self.titles]
        yield from ["", Links("The clauses say " if section.functions else "They are ", roots, ".")]
        for module, definitions in section.modules():
            yield from ["", Heading(3, f"{crate_of(module.path)}: {inside(module.path)}"), ""]
            yield f"From [{inside(module.path)}.antt](..{module.path[len(self.root):]}.antt). {plain(module.head)}".rstrip()
            linked = set()
            for definition in definitions:
                yield from self.shown(definition, linked)
        if section.types:
            yield from ["", Heading(3, f"Types of the code, part {self.sections.index(section) + 1}"), ""]
            yield "A definition may name a type of the Rust code. These are its fields, or its variants, as the code has them."
            for it in section.types.values():
                yield from ["", Heading(4, self.titles[it.key], it.key), "```rust", *it.text(), "```"]
                yield from self.uses(it, set())

    def shown(self, it, linked):
        notes = [plain(note) for note in it.notes]
        yield ""
        yield from (line for note in notes for line in (note, ""))
        yield from [Heading(4, self.titles[it.key], it.key), "```agda", *it.rounds, *it.text(), "```"]
        yield from self.uses(it, linked)

    def uses(self, it, linked):
        """A line that links what a definition or a type names of other modules, each name once in a module."""
        is_near = lambda one: isinstance(one, Definition) and isinstance(it, Definition) and one.module is it.module and one.key in self.titles
        named = [one for one in it.uses if not isinstance(one, Kit) and one.key not in linked and not is_near(one)]
        linked |= {one.key for one in named}
        shown = [(one.key, f"`{one.name}`") for one in named if one.key in self.titles]
        left = ", ".join(f"`{one.name}`" for one in named if one.key in self.left_out)
        if shown or left:
            behind = "." * bool(shown) + " " * bool(shown and left) + f"[Left out](#what-may-be-skipped): {left}." * bool(left)
            yield Links("Uses " * bool(shown), shown, behind)


class Heading:
    def __init__(self, depth, text, key=None):
        self.depth, self.text, self.key = depth, text, key


class Links:
    """A line of links to what is shown."""

    def __init__(self, before, items, behind):
        self.before, self.items, self.behind = before, items, behind


def plain(comment):
    """A comment that stands by itself, as a line of text. The name of a group of definitions is set off."""
    lines = [re.sub(r"^ *--( ----)? ?", "", it) for it in comment]
    if comment and " ---- " in comment[0][:12]:
        lines[0] = f"**{lines[0][:1].upper()}{lines[0][1:].rstrip('.')}.**"
    return " ".join(lines)


def statement_page(root):
    """The lines of docs/STATEMENT.md."""
    yield from Statement(root).page()
