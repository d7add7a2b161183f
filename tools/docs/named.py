"""Whether what pages name in code is there: functions, types and files in backquotes, and commands in backquotes or set in by four columns.

- A name with a capital, an underline or `()` stands somewhere in the sources, comments apart. Of `A::b` one source has both, or the crate A has b.
- A path is there, below the root, below build/, or in the page's crate; or on other pages in some crate.
- Of a command `make` has the target and the variable, a tool is there and has the option, and `rt` has the word.
"""
import glob
import os
import re

SOURCES = ("crates/*/src/**/*.rt", "crates/*/specs/**/*.antt", "crates/*/proofs/**/*.antt", "crates/*/must-fail/*", "crates/*/audit/*", "face/**/*", "tools/**/*", "Makefile")
LINES = {".rt": "//", ".rs": "//", ".antt": "--", ".py": "#", "": "#"}
BLOCKS = {".c", ".h", ".hpp", ".cpp"}
# What the sources needn't have: names of FASTER's functions and phases, which pages compare with ours, and what stands for any name.
OTHERS = set(
    "CPR_SHIFT_DETECTED CompletePending ComputeNewSafeToReclaimEpoch ContinueSession InternalRead InternalRmw InternalUpsert ProtectAndDrain REST "
    "StopSession TakeFullCheckpoint TakeHybridLogCheckpoint Unprotect NAME WHAT".split()
)
RT = set("all check ci doc expand fmt help lemma lib must-fail names new plant run seed selftest test tidy try verdict version".split())
NAME = re.compile(r"[A-Za-z_]\w*(?:(?:::|->|\.)[A-Za-z_]\w*)*(?:\(\))?")
PATH = re.compile(r"[\w.-]+(?:/[\w.-]+)+/?")
COMMAND = re.compile(r"(?:make|rt|cd|(?:tools|face)/[\w./]+)(?: .*)?")


def read(path):
    with open(path, encoding="utf-8", errors="replace") as file:
        return file.read()


def bare(path):
    """A source without its comments."""
    text, ending = read(path), os.path.splitext(path)[1]
    if ending in BLOCKS:
        return re.sub(r"/\*.*?\*/|//[^\n]*", "", text, flags=re.S)
    return re.sub(rf"{LINES[ending]}[^\n]*", "", text) if ending in LINES else text


class Sources:
    """The words of each source, its own name among them, and what `make` takes."""

    def __init__(self, root):
        self.root = root
        paths = {it for each in SOURCES for it in glob.glob(f"{root}/{each}", recursive=True) if os.path.isfile(it) and "/out/" not in it}
        self.words = {os.path.relpath(it, root): set(re.findall(r"\w+", f"{os.path.relpath(it, root)} {bare(it)}")) for it in sorted(paths)}
        self.all = {"README", "CONTRIBUTING"}.union(*self.words.values(), (it[:-3] for it in os.listdir(f"{root}/docs") if it.endswith(".md")))
        make = read(f"{root}/Makefile")
        self.targets = set(re.search(r"(?m)^\.PHONY: (.*)$", make)[1].split())
        self.variables = set(re.findall(r"\$\((?:if )?(\w+)", make))

    def have_both(self, one, other):
        is_crate = os.path.isdir(f"{self.root}/crates/{one}")
        at = (words for path, words in self.words.items() if not is_crate or path.startswith((f"crates/{one}/", "face/", "tools/face/")))
        return any(other in words and (is_crate or one in words) for words in at)

    def lack_name(self, span):
        """What of a name isn't there, if it looks like one of code."""
        names = re.findall(r"\w+", span)
        if len(names) == 1 and not re.search(r"[A-Z_]|\(\)", span):
            return None
        lacking = [it for it in names if it not in self.all and it not in OTHERS]
        if lacking:
            return lacking[0]
        pairs = [it for it in zip(names, names[1:]) if "::" in span and not self.have_both(*it)]
        return "::".join(pairs[0]) if pairs else None

    def lacks_path(self, page, span):
        if span.startswith("build/") or set(re.findall(r"\w+", span)) & OTHERS:
            return False
        crate = page.split("/")[1] if page.startswith("crates/") else "*"
        bases = ["", *(f"crates/{it}/{part}" for it in (crate, "*") for part in ("", "src/", "specs/", "proofs/"))]
        return not any(glob.glob(f"{self.root}/{base}{span.rstrip('/')}{end}") for base in bases for end in ("", ".rt", ".antt", ".edit"))

    def lack_command(self, span):
        """What of a command isn't there."""
        first, *words = re.split(r"#|\s{2,}", span)[0].split()
        if first == "make":
            targets = [it for it in words if re.fullmatch(r"\w[\w-]*", it)]
            variables = [it.split("=")[0] for it in words if re.match(r"[A-Z]+=", it)]
            return next((f"target {it}" for it in targets if it not in self.targets), next((f"variable {it}" for it in variables if it not in self.variables), None))
        if first == "rt":
            return None if not words or words[0] in RT else f"command rt {words[0]}"
        if first == "cd":
            return None if os.path.isdir(f"{self.root}/{words[0]}") else f"folder {words[0]}"
        path = f"{self.root}/{first}"
        if not os.path.exists(path):
            return first
        options = [it for it in words if re.fullmatch(r"--\w[\w-]*", it)]
        return next((f"option {it} of {first}" for it in options if os.path.isfile(path) and it not in read(path)), None)


def named_faults(sources, page, prose):
    """What a page names that isn't there. Its prose is what is outside of fenced blocks."""
    spans = sorted(set(re.findall(r"`([^`\n]+)`", prose)))
    lines = [it for it in re.findall(r"(?m)^ {4}(\S.*)$", prose) if COMMAND.fullmatch(it)]
    for span in spans:
        if NAME.fullmatch(span) and (lacking := sources.lack_name(span)):
            yield f"{page}: no source has {lacking}"
        elif PATH.fullmatch(span) and sources.lacks_path(page, span):
            yield f"{page}: there is no {span}"
    for span in [*(it for it in spans if COMMAND.fullmatch(it)), *lines]:
        if lacking := sources.lack_command(span):
            yield f"{page}: there is no {lacking}"
