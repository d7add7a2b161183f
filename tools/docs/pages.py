"""What holds of the pages that people read, whoever wrote them: README.md, CONTRIBUTING.md, docs/*.md and the READMEs of crates.

- Each relative link leads to a file that is there, and its anchor to a heading of that page.
- Each law that a page names is there, or a crate of laws, or a wrong body; and so is each file below tools/, face/ and docs/.
- Each function, type, file and command that a page names in code is there (named.py).
- Each fenced block is run by the gate: scripts and programs with their output on the pages of RUN, by the tool that it names. Every other
  block names the file that it quotes, as "```rust crates/fkv_example/src/main.rt", and each of its lines stands there, in their order.
"""
import glob
import os
import re

from named import Sources, named_faults

# Pages whose blocks are run from the page, with the languages, and by which tool.
RUN = {
    "README.md": {"script", "output"},  # tools/rows/run
    "docs/SCRIPTS.md": {"script", "output"},  # tools/rows/run
    "docs/EMBED.md": {"c", "cpp", "python", "rust", "output"},  # tools/face/run
}
# Pages that are made of the sources, blocks and all.
MADE = {"docs/STATEMENT.md"}

FENCED = re.compile(r"^```([^\n]*)\n(.*?)^```$", re.M | re.S)


def read(path):
    with open(path, encoding="utf-8") as file:
        return file.read()


def pages_in(root):
    """The pages, as paths below the root."""
    paths = [*glob.glob(f"{root}/*.md"), *glob.glob(f"{root}/docs/*.md"), *glob.glob(f"{root}/crates/*/README.md"), f"{root}/tools/names/shown.md"]
    return sorted(os.path.relpath(it, root) for it in paths)


def anchors_in(text):
    """The anchors of a page's headings, as GitHub makes them."""
    found = set()
    for heading in re.findall(r"^#+ +(.*?) *$", FENCED.sub("", text), re.M):
        plain = re.sub(r"\[([^]]*)\]\([^)]*\)", r"\1", heading)
        slug = re.sub(r"[^\w\- ]", "", plain.lower()).replace(" ", "-")
        count = 0
        while (anchor := f"{slug}-{count}" if count else slug) in found:
            count += 1
        found.add(anchor)
    return found


def links_in(text):
    """The relative links of a page: the target's path, '' for the page itself, and the anchor."""
    prose = re.sub(r"`[^`\n]*`", "", FENCED.sub("", text))
    for target in re.findall(r"\]\(([^()\s]+)\)", prose):
        if not re.match(r"[a-z]+:", target):
            path, _, anchor = target.partition("#")
            yield path, anchor


def link_faults(root, page, texts, anchors):
    """What is wrong with the links of a page. `anchors` are those of each page."""
    for path, anchor in links_in(texts[page]):
        target = os.path.normpath(os.path.join(os.path.dirname(page), path)) if path else page
        if not os.path.exists(f"{root}/{target}"):
            yield f"{page}: there is no {target}"
        elif anchor and target not in anchors:
            yield f"{page}: {target} has no headings, so no #{anchor}"
        elif anchor and anchor not in anchors[target]:
            yield f"{page}: {target} has no heading #{anchor}"


def squeezed(text):
    """A program's text without comments, space, and commas before a closing bracket."""
    bare = re.sub(r"/\*.*?\*/|(?<!:)//[^\n]*", "", text, flags=re.S)
    return re.sub(r",(?=[)\]}])", "", re.sub(r"\s", "", bare))


def block_faults(root, page, text):
    """What is wrong with the fenced blocks of a page: who runs each, or where it is quoted from."""
    run = []
    for words, block in FENCED.findall(text):
        language, _, rest = words.partition(" ")
        if language in RUN.get(page, ()) and not os.path.isfile(f"{root}/{rest}"):
            run.append(language)
            continue
        if not os.path.isfile(f"{root}/{rest}"):
            yield f"{page}: nothing runs a block of '{words}', and it names no file that it quotes"
            continue
        text_there, at = squeezed(read(f"{root}/{rest}")), 0
        for line in block.splitlines():
            wanted = squeezed(line).rstrip(",")
            found = text_there.find(wanted, at)
            if found < 0:
                yield f"{page}: the block of '{words}' isn't as that file has it, from here on: {line}"
                break
            at = found + len(wanted)
    if "output" in run[::2] or any(it != "output" for it in run[1::2]) or len(run) % 2:
        yield f"{page}: each script and each program has its output right below it"


def known_laws(root):
    """What a name law_.. may be: a law, a crate, or an edit that must fail."""
    found = set(os.listdir(f"{root}/crates"))
    found |= {os.path.basename(it)[: -len(".edit")] for kind in ("must-fail", "audit") for it in glob.glob(f"{root}/crates/*/{kind}/*.edit")}
    for path in glob.glob(f"{root}/crates/*/src/**/*.rt", recursive=True):
        found |= set(re.findall(r"\bfn (law_\w+)", read(path)))
    return found


def name_faults(root, page, text, laws):
    """What a page names that isn't there."""
    for name in sorted(set(re.findall(r"\blaw_\w+", text)) - laws):
        yield f"{page}: there is no {name}"
    for path in sorted(set(re.findall(r"`((?:tools|face|docs)/[\w./]*\w)`", text))):
        if not os.path.exists(f"{root}/{path}"):
            yield f"{page}: there is no {path}"


def faults_of(root):
    """Each fault of a page, as a line."""
    texts = {page: read(f"{root}/{page}") for page in pages_in(root)}
    anchors = {page: anchors_in(text) for page, text in texts.items()}
    laws, sources = known_laws(root), Sources(root)
    for page, text in texts.items():
        yield from link_faults(root, page, texts, anchors)
        yield from name_faults(root, page, text, laws)
        if page not in MADE:
            yield from named_faults(sources, page, FENCED.sub("", text))
            yield from block_faults(root, page, text)
