"""Makes the page fkv.3 of the headers' own text.

A header is comments and code, parted by blank lines. A comment right above code is the text of that code, and any other one a part of
the page. Lines of a comment that are set in by four columns or more are shown as they are, and so is code.
"""
import re

from library import HEADERS, declared, header, version

SECTION = re.compile(r"/\* -+ ([^-].*?) -+ \*/$")
# Which lines are for the compiler alone.
GUARDS = re.compile(r"#(ifndef|define) FKV_(POSIX_)?H$|#(include|ifdef|endif)|extern \"C\"|}$")
HEAD = r""".TH FKV 3 "" "fkv @VERSION@" "Library calls"
.SH NAME
@NAMES@ \- a key-value store of 64-bit words in a file
.SH SYNOPSIS
.nf
.B #include <fkv_posix.h>
.PP
cc main.c $(pkg\-config \-\-cflags \-\-libs fkv)
.fi
"""
TAIL = """.SH SEE ALSO
.BR fkv (1),
.BR fkv_look (1),
.BR fkv_renew (1)
"""


def escaped(line):
    """A line that roff shows as it is."""
    line = line.replace("\\", "\\e").replace("-", "\\-")
    return f"\\&{line}" if line[:1] in (".", "'") else line


def shown(lines):
    """Lines that stay as they are."""
    return [".PP", ".EX", *map(escaped, lines), ".EE"]


def bare(comment):
    """A comment's lines without what makes them one."""
    text = re.sub(r"^/\*+ ?|\s*\*/$", "", comment)
    return [re.sub(r"^ \* ?", "", it).rstrip() for it in text.strip("\n").split("\n")]


def filled(lines):
    """A comment's lines as paragraphs. Those that are set in stay as they are."""
    made, before = [], None
    for line in lines:
        kind = None if not line else "set in" if line.startswith("  ") else "text"
        if kind != before and before == "set in":
            made.append(".EE")
        if kind and kind != before:
            made += [".PP", ".EX"] if kind == "set in" else [".PP"]
        if kind:
            # (what a call gives begins a line of its own)
            made += [".br", escaped(line)] if line.startswith("0;") and before else [escaped(line)]
        before = kind
    return made + ([".EE"] if before == "set in" else [])


def parts(text):
    """The parts of a header, each a comment and the code right below it. Either may be empty."""
    comment = None
    for block in re.split(r"\n\s*\n(?=\S)", text.strip()):
        while block:
            its = re.match(r"/\*.*?\*/\n?", block, re.S)
            if its and not SECTION.match(its[0].strip()):
                comment = [*(comment or []), *bare(its[0].strip())]
                block = block[its.end():]
                continue
            if its:
                yield its[0].strip(), []
                block = block[its.end():]
                continue
            code = [it for it in block.split("\n") if not GUARDS.match(it) or it.startswith("} ")]
            yield comment or [], code
            comment, block = None, ""
        if comment is not None:
            yield comment, []
            comment = None


def body(name):
    """A header's part of the page."""
    made = [f".SH {name.upper()}"]
    for comment, code in parts(header(name)):
        if isinstance(comment, str):
            made.append(f".SS {escaped(SECTION.match(comment)[1])}")
            continue
        its = filled(comment)
        if any(it.strip() for it in code):
            made += shown([it for it in code if it.strip()])
            its = [".RS 4", *its, ".RE"] if its else its
        made += its
    return "\n".join(made) + "\n"


def calls():
    """The names of all calls, those too that the headers define themselves."""
    text = "".join(header(it) for it in HEADERS)
    return [*declared(), *re.findall(r"^static inline [^(]*?(fkv_\w+)\(", text, re.M)]


def page():
    """The page."""
    head = HEAD.replace("@VERSION@", version()).replace("@NAMES@", ", ".join(["fkv", *calls()]))
    return head + "".join(body(it) for it in reversed(HEADERS)) + TAIL
