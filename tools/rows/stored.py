"""The runs that are stored in runs/, and the scripts of the pages.

A run is a file: the program's words, the status, perhaps an image (packed by zlib, in base64) that the file `store` holds before the
run, the script and what is written. The scripts are random ones, of each kind those that reach most together, and what they write was told
by a model of the program that is none of its code:

    line_by_line    one script, with a check behind each crash
    lives           many short lives with commits of both kinds and torn bytes
    seeded          sessions and keeper interleaved by --seed, with checks
    images          images of the three formats, most of them with bytes changed, that the program opens and goes on with
    faulty_lines    scripts with a faulty line
    words           words of the program
"""
import base64
import pathlib
import re
import sys
import zlib

from rows import Row

HERE = pathlib.Path(__file__).resolve().parent
TOP = HERE.parent.parent
PAGES = (TOP / "README.md", TOP / "docs" / "SCRIPTS.md")
RUN = re.compile(
    r"words(?P<words>[^\n]*)\nstatus (?P<status>\d)\n(== image\n(?P<image>[\w+/=\n]*))?== script\n(?P<script>.*)== output\n(?P<output>.*)",
    re.DOTALL,
)
EXAMPLE = re.compile(
    r"^```script(?P<words>[^\n]*)\n(?P<script>.*?)^```\n.*?^```output\n(?P<output>.*?)^```$",
    re.DOTALL | re.MULTILINE,
)


def stored_run(path):
    run = RUN.fullmatch(path.read_bytes().decode())
    image = zlib.decompress(base64.b64decode(run["image"])) if run["image"] else None
    return Row(f"{path.parent.name}/{path.name}", run["script"], run["output"], int(run["status"]), tuple(run["words"].split()), image)


def stored_runs():
    return [stored_run(path) for path in sorted((HERE / "runs").glob("*/*"))]


def examples():
    return [row for page in PAGES for row in examples_of(page)]


def examples_of(page):
    """Each script of a page and the output below it, named by the heading above."""
    if not page.exists():
        sys.exit(f"there is no {page}, whose scripts are to be run")
    rows = []
    for section in re.split(r"^## ", page.read_text(), flags=re.MULTILINE)[1:]:
        title = section.split("\n", 1)[0]
        found = list(EXAMPLE.finditer(section))
        if len(found) != section.count("```script") or len(found) != section.count("```output"):
            sys.exit(f"{page}: a script without its output, or an output without a script: {title}")
        rows += [Row(f"{page.name}, {title}", it["script"], it["output"], words=tuple(it["words"].split())) for it in found]
    if not rows:
        sys.exit(f"{page} has no script")
    return rows
