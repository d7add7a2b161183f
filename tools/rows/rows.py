"""A row: what the program is given, and what it has to answer."""
import os
import subprocess
import tempfile
from dataclasses import dataclass

STORE = "store"  # a row's file, as its words name it
UNREAD = object()  # the file is not looked at after the run
SECONDS = 60
FAILED_TURN = b"k refused 14 Device\n"
# what the usage begins with
USAGE = b"fkv 0.1.0 plays a script"


@dataclass(frozen=True)
class Row:
    name: str
    script: str
    wanted: str  # what is written; how it ends, where `ends` is set
    status: int = 0
    words: tuple = ()
    image: bytes = None  # what the file holds before the run; none where there is no such file
    left: object = UNREAD  # and what it holds after it
    ends: bool = False
    complaint: str = None  # what stands on standard error, where it is compared
    file: str = STORE  # the name of the row's file
    seconds: int = SECONDS  # it has to end within so many


def side_by_side(text):
    """A script and what is written, from lines `script line | answer`. A line whose left side is empty has one more answer to the
    line above, and a line without an answer has no `|`."""
    script, answers = [], []
    for line in text.strip().splitlines():
        asked, _, answer = (part.strip() for part in line.partition("|"))
        script += [asked] if asked else []
        answers += [answer] if answer else []
    return whole(script), whole(answers)


def whole(lines):
    return "".join(f"{line}\n" for line in lines)


def told(name, text, words="", **more):
    """A row whose script and answers stand side by side."""
    script, wanted = side_by_side(text)
    return Row(name, script, wanted, words=tuple(words.split()), **more)


def spelled(text):
    """The bytes of a script or of its answers; a byte that is no text is told as Python tells it."""
    return text.encode("utf-8", "surrogateescape")


def contents(path):
    """None where there is no file."""
    if not os.path.exists(path):
        return None
    with open(path, "rb") as file:
        return file.read()


def difference(program, row):
    """What the program answers otherwise than the row says; none where it answers so. It runs in a folder of its own."""
    with tempfile.TemporaryDirectory() as folder:
        path = os.path.join(folder, row.file)
        if row.image is not None:
            with open(path, "wb") as file:
                file.write(row.image)
        how = {"cwd": folder, "input": spelled(row.script), "stdout": subprocess.PIPE, "stderr": subprocess.PIPE, "timeout": row.seconds}
        try:
            ran = subprocess.run([program, *row.words], **how)
        except subprocess.TimeoutExpired:
            return f"it has not ended after {row.seconds} seconds"
        wanted = spelled(row.wanted)
        is_other = not ran.stdout.endswith(wanted) if row.ends else ran.stdout != wanted
        if ran.returncode != row.status:
            return f"status {ran.returncode}, and not {row.status}{', and ' + first_other(ran.stdout, wanted) if is_other else ''}"
        if is_other:
            return first_other(ran.stdout, wanted)
        if other := other_complaint(ran, row):
            return other
        if row.left is not UNREAD and contents(path) != row.left:
            return first_byte(contents(path), row.left)
        return None


def other_complaint(ran, row):
    """What is on standard error otherwise than it has to be: these words, where the row has them. Else a line where the status is above 0,
    one where a turn's device failed, behind words that are refused the usage, and nothing more."""
    if row.complaint is not None:
        is_other = ran.stderr != spelled(row.complaint)
        return f"on standard error stands {ran.stderr!r}, and not {row.complaint!r}" if is_other else None
    told, usage, _ = ran.stderr.partition(USAGE)
    lines = told.splitlines(keepends=True)
    count = (ran.returncode > 0) + (FAILED_TURN in ran.stdout)
    if len(lines) != count or not all(it.startswith(b"fkv: ") and it.endswith(b"\n") for it in lines):
        return f"on standard error stands {ran.stderr!r}, and not {count} lines"
    if bool(usage) != ran.stdout.startswith(b"options"):
        return f"the usage stands on standard error where words aren't refused, or not where they are: {ran.stderr!r}"
    return None


def first_other(written, wanted):
    """The first line that is written otherwise."""
    lines = [output.decode("utf-8", "replace").split("\n") for output in (written, wanted)]
    number = next((n for n, (one, other) in enumerate(zip(*lines)) if one != other), min(map(len, lines)))
    one, other = (part[number] if number < len(part) else None for part in lines)
    return f"line {number + 1} of what is written is {one!r}, and not {other!r}"


def first_byte(held, wanted):
    if held is None or wanted is None:
        return "the file is there" if wanted is None else "there is no file"
    place = next((n for n, (one, other) in enumerate(zip(held, wanted)) if one != other), min(len(held), len(wanted)))
    return f"the file of {len(held)} bytes, which should be {len(wanted)}, is another from byte {place} on"
