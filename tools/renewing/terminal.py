"""What a renewal tells where standard error is a terminal: each of its two steps as it begins, and then why it ended early."""
import os
import pty
import subprocess

from files import FKV_RENEW, OPTIONS, SECONDS, Pair, need, renew
from samples import CROWD

READING, WRITING = "fkv_renew: 1 of 2: reading the old store", "fkv_renew: 2 of 2: writing the new one"


def lines_from(terminal):
    """The lines that came to a terminal whose other end is closed: behind the last one reading fails."""
    text = b""
    try:
        while part := os.read(terminal, 4096):
            text += part
    except OSError:
        pass
    os.close(terminal)
    return text.decode().splitlines()


def watched(*words):
    """The status, what is written, and the lines on a terminal that is standard error. They are few, so nothing waits for their reader."""
    terminal, end = pty.openpty()
    run = subprocess.run([FKV_RENEW, *words], stdin=subprocess.DEVNULL, stdout=subprocess.PIPE, stderr=end, text=True, timeout=SECONDS)
    os.close(end)
    return run.returncode, run.stdout, lines_from(terminal)


def unwatched(*words):
    """The status, the lines on a terminal that is standard output, and what is written on standard error."""
    terminal, end = pty.openpty()
    run = subprocess.run([FKV_RENEW, *words], stdin=subprocess.DEVNULL, stdout=end, stderr=subprocess.PIPE, text=True, timeout=SECONDS)
    os.close(end)
    return run.returncode, lines_from(terminal), run.stderr


def on_terminals(folder):
    """How many of these there are; it ends the program where one goes wrong."""
    pair = Pair(folder, CROWD.image())
    status, output, _ = renew(pair.old, pair.new)
    need("a renewal without a terminal", status, 0)
    pair = Pair(folder, CROWD.image())
    need("a renewal on a terminal", watched(pair.old, pair.new), (0, output, [READING, WRITING]))
    pair = Pair(folder, CROWD.image())
    need("a renewal to a terminal", unwatched(pair.old, pair.new), (0, output.splitlines(), ""))
    small = Pair(folder, CROWD.image())
    full = "fkv_renew: the new store needs more pages, or larger ones: each pair takes a record"
    need("no room, on a terminal", watched(small.old, small.new, *"--shape 4 4 2 1 1 0 4".split()), (3, "refused 5 LogFull\n", [READING, WRITING, full]))
    foreign = Pair(folder, b"not a store\n" * 400)
    none = f'fkv_renew: the file "{foreign.old}" holds no store'
    need("a foreign file, on a terminal", watched(foreign.old, foreign.new), (3, "refused 15 NotAStore\n", [READING, none]))
    status, output, lines = watched(foreign.old)
    need("words, on a terminal", (status, output, len(lines)), (2, OPTIONS, 1))
    return 5
