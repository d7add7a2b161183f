"""Runs of `fkv` and `fkv_renew` over files of a folder, and what they say."""
import os
import subprocess
import sys

sys.path.append(os.path.join(os.path.dirname(os.path.abspath(__file__)), "..", "openings"))

FKV, FKV_RENEW = map(os.path.abspath, sys.argv[1:3])
SECONDS = 60
OPTIONS = "options\n"


def need(name, got, wanted):
    if got != wanted:
        sys.exit(f"{name}: {got!r}; it should be {wanted!r}")


def run_of(command, script=""):
    """The status, what is written, and the complaint."""
    run = subprocess.run(command, input=script, capture_output=True, text=True, timeout=SECONDS)
    return run.returncode, run.stdout, run.stderr


def played(path, script):
    """What `fkv` makes of a script over this file: its status, and its lines."""
    status, output, _ = run_of([FKV, "--file", path], script)
    return status, output.splitlines()


def renew(old, new, *words):
    return run_of([FKV_RENEW, old, new, *words])


def held(path):
    with open(path, "rb") as file:
        return file.read()


class Pair:
    """A store's file and the name of a new one, in a folder of their own."""

    def __init__(self, folder, image=b""):
        self.folder = os.path.join(folder, "pair")
        os.makedirs(self.folder, exist_ok=True)
        for name in os.listdir(self.folder):
            os.remove(os.path.join(self.folder, name))
        self.old, self.new = (os.path.join(self.folder, name) for name in ("old", "new"))
        self.image = image
        with open(self.old, "wb") as file:
            file.write(image)

    def names(self):
        return sorted(os.listdir(self.folder))

    def need_old(self, name):
        need(f"{name}: the old file", held(self.old) == self.image, True)

    def need_refused(self, name, answer, status, output):
        """The old file is as it was, no other file is there, and one line says why."""
        said = (answer[0], answer[1], answer[2].startswith("fkv_renew: "), answer[2].count("\n"))
        need(name, said, (status, output, True, 1))
        need(f"{name}: the folder", self.names(), ["old"])
        self.need_old(name)
