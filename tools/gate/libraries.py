"""The libraries of a clone, as `rt` and `rt ci` leave them: whose they are, over which they were built, and which of them `rt check` takes."""
import functools
import hashlib
import os
import re
import shutil
import subprocess
import sys

sys.dont_write_bytecode = True
from crates import TOP, crates_in, in_order, read, sources

KIT = os.path.dirname(os.path.dirname(os.path.realpath(shutil.which("rt") or "/opt/rattle/bin/rt")))
sys.path.insert(0, f"{KIT}/bin")
import rtlib

# What comes of a library: it was ready, it is made so by its stamp or taken from another clone, it is removed, or there is none of these sources.
READY, STAMPED, TAKEN, REMOVED, LACKING = "ready", "stamped", "taken", "removed", "lacking"
ENDS = (READY, STAMPED, TAKEN, REMOVED, LACKING)


class Clone:
    """The libraries of one clone. Its crates and their sums are reckoned once."""

    def __init__(self, top):
        self.top, self.listed, self.known = top, crates_in(top), {}

    @functools.lru_cache(maxsize=None)
    def crate(self, name):
        folder = f"{self.top}/crates/{name}"
        if folder not in self.known:
            self.known[folder] = rtlib.Crate(folder, self.top, self.known)
        return self.known[folder]

    def has(self, name):
        return name in self.listed and os.path.isfile(f"{self.crate(name).rlib}/format")

    def rows(self, name, word):
        """What the lines of a library's format say that begin so."""
        return re.findall(rf"(?m)^{word} (.*)$", read(f"{self.crate(name).rlib}/format"))

    def sum(self, name):
        """What a library that is built over this one calls it by."""
        with open(f"{self.crate(name).rlib}/format", "rb") as file:
            return hashlib.sha256(file.read()).hexdigest()

    def stamp(self, name):
        path = f"{self.crate(name).folder}/out/rlib/stamp"
        return read(path) if os.path.isfile(path) else None

    def is_built(self, name):
        """Whether it has a library of these sources, by its stamp."""
        return self.has(name) and self.stamp(name) == self.crate(name).stamp()

    def is_over(self, name, others):
        """Whether the library was built over those that are below it in a clone. What `rt check` builds names none, so it must be newer than they are."""
        below, over = [it.name for it in self.crate(name).below()], dict(it.split() for it in self.rows(name, "over"))
        if not all(self.has(it) and others.has(it) for it in below):
            return False
        if over:
            return all(others.sum(it) == over.get(it) for it in below)
        return all(self.sum(it) == others.sum(it) and self.age(it) <= self.age(name) for it in below)

    def age(self, name):
        return os.path.getmtime(self.crate(name).rlib)

    def is_of_ci(self, name):
        """Whether `rt ci` has built the library of these sources."""
        if not self.has(name) or self.stamp(name) is not None or not self.rows(name, "over"):
            return False
        crate = self.crate(name)
        built, (files, folders) = os.path.getmtime(crate.rlib), sources(crate.folder)
        of_kit = read(f"{KIT}/rlibs/core.rlib/format").splitlines()[1].partition(" ")[2]
        is_named = {*self.rows(name, "dep")} == {*crate.of_kit, *(it.name for it in crate.deps)}
        return is_named and [of_kit] == self.rows(name, "rattle-build") and all(os.path.getmtime(it) < built for it in [*files, *folders])


def take(crate, rlib):
    """Takes the library of another clone: rt removes such a file before it makes it anew, and writes into none."""
    to = f"{crate.folder}/out/rlib"
    room = f"{to}.{os.getpid()}"
    os.makedirs(room)
    subprocess.run(["cp", "-al", rlib, room], check=True)
    # (it is newer than those that were taken before it)
    os.utime(f"{room}/{os.path.basename(rlib)}")
    shutil.rmtree(to, ignore_errors=True)
    os.rename(room, to)


def warm(here, name, other, ready):
    """Makes a crate's library ready where that can be, and says how it was. `ready` are those below that are."""
    crate, is_built = here.crate(name), here.is_built(name)
    if all(it.name in ready for it in crate.below()):
        if is_built and here.is_over(name, here):
            return READY
        if not is_built and here.is_of_ci(name) and here.is_over(name, here):
            write_stamp(crate)
            return STAMPED
        if other and other.has(name) and other.crate(name).stamp() == crate.stamp():
            if (other.is_built(name) or other.is_of_ci(name)) and other.is_over(name, here):
                take(crate, other.crate(name).rlib)
                write_stamp(crate)
                return TAKEN
    if is_built:
        shutil.rmtree(f"{crate.folder}/out/rlib")
    return REMOVED if is_built else LACKING


def write_stamp(crate):
    with open(f"{crate.folder}/out/rlib/stamp", "w", encoding="utf-8") as file:
        file.write(crate.stamp())


def remember_sums():
    """Has each crate's sum reckoned once: the toolchain reckons it once for each way that leads to the crate."""
    rtlib.Crate.stamp = functools.lru_cache(maxsize=None)(rtlib.Crate.stamp)


def warm_all(top, other=None):
    """Makes the libraries of a clone ready, lowest first, and gives how each of them was."""
    remember_sums()
    here, there = Clone(top), other and Clone(other)
    libraries = [it for it in in_order(here.listed) if here.crate(it).makes_rlib()]
    # (waits while rt works there, and keeps it out meanwhile)
    held = rtlib.lock([here.crate(it) for it in libraries])
    done, ready = {}, set()
    for it in libraries:
        done[it] = warm(here, it, there, ready)
        ready |= {it} if done[it] in (READY, STAMPED, TAKEN) else set()
    for it in held:
        os.close(it)
    return done
