"""What the library says of itself, and what its shared form shows."""
import re
import subprocess
import sys

from library import SONAME, TOP, declared, version


def same(what, got, wanted):
    if got != wanted:
        sys.exit(f"tools/face/itself.py: {what}: {got!r}, and should be {wanted!r}")


def found(pattern, path):
    """What a file has of a pattern."""
    with open(f"{TOP}/{path}", encoding="utf-8") as file:
        return re.findall(pattern, file.read(), re.M)


def versions(printed, folder):
    """`printed` is what tests/versions.c prints: the library's version, and its formats. In build/ it is proved."""
    its, formats = printed.splitlines()
    numbers, _, built = its.partition(" ")
    same("the version of fkv_version", numbers, version())
    same("the version of face/rust", found(r'^version = "(.*)"$', "face/rust/Cargo.toml"), [version()])
    for file in ("fkv_look/src/options.rt", "fkv_renew/src/help.rt"):
        same(f"the version of crates/{file}", found(r'^const VERSION: &str = "(?:\w+ )?([\d.]+)(?:\\n)?";$', f"crates/{file}"), [version()])
    is_unproved = built.startswith("without proof, built from ") and folder != f"{TOP}/build"
    same("how it is built", "without proof" if is_unproved else built, "without proof" if is_unproved else "proved")
    same("the formats of fkv_formats", formats.split(), found(r'^const \w+_TEXT: \[u8; 8\] = \*b"(\w+)";$', "crates/fkv_record/src/shape_bytes.rt"))
    return f"the library is {its}, and opens {formats}"


def said(*words):
    return subprocess.run(words, check=True, capture_output=True, text=True).stdout


def shown(shared):
    """The shared library shows the calls of the headers, by its own name."""
    its = re.findall(r"^(\S+?)(?:@\S*)? [^A] ", said("nm", "-D", "--defined-only", "--format=posix", shared), re.M)
    same("the calls of the shared library", sorted(its), sorted(declared()))
    same("its name", re.findall(r"SONAME +(\S+)$", said("objdump", "-p", shared), re.M), [SONAME])
    return f"{len(its)} calls are shown by the shared library"
