"""What `make install` puts where."""
import os
import shutil

import manual
from library import COPIED, SONAME, TOP, version

PARTS = f"{TOP}/face/install"
PROGRAMS = ["fkv", "fkv_look", "fkv_renew"]


def part(name, prefix):
    """A file of face/install with this version and this place."""
    with open(f"{PARTS}/{name}", encoding="utf-8") as file:
        text = file.read()
    for mark, its in (("@PREFIX@", prefix), ("@VERSION@", version()), ("@SERIES@", version().rpartition(".")[0]), ("@SONAME@", SONAME)):
        text = text.replace(mark, its)
    return text


def texts(prefix):
    """The files that are made of a text, by their paths below the prefix."""
    its = {f"share/man/man3/{name}.3": ".so man3/fkv.3\n" for name in manual.calls()}
    its["share/man/man3/fkv.3"] = manual.page()
    its["lib/pkgconfig/fkv.pc"] = part("fkv.pc", prefix)
    its |= {f"lib/cmake/fkv/{name}": part(name, prefix) for name in ("fkvConfig.cmake", "fkvConfigVersion.cmake")}
    return its


def put(made, path, mode):
    """Puts a file that was made beside its path into place: a program that runs with an older one goes on with that."""
    os.chmod(made, mode)
    os.replace(made, path)


def install(folder, programs, prefix, dest=""):
    """Installs the folder's library, and those programs of the other folder that are there. Gives the paths below dest and prefix."""
    its = texts(prefix)
    copies = {f"include/{name}": (f"{folder}/{name}", 0o644) for name in COPIED}
    copies |= {"lib/libfkv.a": (f"{folder}/libfkv.a", 0o644), f"lib/{SONAME}": (f"{folder}/{SONAME}", 0o755)}
    for name in PROGRAMS:
        if os.path.isfile(f"{programs}/{name}"):
            copies[f"bin/{name}"] = f"{programs}/{name}", 0o755
            its[f"share/man/man1/{name}.1"] = part(f"{name}.1", prefix)
    link = "lib/libfkv.so"
    for path in sorted([*its, *copies, link]):
        whole = f"{dest}{prefix}/{path}"
        made = f"{whole}.{os.getpid()}"
        os.makedirs(os.path.dirname(whole), exist_ok=True)
        if path == link:
            os.symlink(SONAME, made)
            os.replace(made, whole)
        elif path in copies:
            shutil.copyfile(copies[path][0], made)
            put(made, whole, copies[path][1])
        else:
            with open(made, "w", encoding="utf-8") as file:
                file.write(its[path])
            put(made, whole, 0o644)
    return sorted([*its, *copies, link])
