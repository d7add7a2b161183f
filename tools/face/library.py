"""What is alike in a library that is proved and one that isn't: the parts in C, the archive, the shared library, and where they are left."""
import glob
import os
import re
import shutil
import subprocess

TOP = os.path.realpath(f"{os.path.dirname(os.path.realpath(__file__))}/../..")
KIT = os.path.dirname(os.path.dirname(os.path.realpath(shutil.which("rt") or "/opt/rattle/bin/rt")))
CC = os.environ.get("CC", "cc")
WORDS = ["-std=c11", "-O2", "-fPIC", "-Wall", "-Wextra", "-pedantic", "-Werror"]
HEADERS = ["fkv.h", "fkv_posix.h"]
# What is copied beside the library: that of C++ declares no call.
COPIED = [*HEADERS, "fkv.hpp"]
# Programs that were linked with a library of this name run with each later one of it.
SONAME = "libfkv.so.0"


def header(name):
    with open(f"{TOP}/face/{name}", encoding="utf-8") as file:
        return file.read()


def version():
    """The version that fkv.h says, as "0.1.0"."""
    return ".".join(re.search(rf"^#define FKV_VERSION_{part} (\d+)$", header("fkv.h"), re.M)[1] for part in ("MAJOR", "MINOR", "PATCH"))


def declared():
    """The calls that both headers declare, but those that they define themselves."""
    return [it for name in HEADERS for it in re.findall(r"^(?!static|typedef)\w[\w ]*?[ *](fkv_\w+)\([^{]*?\);$", header(name), re.M | re.S)]


def compile_parts(room, words):
    """Compiles face/*.c into the room with these words more, and gives the names of what it made."""
    names = []
    for source in sorted(glob.glob(f"{TOP}/face/*.c")):
        names.append(f"{os.path.basename(source)[:-2]}.o")
        subprocess.run([CC, *WORDS, *words, "-c", source, "-o", f"{room}/{names[-1]}"], check=True)
    return names


def take_kit(room):
    """Copies what the library calls of the kit into the room, as kit.a. Its memory calls fkv_malloc of face/fkv_memory.c in place of malloc."""
    shutil.copy(f"{KIT}/c/liblibc_c.a", f"{room}/kit.a")
    subprocess.run(["objcopy", "--redefine-sym", "malloc=fkv_malloc", f"{room}/kit.a"], check=True)


def merge(room, archives, objects):
    """Makes libfkv.a in the room. The script takes no path, only names of files there."""
    lines = ["CREATE libfkv.a", *(f"ADDLIB {it}" for it in archives), *(f"ADDMOD {it}" for it in objects), "SAVE", "END", ""]
    subprocess.run(["ar", "-M"], input="\n".join(lines), text=True, check=True, cwd=room)


def link(room):
    """Makes the shared library of the room's libfkv.a. It shows what the headers declare, and nothing else."""
    with open(f"{room}/shown", "w", encoding="utf-8") as file:
        file.write(f"FKV_0 {{ global: {'; '.join(declared())}; local: *; }};\n")
    words = [f"-Wl,-soname,{SONAME}", f"-Wl,--version-script={room}/shown", "-Wl,-z,defs", "-Wl,-z,relro", "-Wl,-z,now"]
    whole = ["-Wl,--whole-archive", f"{room}/libfkv.a", "-Wl,--no-whole-archive"]
    subprocess.run([CC, "-shared", *words, *whole, "-pthread", "-o", f"{room}/{SONAME}"], check=True)


def leave(room, folder):
    """Puts the library into the folder, beside its headers. A program that runs with an older one goes on with that."""
    os.makedirs(folder, exist_ok=True)
    link(room)
    os.symlink(SONAME, f"{room}/libfkv.so")
    for name in COPIED:
        shutil.copy(f"{TOP}/face/{name}", room)
    for name in ["libfkv.a", SONAME, "libfkv.so", *COPIED]:
        made = f"{folder}/.{name}.{os.getpid()}"
        if os.path.islink(f"{room}/{name}"):
            os.symlink(SONAME, made)
        else:
            shutil.copy(f"{room}/{name}", made)
        os.replace(made, f"{folder}/{name}")
