"""Installs the library into a folder, and uses it there as a stranger would: by pkg-config, by CMake and by man."""
import os
import re
import shutil
import subprocess
import sys
import tempfile

from installing import PROGRAMS, install
from library import SONAME
from manual import calls

PREFIX = "/opt/fkv"
PROJECT = """cmake_minimum_required(VERSION 3.10)
project(tried C)
find_package(fkv 0.1 REQUIRED)
foreach(kind fkv fkv_static)
    add_executable(by_${kind} main.c)
    target_link_libraries(by_${kind} fkv::${kind})
endforeach()
"""
# Which versions a program may ask for, when the library is 0.1.0.
ASKED = {"0.1": True, "0.1.0": True, "0.2": False, "0.0": False, "1.0": False, "0.1.1": False}
ASKING = """set(PACKAGE_FIND_VERSION "${ASKED}")
string(REGEX MATCH "^([0-9]+)\\\\.([0-9]+)" found "${ASKED}")
set(PACKAGE_FIND_VERSION_MAJOR "${CMAKE_MATCH_1}")
set(PACKAGE_FIND_VERSION_MINOR "${CMAKE_MATCH_2}")
include("${PACKAGE}")
message("${PACKAGE_VERSION_COMPATIBLE}")
"""
SECONDS = 120


def stop(text):
    sys.exit(f"tools/face/installed.py: {text}")


def call(*words, **how):
    """What a command writes, which has to end well."""
    ran = subprocess.run(words, stdin=subprocess.DEVNULL, stdout=subprocess.PIPE, stderr=subprocess.STDOUT, text=True, timeout=SECONDS, check=False, **how)
    if ran.returncode:
        stop(f"{' '.join(words)} ended with status {ran.returncode}\n{ran.stdout[-3000:]}")
    return ran.stdout


def is_there(*names):
    """Whether these commands are there. It says which isn't."""
    missing = [it for it in names if not shutil.which(it)]
    for it in missing:
        print(f"tools/face/run: {it} is missing, so what needs it isn't tried over an installation", file=sys.stderr)
    return not missing


def wants(what, got, wanted):
    if got != wanted:
        stop(f"{what}: {got!r}, and should be {wanted!r}")


def files(room, folder, root):
    """What is installed, with two of three programs: the paths, and nothing else."""
    os.makedirs(f"{room}/programs")
    for name in PROGRAMS[:2]:
        with open(f"{room}/programs/{name}", "w", encoding="utf-8") as file:
            file.write("#!/bin/sh\n")
    install(folder, f"{room}/programs", PREFIX, f"{room}/root")
    pages = ["man1/fkv.1", "man1/fkv_look.1", "man3/fkv.3", *(f"man3/{it}.3" for it in calls())]
    wanted = ["bin/fkv", "bin/fkv_look", "include/fkv.h", "include/fkv_posix.h", "include/fkv.hpp", "lib/libfkv.a", "lib/libfkv.so", f"lib/{SONAME}"]
    wanted += ["lib/cmake/fkv/fkvConfig.cmake", "lib/cmake/fkv/fkvConfigVersion.cmake", "lib/pkgconfig/fkv.pc", *(f"share/man/{it}" for it in pages)]
    got = [os.path.relpath(f"{at}/{it}", root) for at, _, names in os.walk(root) for it in names]
    wants("what is installed", sorted(got), sorted(wanted))
    wants("whether a program can be called", os.access(f"{root}/bin/fkv_look", os.X_OK), True)
    left = [it for it in got if it.endswith((".cmake", ".pc", ".1", ".3")) and re.search("@[A-Z]+@", open(f"{root}/{it}", encoding="utf-8").read())]
    wants("what has a mark left", left, [])


def by_pkg_config(room, root, compiler, output):
    """A program over the shared library."""
    env = {**os.environ, "PKG_CONFIG_PATH": f"{root}/lib/pkgconfig", "PKG_CONFIG_SYSROOT_DIR": f"{room}/root"}
    words = call("pkg-config", "--cflags", "--libs", "fkv", env=env).split()
    call(*compiler, "main.c", *words, "-o", "by_pkg_config", cwd=room)
    folder = tempfile.mkdtemp(dir=room)
    wants("a program by pkg-config", call(f"{room}/by_pkg_config", cwd=folder, env={**os.environ, "LD_LIBRARY_PATH": f"{root}/lib"}), output)
    wants("what it is linked with", SONAME in call("objdump", "-p", f"{room}/by_pkg_config"), True)


def by_cmake(room, root, output):
    """Programs over both libraries, and which versions may be asked for."""
    with open(f"{room}/CMakeLists.txt", "w", encoding="utf-8") as file:
        file.write(PROJECT)
    call("cmake", "-S", room, "-B", f"{room}/cmake", f"-DCMAKE_PREFIX_PATH={root}")
    call("cmake", "--build", f"{room}/cmake")
    for kind, is_shared in (("fkv", True), ("fkv_static", False)):
        program, folder = f"{room}/cmake/by_{kind}", tempfile.mkdtemp(dir=room)
        wants("a program by CMake", call(program, cwd=folder), output)
        wants("what it is linked with", SONAME in call("objdump", "-p", program), is_shared)
    with open(f"{room}/asking.cmake", "w", encoding="utf-8") as file:
        file.write(ASKING)
    for asked, fits in ASKED.items():
        words = [f"-DASKED={asked}", f"-DPACKAGE={root}/lib/cmake/fkv/fkvConfigVersion.cmake"]
        wants(f"whether version {asked} is there", call("cmake", *words, "-P", f"{room}/asking.cmake").strip(), "TRUE" if fits else "FALSE")


def by_man(root):
    """Each page is shown without a complaint, and that of a call is the library's."""
    env = {**os.environ, "MANPATH": f"{root}/share/man", "LC_ALL": "C.UTF-8", "MANWIDTH": "100"}
    for page in ("man1/fkv.1", "man1/fkv_look.1", "man3/fkv.3"):
        ran = subprocess.run(["man", "--warnings", "-l", f"{root}/share/man/{page}"], env=env, capture_output=True, text=True, timeout=SECONDS, check=False)
        wants(f"the complaints of {page}", (ran.returncode, ran.stderr), (0, ""))
    shown = call("man", "3", "fkv_open_file", env=env)
    wants("the page of a call", "FKV(3)" in shown and "The file is locked (flock)" in re.sub(r"\s+", " ", shown), True)


def installed(folder, compiler, source, output):
    """Tries an installation of the folder's library by a program in C, which writes this."""
    with tempfile.TemporaryDirectory(prefix="installed-") as room:
        root = f"{room}/root{PREFIX}"
        files(room, folder, root)
        with open(f"{room}/main.c", "w", encoding="utf-8") as file:
            file.write(source)
        if is_there("pkg-config"):
            by_pkg_config(room, root, compiler, output)
        if is_there("cmake"):
            by_cmake(room, root, output)
        # (where manuals are left out, the command is one that says so)
        if is_there("man", "groff"):
            by_man(root)
    return "an installation is used by pkg-config, CMake and man"
