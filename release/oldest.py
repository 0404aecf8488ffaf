"""The oldest glibc that a release runs on: what is linked with in its place, and whether what was linked keeps to it.

A binary names of each symbol of glibc the version that it was linked with, and an earlier glibc refuses a later version. So a release is linked with
stand-ins of that glibc's libraries, which define its names (release/glibc-2.31) and nothing else, with what it lacks (older.c), and programs with how they
begin (begin.c). Then each name that a binary asks for is looked up in the same list, whoever linked it.
"""
import functools
import os
import re
import subprocess

from binaries import libraries, said_of

HERE = os.path.dirname(os.path.realpath(__file__))
OLDEST = "2.31"
ROW = re.compile(r"(?m)^(\S+) (GLIBC_\S+): (.+)$")
# A symbol that a binary asks for, or has a copy of, as `objdump -T` has it: whether it is weak, where it is, its version and its name.
ASKED = re.compile(r"(?m)^[0-9a-f]+ .(.).{5} (\S+)\t[0-9a-f]+ +(?:Base +|\(?(\w[\w.]*)\)? +)?(?:0x\w+ )?(\w+)$")
# What a binary asks of one library before it begins, as `objdump -p` has it.
OF_LIBRARY = re.compile(r"required from (\S+):\n((?: +0x.*\n)*)")


class TooNew(Exception):
    """What of a release a glibc of that version would refuse."""


@functools.cache
def names():
    """Of each name its library, its version and, where it is data, its size."""
    with open(f"{HERE}/glibc-{OLDEST}", encoding="ascii") as file:
        rows = ROW.findall(file.read())
    parted = [(library, version, it.partition("=")) for library, version, line in rows for it in line.split()]
    return {name: (library, version, int(size or 0)) for library, version, (name, _, size) in parted}


def made(*words):
    subprocess.run(words, check=True, stdin=subprocess.DEVNULL)


def stand_in(folder, library):
    """Makes a shared library with its names, each of its version, and no code."""
    text, versions = ".data\n", {}
    for name, (_, version, size) in ((name, it) for name, it in names().items() if it[0] == library):
        kind = f".type {name}, @object\n.size {name}, {size}\n" if size else f".type {name}, @function\n"
        text += f".globl {name}\n{kind}{name}: .zero {size or 1}\n"
        versions.setdefault(version, []).append(name)
    with open(f"{folder}/{library}.s", "w", encoding="ascii") as file:
        file.write(text)
    with open(f"{folder}/{library}.map", "w", encoding="ascii") as file:
        file.writelines(f"{version} {{ {'; '.join(found)}; }};\n" for version, found in versions.items())
    of_versions = f"-Wl,--version-script,{folder}/{library}.map"
    made("cc", "-shared", "-nostdlib", f"-Wl,-soname,{library}", of_versions, f"{folder}/{library}.s", "-o", f"{folder}/{library}")


def stand_ins(folder):
    """Makes the libraries of that glibc in this folder; answers the flag with which a release is linked with them, and with no later ones."""
    os.makedirs(folder)
    there = sorted({library for library, _, _ in names().values()})
    for library in there:
        stand_in(folder, library)
    for it in ("older", "begin"):
        made("cc", "-std=c11", "-O2", "-Wall", "-Wextra", "-Werror", "-fPIC", "-c", f"{HERE}/{it}.c", "-o", f"{folder}/{it}.o")
    made("ar", "rcsD", f"{folder}/older.a", f"{folder}/older.o", f"{folder}/begin.o")
    own = subprocess.run(["cc", "-print-file-name=libc_nonshared.a"], stdout=subprocess.PIPE, text=True, check=True).stdout.strip()
    others = " ".join(f"{folder}/{it}" for it in there if it != "libc.so.6")
    with open(f"{folder}/libc.so", "w", encoding="utf-8") as file:
        file.write(f"GROUP ( {folder}/libc.so.6 {folder}/older.a {own} AS_NEEDED ( {others} ) )\n")
    for it in ("libpthread", "libdl"):
        os.symlink(next(found for found in there if found.startswith(f"{it}.")), f"{folder}/{it}.so")
    return f"-L{folder}"


def strange_names(path, others):
    """What one binary asks for that is in none of these libraries, or in one that the binary does not load. What is weak may be lacking, and names that
    begin as the others say are of whoever loads it."""
    loaded = libraries([path])
    for weak, where, version, name in ASKED.findall(said_of(path, "-T")):
        library, its, _ = names().get(name, ("", None, 0))
        if where == "*UND*" and not version and weak != "w" and not name.startswith(others):
            yield f"{name}, which nothing has"
        elif version.startswith("GLIBC_") and version != its:
            yield f"{name}@{version}"
        elif version == its and library not in loaded:
            yield f"{name} of {library}, which it does not load"


def strange_versions(path):
    """The versions that the loader would look for before it begins, and not find."""
    known = {(library, version) for library, version, _ in names().values()}
    for library, lines in OF_LIBRARY.findall(said_of(path, "-p")):
        yield from (f"{it} of {library}" for it in re.findall(r"(\S+)\n", lines) if (library, it) not in known)


def hold(paths, others=()):
    """Stops the release if one of these binaries asks for what that glibc lacks."""
    found = [f"{os.path.basename(path)}: {it}" for path in paths for it in (*strange_names(path, tuple(others)), *strange_versions(path))]
    if found:
        raise TooNew(f"this would not run with glibc {OLDEST}, or release/glibc-{OLDEST} lacks a name:\n" + "\n".join(found))


def hold_archive(path, room, flags):
    """The same of a static library, linked whole."""
    whole = f"{room}/{os.path.basename(path)}, linked whole"
    made("cc", "-shared", flags, "-Wl,--whole-archive", path, "-Wl,--no-whole-archive", "-o", whole)
    hold([whole])
