"""What a release's binaries rest on, and what they name."""
import os
import re
import subprocess

from archive import below

GLIBC = re.compile(r"\bGLIBC_(\d+(?:\.\d+)+)\b")
NEEDED = re.compile(r"NEEDED +(\S+)")


def is_binary(path):
    if not os.path.isfile(path) or os.path.islink(path):
        return False
    with open(path, "rb") as file:
        return file.read(4) == b"\x7fELF"


def binaries(folder):
    return [f"{folder}/{it}" for it in below(folder) if is_binary(f"{folder}/{it}")]


def said_of(path, option):
    return subprocess.run(["objdump", option, path], stdout=subprocess.PIPE, text=True, check=True).stdout


def newest_glibc(folder):
    """The version of glibc from which on all below the folder run, by the versions of the symbols that they use."""
    found = {tuple(map(int, it.split("."))) for path in binaries(folder) for it in GLIBC.findall(said_of(path, "-T"))}
    return ".".join(map(str, max(found)))


def libraries(paths):
    """The shared libraries that these need."""
    return sorted({it for path in paths for it in NEEDED.findall(said_of(path, "-p"))})


def check_paths(folder, paths):
    """A line for each file below the folder that names one of these paths, or a path among the temporary files."""
    known, wrong = [it.encode() for it in paths if it not in ("/", "")] + [b"/tmp/"], []
    for name in below(folder):
        path = f"{folder}/{name}"
        if os.path.isfile(path) and not os.path.islink(path) and (is_binary(path) or name.endswith((".a", ".pc", ".cmake"))):
            with open(path, "rb") as file:
                text = file.read()
            wrong += [f"{name}: {it.decode()}" for it in known if it in text]
    return wrong
