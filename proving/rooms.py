"""Copies of crates to work on: a tree that a run makes for itself, and rooms, each with one crate and the libraries below it.

`rt` lets one command at a time work in a crate's folder and in those of the libraries below it. So what runs side by side runs in rooms.
"""
import contextlib
import fcntl
import hashlib
import os
import re
import shutil
import subprocess
import tempfile

from crates import PARTS

# What of a crate's out/ a check replaces where it changes it, and never writes into: a second name serves as a copy.
REPLACED = re.compile(r"\.oantt$|/judged$|/rlib/")
# What a check of the crate itself keeps in out/; those above it need the rest.
OWN_WORK = "incremental"


def link_or_copy(file, to):
    """Gives a file a second name where nothing writes into it, and else copies it."""
    if REPLACED.search(file):
        with contextlib.suppress(OSError):
            os.link(file, to)
            return
    shutil.copy2(file, to)


def copy_folder(folder, to, without=()):
    if os.path.isdir(folder):
        shutil.copytree(folder, to, symlinks=True, copy_function=link_or_copy, ignore=lambda _, names: [it for it in names if it in without])


def fill_room(room, crate, kept=None, below=True):
    """Puts the crate, and the built libraries below it, into the folder `room`. The crate gets a copy of the out/ that is `kept`, or none.
    It returns the crate's folder."""
    shutil.rmtree(room, ignore_errors=True)
    for it in crate.below() if below else ():
        copy_texts(it, f"{room}/crates/{it.name}")
        copy_folder(f"{it.folder}/out", f"{room}/crates/{it.name}/out", without=[OWN_WORK])
    copy_texts(crate, f"{room}/crates/{crate.name}")
    if kept:
        copy_folder(kept, f"{room}/crates/{crate.name}/out")
    top = os.path.dirname(os.path.dirname(crate.folder))
    shutil.copy2(f"{top}/HANDLES", f"{room}/HANDLES")
    with open(f"{room}/crates.txt", "w", encoding="utf-8") as file:
        file.write("".join(f"{it.line}\n" for it in [*crate.below(), crate]))
    return f"{room}/crates/{crate.name}"


def copy_texts(crate, to):
    """Copies what a check reads of a crate, with the times of its files."""
    for part in PARTS:
        if os.path.isdir(f"{crate.folder}/{part}"):
            shutil.copytree(f"{crate.folder}/{part}", f"{to}/{part}")


def changes_of(top):
    """What differs between the tree as it stands and its last commit: the files of it that are there, and those that are gone."""
    said = git(top, "status", "--porcelain=v1", "-z", "--untracked-files=all", "--no-renames").split("\0")
    paths = [it[3:] for it in said if it]
    return [it for it in paths if os.path.lexists(f"{top}/{it}")], [it for it in paths if not os.path.lexists(f"{top}/{it}")]


def clone(top, to):
    """Makes a fresh clone of the tree as it stands: its last commit, with what was changed since and is not ignored. Returns the changed paths."""
    subprocess.run(["git", "clone", "--quiet", "--no-tags", top, to], check=True, stdin=subprocess.DEVNULL)
    there, gone = changes_of(top)
    for it in gone:
        with contextlib.suppress(FileNotFoundError):
            os.remove(f"{to}/{it}")
    for it in there:
        os.makedirs(os.path.dirname(f"{to}/{it}"), exist_ok=True)
        shutil.copy2(f"{top}/{it}", f"{to}/{it}", follow_symlinks=False)
    return sorted([*there, *gone])


def git(top, *words):
    return subprocess.run(["git", *words], cwd=top, check=True, stdin=subprocess.DEVNULL, stdout=subprocess.PIPE, text=True).stdout


@contextlib.contextmanager
def workshop(top, what):
    """A new folder for this run, among the temporary files, removed at its end. One tree has one for each purpose, and always the same: a kit
    that notes where it worked notes the same places again."""
    name = hashlib.sha256(os.path.realpath(top).encode()).hexdigest()[:12]
    at = f"{tempfile.gettempdir()}/kawhopune-{what}-{os.geteuid()}-{name}"
    os.makedirs(at, mode=0o700, exist_ok=True)
    if os.lstat(at).st_uid != os.geteuid() or os.path.islink(at):
        raise OSError(f"{at} belongs to somebody else")
    with open(f"{at}/lock", "w", encoding="utf-8") as lock:
        try:
            fcntl.flock(lock, fcntl.LOCK_EX | fcntl.LOCK_NB)
        except BlockingIOError as error:
            raise OSError(f"another run of the same works in {at}: wait for it to end") from error
        shutil.rmtree(f"{at}/work", ignore_errors=True)
        os.makedirs(f"{at}/work")
        try:
            yield f"{at}/work"
        finally:
            shutil.rmtree(f"{at}/work", ignore_errors=True)
