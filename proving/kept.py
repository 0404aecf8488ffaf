"""What earlier runs proved, kept in the user's cache folder under the sum of all that it rests on (docs/GATE.md).

kept/NAME/SUM has a crate's out/, and a file `noted` with the size and the time of each of its files. passed/SUM says how many passed of
what leaves nothing: a mutant that was refused, a crate that was only read, a step that runs tests.
Each is made under another name and renamed once it is whole. So a run that is killed leaves nothing wrong, and runs side by side do not hurt each other.
"""
import contextlib
import functools
import hashlib
import json
import os
import re
import shutil
import tempfile
import time

import kit
from command import run
from crates import files_below
from rooms import OWN_WORK, copy_folder

TOP = os.path.dirname(os.path.dirname(os.path.realpath(__file__)))
# The most bytes of kept work, those of the disk that stay free, and the most sums of what passed.
MOST, SPARE, MOST_PASSED = 24_000_000_000, 5_000_000_000, 20_000
# How old what a killed run left has to be before it goes, in seconds.
OLD = 6 * 3600
# What words of the environment that a kit heeds begin with.
HEEDED = ("RT_", "RATTLE_", "ANTT_")
# The file by which a kit notes when its work was used.
USED = "rattle-last-used"


def cache_folder():
    """The user's folder for what this repository keeps between runs."""
    home = os.environ.get("XDG_CACHE_HOME", "")
    return f"{home if os.path.isabs(home) else os.path.expanduser('~/.cache')}/kawhopune"


def bytes_of(path):
    """The bytes of a file; none where there is none."""
    with contextlib.suppress(FileNotFoundError), open(path, "rb") as file:
        return file.read()
    return b""


# The code here that judges whether a crate is proved and passes. It is read once, as it is loaded: what is merged while this runs judges nothing here.
JUDGES = [bytes_of(f"{TOP}/proving/{it}.py") for it in ("command", "crates", "kept", "proofs", "rooms")]


def sum_of(*parts):
    """A sum of texts and bytes, each with its length."""
    made = hashlib.sha256()
    for part in parts:
        data = part if isinstance(part, bytes) else part.encode("utf-8", "surrogateescape")
        made.update(b"%d:%b" % (len(data), data))
    return made.hexdigest()


def sum_of_files(folder):
    """A sum of the files of a crate, by their paths and bytes, but of what is made in its out/."""
    names = [os.path.relpath(it, folder) for it in files_below(folder)]
    return sum_of(*(part for it in names if not it.startswith("out/") for part in (it, bytes_of(f"{folder}/{it}"))))


def sum_of_kit():
    """A sum of the kit and of what it heeds."""
    return sum_of_kit_of(kit.find_rt() or "rt")


@functools.lru_cache(maxsize=None)
def sum_of_kit_of(rt):
    version, what = run([rt, "version"], TOP), bytes_of(f"{os.path.dirname(os.path.dirname(os.path.realpath(rt)))}/WHAT")
    heeded = [f"{name}={value}" for name, value in sorted(os.environ.items()) if name.startswith(HEEDED)]
    return sum_of(str(version.status), version.text, what, *heeded)


def sum_of_crate(crate):
    """The sum of all that a crate's verdict rests on: its files and its line, those of each crate below it, HANDLES, the kit, and what judges."""
    texts = [part for it in [*crate.below(), crate] for part in (it.line, sum_of_files(it.folder))]
    return sum_of(sum_of_kit(), *JUDGES, bytes_of(f"{crate.folder}/../../HANDLES"), *texts)


def files_in(out, without=()):
    """The size and the time of the last change, in microseconds, of each file of a crate's out/, by its path there."""
    found = {}
    for path in (os.path.relpath(it, out) for it in files_below(out)):
        if os.path.basename(path) != USED and path.split("/")[0] not in without:
            told = os.lstat(f"{out}/{path}")
            found[path] = [told.st_size, told.st_mtime_ns // 1000]
    return found


def why_not_usable(folder):
    """Makes the folder, for its user alone, and returns why nothing can be kept in it, or None."""
    if f"{os.path.realpath(folder)}/".startswith(f"{TOP}/"):
        return f"{folder} lies in the tree"
    try:
        os.makedirs(folder, mode=0o700, exist_ok=True)
        if os.path.islink(folder) or os.lstat(folder).st_uid != os.geteuid():
            return f"{folder} belongs to somebody else"
        os.chmod(folder, 0o700)
        with tempfile.TemporaryFile(dir=folder):
            return None
    except OSError as error:
        return f"{error.filename or folder}: {error.strerror}"


def time_of(path):
    """When a file or folder was changed or used last; 0 where there is none."""
    with contextlib.suppress(OSError):
        return os.lstat(path).st_mtime
    return 0


def newest_first(folder):
    """The paths of what stands in a folder, what was changed or used last first."""
    with contextlib.suppress(OSError):
        return sorted((f"{folder}/{it}" for it in os.listdir(folder)), key=time_of, reverse=True)
    return []


class Kept:
    """What is kept for the crates of a tree. With `takes` false nothing kept is taken, and what this run proves is kept all the same."""

    def __init__(self, tell, takes=True):
        self.folder, self.tell, self.takes, self.is_full = cache_folder(), tell, takes, False
        why = why_not_usable(self.folder)
        if why:
            tell(f"nothing is kept for later runs, and nothing that was kept is used: {why}")
            self.folder, self.takes = None, False

    def at(self, name, total):
        return f"{self.folder}/kept/{name}/{total}"

    def take(self, crate, total, without=()):
        """Lays out what is kept of the crate under this sum, but for these parts of it. It returns whether the crate was seen to be proved over that
        work; None where nothing is kept, or what is kept was changed."""
        at, out = self.at(crate.name, total), f"{crate.folder}/out"
        if not self.takes or not os.path.isdir(at):
            return None
        shutil.rmtree(out, ignore_errors=True)
        noted = self.noted_if_whole(at)
        try:
            if not noted:
                return None
            copy_folder(f"{at}/out", out, without)
            if files_in(out, without) != {path: it for path, it in noted["files"].items() if path.split("/")[0] not in without}:
                raise OSError("it changed while it was copied")
            os.utime(at)
            # (what later steps run is to be newer than the sources of this tree)
            for it in (f"{out}/{name}" for name in os.listdir(out)):
                if os.path.isfile(it):
                    os.utime(it)
            return noted["held"]
        except OSError as error:
            self.tell(f"{crate.name}: what was kept of it could not be laid out, so it is not used: {error}")
            shutil.rmtree(out, ignore_errors=True)
            return None

    def noted_if_whole(self, at):
        """What was noted of kept work, if its files are as they were then; else it is removed."""
        try:
            noted = json.loads(bytes_of(f"{at}/noted"))
            if noted["files"] and noted["files"] == files_in(f"{at}/out") and isinstance(noted["held"], bool) and isinstance(noted["kit"], str):
                return noted
            why = "its files are not those that were kept"
        except (OSError, ValueError, KeyError, TypeError, AttributeError) as error:
            why = f"{type(error).__name__}: {error}"
        self.tell(f"{os.path.basename(os.path.dirname(at))}: what was kept of it was changed or cut short, so it is not used: {why}")
        self.drop(at)
        return None

    def newest(self, crate):
        """The out/ of the crate of this name that this kit kept or used last, or None."""
        for at in newest_first(f"{self.folder}/kept/{crate.name}") if self.takes else ():
            noted = self.noted_if_whole(at)
            if noted and noted["kit"] == sum_of_kit():
                return f"{at}/out"
        return None

    def keep(self, crate, total, is_held):
        """Keeps the crate's out/, if its files are still those of this sum."""
        if not self.folder or self.is_full or sum_of_crate(crate) != total:
            return
        try:
            if shutil.disk_usage(self.folder).free < SPARE:
                self.is_full = True
                raise OSError(f"the disk of {self.folder} has less than {SPARE // 10**9} GB free")
            at = self.at(crate.name, total)
            os.makedirs(os.path.dirname(at), mode=0o700, exist_ok=True)
            with self.made("new-") as new:
                copy_folder(f"{crate.folder}/out", f"{new}/it/out")
                with open(f"{new}/it/noted", "w", encoding="utf-8") as file:
                    json.dump({"held": is_held, "kit": sum_of_kit(), "files": files_in(f"{new}/it/out")}, file)
                self.drop(at)
                os.rename(f"{new}/it", at)
        except OSError as error:
            self.tell(f"{crate.name}: it is not kept for later runs: {error}")

    @contextlib.contextmanager
    def made(self, prefix):
        """A new folder beside what is kept, removed at the end."""
        at = tempfile.mkdtemp(prefix=prefix, dir=self.folder)
        try:
            yield at
        finally:
            shutil.rmtree(at, ignore_errors=True)

    def drop(self, at):
        """Removes what stands there. (Under another name first, so that nobody takes a part of it.)"""
        with contextlib.suppress(OSError), self.made("gone-") as gone:
            os.rename(at, f"{gone}/it")

    def has_passed(self, total):
        """How many passed of what has this sum; 0 where nothing of it is kept."""
        found = re.fullmatch(rb"(\d+) passed\n", bytes_of(f"{self.folder}/passed/{total}")) if self.takes else None
        with contextlib.suppress(OSError):
            if found:
                os.utime(f"{self.folder}/passed/{total}")
        return int(found[1]) if found else 0

    def note_passed(self, total, count=1):
        """Keeps that so many passed of what has this sum."""
        with contextlib.suppress(OSError):
            if self.folder:
                os.makedirs(f"{self.folder}/passed", mode=0o700, exist_ok=True)
                with self.made("new-") as new:
                    with open(f"{new}/it", "w", encoding="ascii") as file:
                        file.write(f"{count} passed\n")
                    os.replace(f"{new}/it", f"{self.folder}/passed/{total}")

    def bound(self):
        """Removes what was used longest ago, beyond what may be kept, and what killed runs left."""
        if not self.folder:
            return
        for at in (it for it in newest_first(self.folder) if os.path.basename(it).startswith(("new-", "gone-"))):
            if time.time() - time_of(at) > OLD:
                shutil.rmtree(at, ignore_errors=True)
        for at in newest_first(f"{self.folder}/passed")[MOST_PASSED:]:
            with contextlib.suppress(OSError):
                os.remove(at)
        held = bytes_held([it for name in newest_first(f"{self.folder}/kept") for it in newest_first(name)])
        most = min(MOST, max(held.values(), default=0) + shutil.disk_usage(self.folder).free - SPARE)
        for at, size in held.items():
            if size > most:
                self.drop(at)


def bytes_held(folders):
    """What each of these folders takes of the disk with all that were used after it, the last one first. (One file may have a name in several.)"""
    seen, held, total = set(), {}, 0
    for at in sorted(folders, key=time_of, reverse=True):
        for it in files_below(at):
            with contextlib.suppress(OSError):
                told = os.lstat(it)
                total += 512 * told.st_blocks * ((told.st_dev, told.st_ino) not in seen)
                seen.add((told.st_dev, told.st_ino))
        held[at] = total
    return held
