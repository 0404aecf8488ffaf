"""Builds a program: proved, or once for its sources without proofs, and then both programs as one. One run of a launcher builds in a clone at
a time, and others wait for it and use what it built.
"""
import contextlib
import fcntl
import functools
import glob
import os
import shutil
import subprocess
import sys
import tempfile
import time

TOP = os.path.dirname(os.path.dirname(os.path.realpath(__file__)))
sys.path.append(f"{TOP}/proving")
import kit
from crates import Crate, crates_of, files_below, text_of
from rooms import copy_texts
from terminal import WHO, progress, say

LOCK = f"{TOP}/out/building"
# The seconds that the last build took.
TOOK = f"{TOP}/out/building_took"
# The bytes that a build without proofs wants in the folder for temporary files: some 25 MB were seen to be used at once.
ROOM = 64 << 20


class NotBuilt(Exception):
    """Why there is no program."""


class Program:
    """A program: its name, and the words before the name of a script."""

    def __init__(self, name, words):
        self.name, self.words = name, words
        self.crate = f"{TOP}/crates/{name}"
        self.proved = f"{self.crate}/out/{name}"
        self.unproved = f"{TOP}/out/{name}_unproved"


NTRUN, NTLOOK = Program("ntrun", ["script"]), Program("ntlook", ["why"])
PROGRAMS = (NTRUN, NTLOOK)
# The crate that is both, while it is built without proofs, and how what it writes of the script `threads 1` ends.
BOTH, WROTE = "both", b"end: pending none\n"
MAIN_OF_BOTH = f"{TOP}/launcher/both.rt"


def judged_rt():
    """The command rt. Where its kit is not the one that is wanted, that is said first."""
    status, line = kit.judged()
    if status == kit.IS_LACKING:
        raise NotBuilt(line)
    if line:
        say(f"{WHO}: {line}")
    return kit.find_rt()


def is_current(made, parts, use=os.X_OK, beside=()):
    """Whether what was built is there, for this use, and neither a source, nor the kit, nor a file `beside` these is newer."""
    if not os.access(made, use):
        return False
    tools = os.path.dirname(os.path.dirname(os.path.realpath(kit.find_rt() or "/")))
    sources = [f"{TOP}/crates.txt", f"{tools}/WHAT", *beside]
    for part in parts:
        for folder, _, names in (it for at in glob.glob(f"{TOP}/crates/*/{part}") for it in os.walk(at)):
            sources += [folder, *(f"{folder}/{name}" for name in names)]
    built = os.stat(made).st_mtime_ns
    return all(os.stat(it).st_mtime_ns <= built for it in sources if os.path.exists(it))


def unwritable(folder, why):
    return NotBuilt(f"{folder}: {why}. The program is built there: make the clone yours to write, or work in a copy that is (cp -r {TOP} FOLDER)")


def build_proved(built):
    """Proves a program and all below it, and runs it once on an example."""
    rt, began = judged_rt(), time.time_ns()
    for folder in [f"{TOP}/crates", *glob.glob(f"{TOP}/crates/*"), *glob.glob(f"{TOP}/crates/*/out")]:
        if not os.access(folder, os.W_OK):
            raise unwritable(folder, "it can't be written")
    say(f"{WHO}: proving and building. From nothing that takes about half an hour on four cores, and without a change some seconds")
    words = [rt, "run", "--", *built.words, f"{TOP}/examples/hand_over.nts"]
    if subprocess.run(words, cwd=built.crate, stdin=subprocess.DEVNULL, stdout=subprocess.DEVNULL, check=False).returncode not in (0, 4):
        raise NotBuilt("the program could not be proved and built")
    # What was edited meanwhile counts as newer.
    os.utime(built.proved, ns=(began, began))
    minutes, seconds = divmod((time.time_ns() - began) // 10**9, 60)
    say(f"{WHO}: proved and built in {minutes} min {seconds} s")


@contextlib.contextmanager
def alone(path=LOCK):
    """Lasts while no other run builds in this folder: waits for one that does."""
    try:
        os.makedirs(os.path.dirname(path), exist_ok=True)
        lock = open(path, "a", encoding="ascii")  # pylint: disable=consider-using-with
        if not os.access(os.path.dirname(path), os.W_OK):
            raise unwritable(os.path.dirname(path), "it can't be written")
    except OSError as error:
        raise unwritable(os.path.dirname(path), error.strerror) from error
    with lock:
        try:
            fcntl.flock(lock, fcntl.LOCK_EX | fcntl.LOCK_NB)
        except BlockingIOError:
            say(f"{WHO}: another run is building a program: this one waits for it")
            with progress("waiting for the other run's build"):
                fcntl.flock(lock, fcntl.LOCK_EX)
        yield


def writer_once_read(pipe, reader):
    """A writer for the named pipe, once it is open for reading; None where the process that would read it has ended before."""
    while reader.poll() is None:
        with contextlib.suppress(OSError):
            return os.open(pipe, os.O_WRONLY | os.O_NONBLOCK)
        time.sleep(0.05)
    return None


def keep_once_run(builder, pipe, wanted):
    """Copies the program that the builder runs while it waits for its script in the pipe, to `wanted`: the one file beside the pipe that can be run.
    Answers whether that was done, and what the program wrote then."""
    writer, programs = writer_once_read(pipe, builder), []
    if writer is not None:
        programs = [it for it in files_below(os.path.dirname(pipe)) if os.access(it, os.X_OK)]
        for it in programs[:1]:
            shutil.copy(it, wanted)
            os.chmod(wanted, 0o755)
        os.write(writer, b"threads 1\n")
        os.close(writer)
    return bool(programs), builder.communicate()[0]


def try_and_keep(crate, words, wanted):
    """Has `rt try` build the program of the crate in this folder, without proofs, and run it on a named pipe, and copies the program to `wanted` while it
    waits for its script there: `rt try` removes what it built as soon as the program ends. Answers whether it was kept, its exit status,
    what it wrote, and the lines that were said."""
    with tempfile.TemporaryDirectory(prefix="ntrun-") as folder, open(f"{folder}/said", "w+b") as said:
        pipe = f"{os.path.realpath(folder)}/script"
        os.mkfifo(pipe)
        how = {"stdin": subprocess.DEVNULL, "stdout": subprocess.PIPE, "stderr": said}
        how["env"] = {**os.environ, "TMPDIR": folder}
        builder = subprocess.Popen([kit.find_rt(), "try", "--", *words, pipe], cwd=crate, **how)
        try:
            kept, wrote = keep_once_run(builder, pipe, wanted)
        except OSError as error:
            raise unwritable(os.path.dirname(wanted), error.strerror) from error
        finally:
            builder.terminate()
            builder.wait()
        said.seek(0)
        return kept, builder.returncode, wrote, said.read().decode("utf-8", "surrogateescape").splitlines()


def about_seconds():
    """How long a build takes, by the last one here."""
    with contextlib.suppress(OSError, ValueError), open(TOOK, encoding="ascii") as file:
        return f"{int(file.read())} s, as the last one here"
    return "40 s on an idle machine"


def both_in(room):
    """Lays out in the folder a crate that is both programs, by the name that it is run by, and the libraries below it. Returns its folder."""
    known = crates_of(TOP)
    uses = {use for it in PROGRAMS for use in known[it.name].line.partition(":")[2].split()}
    known[BOTH] = Crate(room, f"{BOTH}: {' '.join(sorted(uses))}", known)
    for it in known[BOTH].below():
        copy_texts(it, f"{room}/crates/{it.name}")
    with open(f"{room}/crates.txt", "w", encoding="utf-8") as file:
        file.writelines(f"{it.line}\n" for it in [*known[BOTH].below(), known[BOTH]])
    shutil.copy(f"{TOP}/HANDLES", room)
    os.makedirs(f"{known[BOTH].folder}/src")
    # (`main` alone has the runtime with all its traits: so that of each program gives way to this crate's own.)
    texts = {it.name: text_of(f"{it.crate}/src/main.rt").partition("\nfn main(")[0].replace("\nfn start<", "\npub fn start<") for it in PROGRAMS}
    for name, text in {"main": text_of(MAIN_OF_BOTH), **texts}.items():
        with open(f"{known[BOTH].folder}/src/{name}.rt", "w", encoding="utf-8") as file:
            file.write(text)
    return known[BOTH].folder


def keep_unproved():
    """Builds both programs as one, and keeps it under either name. If that fails, the exception's second argument has what was said of it."""
    began = time.time_ns()
    with tempfile.TemporaryDirectory(prefix="both-") as room:
        kept, status, wrote, told = try_and_keep(both_in(room), NTRUN.words, f"{NTRUN.unproved}.new")
    if status or not wrote.endswith(WROTE):
        raise NotBuilt("the programs could not be built, or did not run", told)
    if not kept:
        raise NotBuilt("the programs were built, but could not be kept: use --proved", [])
    os.utime(f"{NTRUN.unproved}.new", ns=(began, began))
    shutil.copy2(f"{NTRUN.unproved}.new", f"{NTLOOK.unproved}.new")
    for it in PROGRAMS:
        os.replace(f"{it.unproved}.new", it.unproved)


def build_unproved():
    """Builds both programs without proofs, and keeps them."""
    judged_rt()
    began, folder = time.time_ns(), tempfile.gettempdir()
    free = shutil.disk_usage(folder).free
    if free < ROOM:
        raise NotBuilt(f"{folder} has room for {free >> 20} MB, and a build wants {ROOM >> 20} MB there: set TMPDIR to a folder with more")
    say(f"{WHO}: building ntrun and ntlook without proofs, once for these sources; about {about_seconds()}")
    try:
        with progress("building", about_seconds()):
            keep_unproved()
    except NotBuilt as why:
        say(*why.args[1:2] and why.args[1])
        raise NotBuilt(why.args[0]) from why
    with open(TOOK, "w", encoding="ascii") as file:
        file.write(str((time.time_ns() - began) // 10**9))


def is_proved(built):
    return is_current(built.proved, ("src", "specs", "proofs"))


def is_built(built):
    """Whether the program of these sources is there, proved or not."""
    return is_proved(built) or is_current(built.unproved, ("src", "specs"), beside=[MAIN_OF_BOTH])


@functools.cache
def checker_of(built):
    """The program, which reads what tests tell: the proved one where it is built, or where STRICT or ALL is set, as ./gate does; it is proved first
    then. Else an unproved build."""
    with alone():
        if not is_proved(built) and (os.environ.get("STRICT") or os.environ.get("ALL")):
            ran = subprocess.run([kit.find_rt(), "run"], cwd=built.crate, stdin=subprocess.DEVNULL, capture_output=True, text=True, check=False)
            if ran.returncode:
                raise NotBuilt(f"{ran.stdout}{ran.stderr}{built.name} could not be proved")
            os.utime(built.proved)
        elif not is_built(built):
            kept, _, _, told = try_and_keep(built.crate, built.words, built.unproved)
            if not kept:
                raise NotBuilt("\n".join(told) or f"{built.name} could not be built")
    return path_once_built(built)


def path_once_built(built):
    """The program that `path_of` answered."""
    return built.proved if is_proved(built) else built.unproved


def path_of(built):
    """The program of these sources: the proved one where it is built, else the unproved one, which is built where it has to be."""
    if is_proved(built):
        return built.proved
    if not is_built(built):
        with alone():
            # (Another run may have built it meanwhile.)
            if not is_built(built):
                build_unproved()
    say(f"{WHO}: this is an unproved build; {WHO} --proved {built.words[0]} FILE proves the program first")
    return built.unproved
