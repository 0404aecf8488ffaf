"""Whether a program can be run on a file, running it, and what is said of a script's fault after its own line."""
import contextlib
import errno
import os
import re
import signal
import stat
import subprocess
import sys
import threading
import time

import building
from terminal import WHO, progress, say

PROVED_OR_INPUT = "FILE may be - for standard input; --proved before all other words proves and builds the program first"


def end_as(main):
    """Ends the launcher with the exit status that `main` answers to its words."""
    try:
        signal.signal(signal.SIGTERM, lambda *_: sys.exit(128 + signal.SIGTERM))
        sys.exit(main(sys.argv[1:]))
    except building.NotBuilt as why:
        say(f"{WHO}: {why}")
        sys.exit(125)
    except KeyboardInterrupt:
        sys.exit(128 + signal.SIGINT)


def is_operand(word):
    return word == "-" or not word.startswith("-")


def named_file(built, words, at, not_read):
    """The path of the FILE at this place of the words, where `-` is standard input, and how it is called. None where it can't be opened, as is said."""
    if words[at] == "-":
        words[at] = "/dev/stdin"
    name = "<stdin>" if words[at] == "/dev/stdin" else words[at]
    refused = why_not_open(words[at], f"{built.name}: cannot open", not_read)
    if refused:
        say(refused[0], f"{name}: {refused[1]}")
    return None if refused else (words[at], name)


def why_not_open(path, cannot_open, not_read):
    """The line of these two that the program says, and the reason, where the file can't be opened or is a folder, else None. A pipe is not opened."""
    try:
        kind = os.stat(path).st_mode
        if stat.S_ISDIR(kind):
            return not_read, "Is a directory"
        if not stat.S_ISFIFO(kind):
            os.close(os.open(path, os.O_RDONLY | os.O_NOCTTY | os.O_NONBLOCK))
        elif not os.access(path, os.R_OK):
            return cannot_open, os.strerror(errno.EACCES)
    except OSError as error:
        return cannot_open, error.strerror
    return None


def why_not_created(path):
    """The reason why no file can be created at this path, or an existing one written. (One that could be after all is left as it was.)"""
    try:
        if os.path.lexists(path):
            os.close(os.open(path, os.O_WRONLY | os.O_NOCTTY | os.O_NONBLOCK))
        else:
            os.close(os.open(path, os.O_WRONLY | os.O_CREAT | os.O_EXCL))
            os.unlink(path)
    except OSError as error:
        return error.strerror
    return "it could not be created, and now it could"


def write_all(part):
    """Writes to standard output, and answers whether all was written."""
    with contextlib.suppress(OSError):
        while part:
            part = part[os.write(1, part) :]
    return not part


def tell(name, text):
    """Writes the text for the program of this name, and answers the exit status."""
    if write_all(text):
        return 0
    say(f"{name}: write failed")
    return 1


def tell_version(name):
    """Writes the name and the number in VERSION, and answers the exit status."""
    with open(f"{building.TOP}/VERSION", "rb") as file:
        return tell(name, f"{name} ".encode() + file.read())


def teller_of(reader):
    """Reads in the background what a search writes of how far it is: lines with the states that it looked at, those that it met, and the steps to
    the last one that it looked at. Answers what tells of the last line."""
    began, far = time.monotonic(), []

    def read():
        with os.fdopen(reader, "rb") as lines:
            for line in lines:
                far[:] = [int(it) for it in line.split()]

    def tell():
        if not far:
            return ""
        looked, states, depth = far
        return f", {looked:,} of {states:,} states, depth {depth}, {looked / (time.monotonic() - began):,.0f} a second"

    threading.Thread(target=read, daemon=True).start()
    return tell


def run_and_show(built, words, what):
    """The same of a program that may take long, beside a terminal: that it does `what`, for how long it has, and how far it is by what it writes into
    the file that NT_PROGRESS names, is shown there. What it writes else is handed on once it has ended."""
    reader, writer = os.pipe()
    os.set_inheritable(writer, True)
    how = {"stdout": subprocess.PIPE, "stderr": subprocess.PIPE, "close_fds": False, "env": {**os.environ, "NT_PROGRESS": f"/dev/fd/{writer}"}}
    child = subprocess.Popen([building.path_of(built), *words], **how)
    os.close(writer)
    signal.signal(signal.SIGINT, signal.SIG_IGN)
    signal.signal(signal.SIGTERM, lambda *_: child.terminate())
    with progress(what, how_far=teller_of(reader)):
        wrote, said = child.communicate()
    say(*said.splitlines())
    status = tell(built.name, wrote) or child.returncode
    return (128 - status if status < 0 else status), said


def run(built, words, notes_taken=None):
    """Runs a program, hands on what it says on standard error, and answers its exit status and what it said. What it writes goes by way of
    the notes, if any are taken."""
    piped = subprocess.PIPE if notes_taken else None
    child = subprocess.Popen([building.path_of(built), *words], stdout=piped, stderr=subprocess.PIPE, close_fds=False)
    # A signal from the terminal reaches the program too, which then ends.
    signal.signal(signal.SIGINT, signal.SIG_IGN)
    signal.signal(signal.SIGTERM, lambda *_: child.terminate())
    if notes_taken:
        notes_taken.begin(child.stdout)
    said = b""
    for line in child.stderr:
        said += line
        say(line.rstrip(b"\n"))
    status = child.wait()
    if notes_taken and not notes_taken.end() and not status:
        # (The program had handed all of it on, to this launcher.)
        say(f"{built.name}: write failed")
        status = 1
    return (128 - status if status < 0 else status), said


def explain_fault(built, words, path, name, said):
    """Says more of the fault that the program told so: where it stands and what can stand there; of a pipe its name and line alone."""
    told = re.fullmatch(rb"\w+: line ([0-9]+): (.*)\n", said)
    if not told:
        return
    line, fault = told[1].decode(), told[2].decode()
    if not os.path.isfile(path):
        # (A pipe can't be read a second time.)
        say(f"{name}:{line}: {fault}")
        return
    asks = {**os.environ, "NT_FAULT": fault, "NT_FAULT_LINE": line, "NT_FAULT_SCRIPT": name}
    child = subprocess.run([building.path_once_built(built), *words], stdout=subprocess.DEVNULL, stderr=subprocess.PIPE, close_fds=False, env=asks, check=False)
    say(*child.stderr.splitlines())
