"""Runs `rt`, by the words that its help prints, and reads what it says."""
import contextlib
import dataclasses
import functools
import os
import re
import resource
import signal
import subprocess
import threading
import time

import kit

ONE_JOB = ("--jobs", "1")
# How rt ends where what it ran was killed: by that signal, or with the status that stands for it.
KILLED = {-signal.SIGKILL, 128 + signal.SIGKILL, 256 - signal.SIGKILL}
LAST = re.compile(r"^logic=(?:proved|not-proved).*$", re.M)
MODULES = "^crate {}: modules loaded=(\\d+) checked=(\\d+)$"
# What a last line may say. A word of a later kit may say what a proof leaves out, so it fails.
KNOWN = {"logic", "tests", "functions", "foreign", "axioms", "target", "cpu", "threads", "main", "may-abort", "partial", "may-wait"}
KNOWN |= {"may-serve", "hides", "bugs", "sum", "native", "logic-built", "libraries-built", "statements", "incremental"}
# What a check may warn of that `rt verdict` refuses: a contract that no call can meet, and a search for such that broke off.
EMPTY = re.compile(r"^(?:warning: no call of `(?![^`]*::fn::).*|note: the search for empty contracts did not end.*)$", re.M)
running = {}
beside = threading.Lock()
is_ending = threading.Event()


class Ended(Exception):
    """This run was told to end, so it begins no more commands."""


@dataclasses.dataclass
class Said:
    """What a command ended with, what it said, and how long it took: by the clock, and of processors with all that it ran itself."""

    status: int
    text: str
    seconds: float
    of_processors: float = 0.0

    @property
    def was_killed(self):
        return self.status in KILLED

    def last_line(self):
        """The line that tells whether the crate is proved, without its first word, as pairs; none where there is no such line."""
        found = LAST.findall(self.text)
        return dict(it.partition("=")[::2] for it in found[-1].split()) if found else {}

    def modules(self, name):
        """How many modules of the crate were taken from kept work, and how many were checked; none where that is not said."""
        found = re.findall(MODULES.format(re.escape(name)), self.text, re.M)
        return tuple(map(int, found[-1])) if found else None

    def shows_kept(self, name):
        """Whether the crate was proved with nearly all of it taken from kept work."""
        taken, checked = self.modules(name) or (0, 1)
        return self.status == 0 and 100 * checked <= taken


@contextlib.contextmanager
def noted(child):
    """Notes a command while it runs, so that it ends where this run is told to end."""
    with beside:
        running[child.pid] = child
        if is_ending.is_set():
            child.terminate()
    try:
        yield
    finally:
        with beside:
            running.pop(child.pid, None)


def run(words, folder):
    """Runs a command to its end, with both its outputs in one."""
    if is_ending.is_set():
        raise Ended
    begun = time.monotonic()
    how = {"cwd": folder, "stdin": subprocess.DEVNULL, "stdout": subprocess.PIPE, "stderr": subprocess.STDOUT}
    child = subprocess.Popen(words, errors="replace", **how)
    with noted(child), child.stdout:
        text = child.stdout.read()
        used = end_of(child)
    return Said(child.returncode, text, time.monotonic() - begun, used)


def end_of(child):
    """Waits for the command's end, and returns the processor seconds of it and of what it waited for."""
    try:
        _, status, used = os.wait4(child.pid, 0)
    except ChildProcessError:
        # (`stop_all` took its status, with which nothing tells what it used)
        child.wait()
        return 0.0
    child.returncode = os.waitstatus_to_exitcode(status)
    return used.ru_utime + used.ru_stime


def rt(folder, verb, *words):
    """Runs a command of rt in a crate's folder, with one job, and once more where it was killed, most likely for memory."""
    for _ in range(2):
        said = run([kit.find_rt() or "rt", verb, *words], folder)
        if not said.was_killed:
            break
    return said


def stop_all():
    """Ends what still runs, and has nothing begin after it."""
    with beside:
        is_ending.set()
        for child in running.values():
            with contextlib.suppress(OSError):
                child.terminate()


@functools.lru_cache(maxsize=None)
def finds_empty_contracts(folder):
    """Whether the kit's check can warn of contracts that no call can meet, by its own help."""
    return "--empty-contracts" in run([kit.find_rt() or "rt", "check", "--help"], folder).text


def why_not_proved(said, handles):
    """Why a check that ended with this does not show that the crate is proved as the tree's HANDLES allow, or None."""
    last = said.last_line()
    if said.was_killed:
        return "its check was killed twice, most likely for memory"
    if said.status or last.get("logic") != "proved":
        return f"it is not proved: status {said.status}"
    bad = [it for it in last if it not in KNOWN]
    bad += [it for it in ("foreign", "hides", "bugs") if last.get(it, "0") != "0"]
    if bad or last.get("may-abort", "0") != "0":
        return f"the last line of its check has what no proof may rest on: {' '.join(bad) or 'may-abort'}"
    needs = {it for it in last.get("main", "").split("+") if it} | ({"Wait"} if last.get("may-wait", "0") != "0" else set())
    if needs - {*handles}:
        return f"it needs {', '.join(sorted(needs - {*handles}))}, and HANDLES allows {', '.join(handles) or 'none'}"
    empty = EMPTY.search(said.text)
    return f"no call can meet a contract of it: {empty[0]}" if empty else None


def why_no_proof_of_tests(said, handles):
    """Why `rt test` that ended with this does not show that the crate's tests are proved and passed, or None. A test may end the process."""
    last = said.last_line()
    if said.was_killed:
        return "its tests were killed twice, most likely for memory"
    if said.status:
        return f"its tests did not pass: status {said.status}"
    if last.get("logic") != "proved" or last.get("tests", "0") == "0":
        return "the last line of its tests does not say that they are proved"
    needs = {it for it in last.get("main", "").split("+") if it} - {*handles, "Abort"}
    bad = [it for it in last if it not in KNOWN] + [it for it in ("foreign", "bugs") if last.get(it, "0") != "0"]
    return f"the last line of its tests has what HANDLES or a proof may not have: {' '.join([*bad, *sorted(needs)])}" if bad or needs else None


def processor_seconds():
    """The processor time of all commands that ended so far."""
    used = resource.getrusage(resource.RUSAGE_CHILDREN)
    return used.ru_utime + used.ru_stime
