"""What the gate tells: its steps, their times, what they counted, and what is lacking on the machine."""
import contextlib
import fcntl
import json
import os
import re
import shutil
import signal
import subprocess
import sys
import time
from concurrent.futures import ThreadPoolExecutor

from command import processor_seconds, stop_all
from kept import cache_folder
from progress import Progress

# A tool that a step runs, and the Debian package that has it.
TOOLS = {"git": "git", "make": "make", "diff": "diffutils", "gcc": "gcc", "g++": "g++", "clang": "clang", "clang++": "clang", "valgrind": "valgrind"}
# A sanitizer, what it wants of a compiler, and the Debian package of each compiler that has its library.
SANITIZERS = {"ThreadSanitizer": "thread", "AddressSanitizer and UndefinedBehaviorSanitizer": "address,undefined"}
HAS_LIBRARIES = {"gcc": "libtsan2 and libasan8, which gcc brings", "clang": "libclang-rt-dev"}
# The least that these steps have to count. Each other one has to count one.
LEAST = {
    "the gate itself": 96,
    "each public function has a mutant": 650,
    "proofs, tests, programs and mutants": 700,
    "the tests, each growth refused": 30_000,
    "the examples": 44,
    "the launcher, and the worked scripts": 300,
    "the scripts, each growth refused": 100_000,
}
COUNTED = re.compile(r"^(\d+) passed, (\d+) failed$")


class Step:
    """What a step counted: how many passed, how many failed, and the names of those; and whether it made what later steps run, as it did if nothing
    failed and that is left out. Its seconds and those of processors are those of its turn, if it does not know them."""

    def __init__(self, passed=0, failed=(), many=None, is_made=None, used=None):
        self.passed, self.failed, self.took, self.used = passed, list(failed), None, used
        self.many = len(self.failed) if many is None else many
        self.is_made = not self.failed if is_made is None else is_made


class Beside:
    """A step that runs beside those whose turn it is: it is begun early, and its turn is to wait for it. What it says is told then. If its lane
    has not come to it, it runs in its turn. Until then the lock of the file `alone` is held: a part of it that is to run alone waits for that."""

    # The processor seconds of all that ran so.
    used = 0.0

    def __init__(self, call, lane, alone=None):
        self.call, self.lane, self.alone, self.held, self.lines, self.ended = call, lane, alone, None, [], None

    def begin(self):
        if self.alone:
            self.held = open(self.alone, "w", encoding="ascii")  # pylint: disable=consider-using-with
            fcntl.flock(self.held, fcntl.LOCK_EX)
        self.ended = self.lane.submit(self.run)

    def tell(self, text):
        self.lines.append(text)

    def run(self):
        begun = time.monotonic()
        found = self.call(self)
        found.took = time.monotonic() - begun
        Beside.used += found.used or 0
        return found

    def turn(self, progress):
        if self.held:
            self.held.close()
        if not self.ended or self.ended.cancel():
            return self.call(progress)
        try:
            return self.ended.result()
        finally:
            for it in self.lines:
                progress.tell(it)


@contextlib.contextmanager
def lane(at_once):
    """Where so many steps may run beside those whose turn it is. What still runs there at the end of the run is ended."""
    pool = ThreadPoolExecutor(at_once)
    try:
        yield pool
    finally:
        stop_all()
        pool.shutdown(cancel_futures=True)


def end_by_signals():
    """Has a signal that ends this run end all that it began, too."""
    heeded = [it for it in (signal.SIGINT, signal.SIGTERM, signal.SIGHUP) if signal.getsignal(it) != signal.SIG_IGN]

    def end(number, _):
        for it in heeded:
            signal.signal(it, signal.SIG_IGN)
        stop_all()
        sys.exit(128 + number)

    for it in heeded:
        signal.signal(it, end)


class Gate:
    """The steps of a run: which is under way, what all counted so far, and how long each took the last time on this machine."""

    def __init__(self, top, kind):
        self.top, self.kind, self.number, self.total = top, kind, 0, 0
        self.passed, self.many, self.failed, self.begun = 0, 0, [], time.monotonic()
        self.progress = Progress()
        self.times_at = f"{cache_folder()}/gate-times.json"
        self.last_times, self.times = times_on(self.times_at), {}

    def tell(self, text):
        self.progress.tell(text)

    def step(self, name, call):
        """Runs a step, which gives a Step, and returns whether it made what later steps run."""
        self.number += 1
        begun, before = time.monotonic(), processor_seconds() - Beside.used
        self.progress = Progress()
        self.progress.head = f"{self.number} of {self.total}, {name}: "
        last = f", last time here {self.last_times[name]:.0f} s" if name in self.last_times else ""
        self.tell(f"gate: {self.progress.head[:-2]}{last} ..")
        with self.progress.on_terminal():
            try:
                found = call(self.progress)
            except (OSError, ValueError, LookupError, subprocess.SubprocessError) as error:
                found = Step(0, [f"it could not go on: {type(error).__name__}: {error}"])
        if not found.failed and found.passed < LEAST.get(name, 1):
            found = Step(found.passed, [f"it counted {found.passed}, and {LEAST.get(name, 1)} is the least"], is_made=found.is_made)
        took = time.monotonic() - begun if found.took is None else found.took
        used = processor_seconds() - Beside.used - before if found.used is None else found.used
        self.passed, self.many = self.passed + found.passed, self.many + found.many
        self.failed += [f"{name}: {it}" for it in found.failed]
        self.times[name] = took
        self.tell(
            f"gate: {self.progress.head}{found.passed} passed, {found.many} failed, "
            f"{took:.0f} s{' beside others' if found.took else ''}, {used:.0f} s of processors"
        )
        return found.is_made

    def end(self):
        """Tells what failed, by its names, and counts. It returns the exit status."""
        keep_times(self.times_at, {**self.last_times, **self.times})
        for it in self.failed:
            self.tell(f"failed: {it}")
        if self.kind == "quick":
            self.tell("gate: quick: nothing was proved")
        self.tell(f"gate: {time.monotonic() - self.begun:.0f} s, {processor_seconds():.0f} s of processors")
        self.tell(f"{self.passed} passed, {self.many} failed")
        return 1 if self.failed else 0


def lacking_tools():
    """Yields what the machine lacks and the package that has it."""
    for tool, package in TOOLS.items():
        if not shutil.which(tool):
            yield tool, package
    for compiler, package in HAS_LIBRARIES.items():
        for name, flags in SANITIZERS.items() if shutil.which(compiler) else ():
            if not compiles_with(compiler, f"-fsanitize={flags}"):
                yield f"the {name} of {compiler}", package


def compiles_with(compiler, flag):
    words = [compiler, flag, "-x", "c", "-", "-o", os.devnull]
    return subprocess.run(words, input=b"int main(void) { return 0; }", capture_output=True, check=False).returncode == 0


def times_on(path):
    """The seconds that each step took the last time on this machine."""
    with contextlib.suppress(OSError, ValueError, AttributeError, TypeError), open(path, encoding="utf-8") as file:
        return {str(name): float(seconds) for name, seconds in json.load(file).items()}
    return {}


def keep_times(path, times):
    # (a home that cannot be written has no times)
    with contextlib.suppress(OSError):
        os.makedirs(os.path.dirname(path), exist_ok=True)
        with open(f"{path}.{os.getpid()}", "w", encoding="utf-8") as file:
            json.dump(times, file)
        os.replace(f"{path}.{os.getpid()}", path)
