"""Proves each crate of a tree once, and runs its tests and its program.

A crate is proved in a room of its own, over the libraries below it as this run built them or took them as kept (kept.py). What its proof made and
kept stands then in the crate's out/ in the tree.
"""
import collections
import contextlib
import errno
import os
import re
import shutil
import signal
import subprocess
import tempfile
import time

from command import ONE_JOB, finds_empty_contracts, rt, why_no_proof_of_tests, why_not_proved
from crates import text_of
from kept import sum_of, sum_of_crate
from lanes import Task, memory_of, run_all
from rooms import OWN_WORK, fill_room
from verdicts import sum_of_check

# How long a program may run, and a test, in seconds.
LIMIT, LIMIT_OF_TEST = 120, 60
# Where the program lies that Rattle's own compiler built.
BY_RATTLE = "_by_rattle"
# How a check ends that reads a crate and proves nothing.
READ = re.compile(r"^only=0 proved=0$", re.M)


class Failed(Exception):
    """Why a crate did not pass, and what was said."""

    def __init__(self, why, said=""):
        super().__init__(why)
        self.why, self.said = why, said


class Proofs:
    """The proofs of a tree's crates, in rooms below a folder. What is `kept` of a crate as it stands is taken, with the work of later checks for those
    that are `tried`. Other proofs begin with what was kept last, with what another tree's out/ has, or with nothing. Crates that are `only_read` are
    not proved."""

    def __init__(self, crates, rooms, progress, handles, kept=None, begin_with=None, tried=(), only_read=()):
        self.crates, self.rooms, self.progress, self.handles, self.begin_with = crates, rooms, progress, handles, begin_with
        self.kept, self.tried, self.only_read = kept, tried, only_read
        self.checked, self.taken, self.failed, self.passed, self.as_kept, self.as_checked, self.parts, self.held = 0, 0, [], [], [], [], {}, set()
        self.used = {it.name for crate in crates.values() for it in crate.uses}

    def run(self, names, runs=True, checked=None):
        """Carries out the tasks of these crates, and returns whether all passed."""
        tasks = self.tasks(names, runs, checked)
        self.progress.of, self.progress.total = "crates", len(tasks)
        return all(run_all(tasks).values())

    def tasks(self, names, runs=True, checked=None):
        """A task for each of these crates and those below them, by name: it proves the crate, runs its tests and its program where `runs`, and gives
        whether all passed. Crates that are not among the `checked`, where these are given, are only built, where they are libraries."""
        tasks = {}
        for it in (it for it in self.crates.values() if any(it.name == name or it in self.crates[name].below() for name in names)):
            waits, weight = [other.name for other in it.below()], it.lines() + it.lines(".antt")
            tasks[it.name] = Task(waits, weight, memory_of(it), lambda given, it=it: self.one(it, given, runs, checked is None or it.name in checked))
        return tasks

    def one(self, crate, given, runs, checks):
        """Proves a crate or takes it as kept, builds what those above it need, and runs what it has to run. It returns whether all passed."""
        lacking = [it.name for it in crate.below() if not given[it.name]]
        try:
            if lacking:
                raise Failed(f"not tried, since {lacking[0]} below it failed")
            with self.progress.working_on(crate.name):
                if crate.name in self.only_read:
                    self.read_in_room(crate)
                else:
                    self.take_or_prove(crate, runs, checks)
            self.passed.append(crate.name)
        except OSError as error:
            self.failed.append(crate.name)
            self.progress.tell(f"{crate.name}: FAILED: {error}")
        except Failed as failed:
            self.failed.append(crate.name)
            self.progress.tell(f"{crate.name}: FAILED: {failed.why}" + "".join(f"\n  {it}" for it in told_lines(crate, failed.said)))
        return crate.name in self.passed

    def take_or_prove(self, crate, runs, checks):
        """Takes what is kept of the crate, or proves it and keeps what that made; and runs what it has to run."""
        total = sum_of_crate(crate) if self.kept else None
        is_held = self.kept and self.kept.take(crate, total, without=() if crate.name in self.tried else (OWN_WORK,))
        is_kept = is_held is not None and self.is_whole(crate)
        if is_kept:
            self.as_kept.append(crate.name)
            self.held |= {crate.name} if is_held else set()
        else:
            self.prove_in_room(crate, runs, checks)
        try:
            if runs and crate.is_program:
                for ending in (BY_RATTLE, ""):
                    run_program(crate, ending)
            if runs and is_kept and crate.has_tests():
                run_kept_tests(crate)
        except Failed as failed:
            if is_kept:
                self.kept.drop(self.kept.at(crate.name, total))
                raise Failed(f"{failed.why} (it was proved and built by an earlier run; the next one proves it again)", failed.said) from failed
            raise
        if self.kept and not is_kept and runs and checks:
            self.kept.keep(crate, total, crate.name in self.held)

    def is_whole(self, crate):
        """Whether all that a proof of the crate makes stands in its out/."""
        is_made = crate.is_program or crate.is_static or crate.name in self.used
        made = [crate.made] * is_made + [crate.made + BY_RATTLE] * crate.is_program + [program_of_tests(crate)] * crate.has_tests()
        return all(os.path.exists(f"{crate.folder}/{it}") for it in made)

    def read_in_room(self, crate):
        """Has the crate read, over the libraries below it, and not proved: it fails where it does not compile."""
        total = sum_of("read", sum_of_crate(crate))
        if self.kept and self.kept.has_passed(total):
            self.as_kept.append(crate.name)
            return
        said = rt(fill_room(f"{self.rooms}/{crate.name}", crate), "check", *ONE_JOB, "--only", "")
        shutil.rmtree(f"{self.rooms}/{crate.name}", ignore_errors=True)
        if said.status or not READ.search(said.text):
            raise Failed(f"it does not compile: status {said.status}", said.text)
        self.progress.tell(f"{crate.name}: it compiles; it is not proved, {said.seconds:.0f} s")
        if self.kept:
            self.kept.note_passed(total)

    def begun_in(self, crate):
        """The crate in a room of its own, with the work that its proof begins with."""
        begin = self.kept and self.kept.newest(crate) or self.begin_with and f"{self.begin_with}/crates/{crate.name}/out"
        try:
            return fill_room(f"{self.rooms}/{crate.name}", crate, begin)
        except OSError as error:
            self.progress.tell(f"{crate.name}: its proof begins with nothing: {error}")
            return fill_room(f"{self.rooms}/{crate.name}", crate)

    def prove_in_room(self, crate, runs, checks):
        folder, parts = self.begun_in(crate), {}
        try:
            # (of tests alone nothing is left for a check, and `rt test` proves them)
            parts.update(self.prove_and_build(crate, folder, checks and not (runs and crate.has_tests_alone())))
            if runs and crate.has_tests():
                parts["test"] = pass_tests(crate, folder, self.handles)
            if runs and crate.is_program:
                parts.update(build_program(crate, folder))
        finally:
            shutil.rmtree(f"{crate.folder}/out", ignore_errors=True)
            if os.path.isdir(f"{folder}/out"):
                os.rename(f"{folder}/out", f"{crate.folder}/out")
            shutil.rmtree(f"{self.rooms}/{crate.name}", ignore_errors=True)
        if not checks:
            return
        self.parts[crate.name] = parts
        # (what its first command kept serves the next one: the check of a library, its build)
        self.held |= {crate.name} if any(said.shows_kept(crate.name) for said in parts.values()) else set()
        taken, checked = next((it.modules(crate.name) for it in parts.values() if it.modules(crate.name)), (0, 0))
        self.taken, self.checked = self.taken + taken, self.checked + checked
        times = ", ".join(f"{part} {said.seconds:.0f} s ({said.of_processors:.0f} of processors)" for part, said in parts.items())
        self.progress.tell(f"{crate.name}: proved, {checked} modules checked, {taken} taken from work that was kept; {times}")

    def prove_and_build(self, crate, folder, checks):
        """Proves the crate if `checks`, and builds it if it is a library that is used. It returns what each command said, by its name. A library is not
        checked again where no more than bodies and proofs below it changed: its build proves what has to be, and is judged."""
        is_built, total = crate.is_static or crate.name in self.used, sum_of_check(crate) if self.kept and checks else None
        if is_built and total and self.kept.has_passed(total):
            parts = {"lib": judge(build_library(crate, folder), self.handles)}
            self.as_checked.append(crate.name)
            return parts
        parts = {"check": prove(crate, folder, self.handles)} if checks else {}
        if total:
            self.kept.note_passed(total)
        if is_built:
            parts["lib"] = build_library(crate, folder)
        return parts

    def tell_times(self, of_mutants):
        """Tells the processor seconds of each part of the proofs, of all crates together, and of mutants."""
        used = collections.Counter()
        for part, said in (it for parts in self.parts.values() for it in parts.items()):
            used[part] += said.of_processors
        used["mutants"] = of_mutants
        self.progress.tell("of processors: " + ", ".join(f"{part} {seconds:.0f} s" for part, seconds in used.items()))


def handles_of(top):
    """The handles that the tree's file HANDLES allows."""
    found = re.fullmatch(r"Handles allowed: (.+)\.\n", text_of(f"{top}/HANDLES"))
    return [] if not found or found[1] == "none" else found[1].split(", ")


def judge(said, handles):
    """Returns what a check or a build said, if it shows that the crate is proved."""
    why = why_not_proved(said, handles)
    if why:
        raise Failed(why, said.text)
    return said


def prove(crate, folder, handles):
    """Checks the crate, and returns what the check said."""
    more = ["--empty-contracts"] if finds_empty_contracts(folder) else []
    return judge(rt(folder, "check", *ONE_JOB, *more), handles)


def build_library(crate, folder):
    """Builds the library, and returns what its build said. (It proves what has to be proved, but does not search contracts.)"""
    built = rt(folder, "lib", *ONE_JOB)
    if built.status or not os.path.exists(f"{folder}/{crate.made}"):
        raise Failed(f"`rt lib` ended with status {built.status}", built.text)
    return built


def pass_tests(crate, folder, handles):
    """Proves and runs the crate's tests, and returns what that said."""
    said = rt(folder, "test", *ONE_JOB)
    why = why_no_proof_of_tests(said, handles)
    if why:
        raise Failed(why, said.text)
    return said


def build_program(crate, folder):
    """Builds the program with each of the kit's two compilers, and returns what each build said. (`rt run` runs it too; what that answers is judged by
    `run_program`.)"""
    words, built = crate.text("args").split("\n")[:-1], {}
    for flags, ending in ((("--backend", "rattle"), BY_RATTLE), ((), "")):
        said = built[" ".join(["run", *flags])] = rt(folder, "run", *ONE_JOB, *flags, "--", *words)
        made = f"{folder}/out/{crate.name}"
        if not os.access(made, os.X_OK):
            raise Failed(f"`{' '.join(['rt run', *flags])}` built no program", said.text)
        if ending:
            os.rename(made, made + ending)
    return built


def given_to(crate, name):
    """The bytes of a file beside the crate's src/; none where there is no such file."""
    with contextlib.suppress(FileNotFoundError), open(f"{crate.folder}/{name}", "rb") as file:
        return file.read()
    return b""


def run_program(crate, ending):
    """Runs the program outside of the repository, in a copy of its folder data/, as the files stdin, args, stdout and status say."""
    by = "Rattle's own compiler" if ending else "LLVM"
    with tempfile.TemporaryDirectory() as room:
        if os.path.isdir(f"{crate.folder}/data"):
            shutil.copytree(f"{crate.folder}/data", f"{room}/data")
        os.makedirs(f"{room}/data", exist_ok=True)
        words = [f"{crate.folder}/out/{crate.name}{ending}", *os.fsdecode(given_to(crate, "args")).splitlines()]
        env = {"PATH": "/usr/local/bin:/usr/bin:/bin", "HOME": f"{room}/data", "TMPDIR": f"{room}/data", "LANG": "C.UTF-8"}
        how = {"cwd": f"{room}/data", "env": env, "input": given_to(crate, "stdin"), "capture_output": True, "timeout": LIMIT}
        try:
            ran = ended(words, **how)
        except subprocess.TimeoutExpired as error:
            raise Failed(f"its program, built by {by}, had not ended after {LIMIT} seconds") from error
    wanted = int(given_to(crate, "status").strip() or b"0")
    if ran.returncode < 0:
        raise Failed(f"its program, built by {by}, was stopped by {signal.Signals(-ran.returncode).name}")
    if ran.returncode != wanted:
        raise Failed(f"its program, built by {by}, ended with status {ran.returncode}, and not {wanted}", ran.stderr.decode(errors="replace"))
    if ran.stdout != given_to(crate, "stdout"):
        raise Failed(f"its program, built by {by}, wrote something else than crates/{crate.name}/stdout", difference(crate, ran.stdout))


def ended(words, **how):
    """Runs a program to its end. (One that was copied just now may be held open for a moment, by a command that another thread began meanwhile.)"""
    until = time.monotonic() + 10
    while True:
        try:
            return subprocess.run(words, check=False, **how)
        except OSError as error:
            if error.errno != errno.ETXTBSY or time.monotonic() > until:
                raise
        time.sleep(0.02)


def program_of_tests(crate):
    return f"out/{crate.name}_tests"


def run_kept_tests(crate):
    """Runs each of the crate's tests by the program that an earlier run built of them, at the top of the tree."""
    program, how = f"{crate.folder}/{program_of_tests(crate)}", {"cwd": os.path.dirname(os.path.dirname(crate.folder)), "timeout": LIMIT_OF_TEST}
    how |= {"stdin": subprocess.DEVNULL, "stdout": subprocess.PIPE, "stderr": subprocess.STDOUT, "errors": "replace"}
    try:
        names = re.findall(r"^(\S+): test$", ended([program, "--list"], **how).stdout, re.M)
        ran = [(it, ended([program, it], **how)) for it in names]
    except subprocess.TimeoutExpired as error:
        raise Failed(f"its tests had not ended: {error}") from error
    failed = [(name, it) for name, it in ran if it.returncode]
    if failed or not ran:
        raise Failed(f"{len(failed)} of its {len(ran)} tests did not pass: {failed[0][0] if failed else 'none was found'}", failed[0][1].stdout if failed else "")


def difference(crate, wrote):
    """The first line in which a program's output differs from its file."""
    wanted, found = given_to(crate, "stdout").splitlines(), wrote.splitlines()
    at = next((at for at, (one, other) in enumerate(zip(wanted, found)) if one != other), min(len(wanted), len(found)))
    line = lambda lines: lines[at].decode(errors="replace") if at < len(lines) else "(no such line)"
    return f"crates/{crate.name}/stdout:{at + 1}: wanted {line(wanted)}\ncrates/{crate.name}/stdout:{at + 1}: found  {line(found)}"


def told_lines(crate, said, most=30):
    """The lines of what was said that tell what is wrong, with the crate's files as seen from the top; or else the last ones."""
    lines = said.rstrip("\n").split("\n") if said else []
    lines = [re.sub(r"(?<![\w/])(?:\./)?(src|specs|proofs)/", rf"crates/{crate.name}/\1/", it) for it in lines]
    told = [it for it in lines if re.search(r"\berror\b|it is not proved|: not proved|: no proof|FAILED|panicked|: wanted|: found ", it)]
    return (told or lines[-12:])[:most]
