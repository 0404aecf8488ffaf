"""The steps of the gate. Each is its name, a call that gives what it counted, and whether the steps after it need what it makes."""
import contextlib
import functools
import glob
import os
import re
import shutil
import signal
import subprocess
import tempfile
import time
from concurrent.futures import ThreadPoolExecutor

import failures
import kit
import rows
from command import Ended, end_of, is_ending, noted, run
from crates import crates_of, text_of
from edits import edits_in
from kept import Kept, bytes_of, sum_of, sum_of_crate, sum_of_files, sum_of_kit
from lanes import processors, run_all
from proofs import Proofs, handles_of
from rooms import fill_room
from telling import COUNTED, TOOLS, Beside, Step
from trial import Trial
from verdicts import sum_of_mutant

# The crates whose checks together tell the rate of a machine.
RATED = ("nt_machine", "nt_core")
# How the names of crates end that only measure: `./gate all` alone proves them.
BENCH = "_bench"
# How long what is told to end may take for that, in seconds.
PATIENCE = 2
# What is made in the tree beside folders out/, maybe by a step that runs beside the one that is asked.
MADE = ("c/compile_commands.json", "rust/Cargo.lock")
# What compilers, their runtimes and the tests heed of the environment.
HEEDED = re.compile(r"(CC|CXX|AR|RT|C\w*FLAGS|LD\w*|MAKE\w*|PYTHON\w*|NT\w*|\w+_OPTIONS|GLIBC\w*|MALLOC\w*|LANG|LC_\w+)$")


def parents():
    """The parent of each process that runs, by the process's number."""
    found = {}
    for path in glob.glob("/proc/[0-9]*/stat"):
        with contextlib.suppress(OSError), open(path, "rb") as file:
            state, parent = file.read().rpartition(b")")[2].split()[:2]
            found.update({int(path.split("/")[2]): int(parent)} if state not in (b"Z", b"X") else {})
    return found


def send(numbers, sent):
    for it in numbers:
        with contextlib.suppress(OSError):
            os.kill(it, sent)


class Command(subprocess.Popen):
    """A command that ends with all that it began, whatever group or session that is in."""

    def terminate(self):
        # (each stands still before those that it began are looked for, so that it begins no more)
        found, new = [], [self.pid]
        while new:
            send(new, signal.SIGSTOP)
            found += new
            new = [it for it, parent in parents().items() if parent in found and it not in found]
        send(found, signal.SIGTERM)
        send(found, signal.SIGCONT)
        until = time.monotonic() + PATIENCE
        while parents().keys() & {*found} and time.monotonic() < until:
            time.sleep(0.02)
        send(parents().keys() & {*found}, signal.SIGKILL)


def counted(words, top, progress):
    """Runs a command that counts at its end, `N passed, M failed`; one that does not counts as one. Each line that it says is told, but for
    that count in its last line. (After a count that has failures, make adds a line.)"""
    if is_ending.is_set():
        raise Ended
    how, lines = {"stdin": subprocess.DEVNULL, "stdout": subprocess.PIPE, "stderr": subprocess.STDOUT, "errors": "replace"}, []
    with Command(words, cwd=top, **how) as child, noted(child):
        try:
            for line in child.stdout:
                if lines:
                    progress.tell(lines[-1])
                lines.append(line.rstrip("\n"))
            used = end_of(child)
        except BaseException:
            child.terminate()
            raise
    status = child.returncode
    found = next((COUNTED.match(it) for it in lines[:-3:-1] if COUNTED.match(it)), None)
    if lines and not COUNTED.match(lines[-1]):
        progress.tell(lines[-1])
    passed, failed = (int(found[1]), int(found[2])) if found else (0, 0)
    if not status and not failed:
        return Step(passed if found else 1, used=used)
    ended = f"killed by {signal.Signals(-status).name}" if status < 0 else f"{failed} failed" if failed else f"status {status}"
    first = [it[:100] for it in lines if it and not it.startswith((" ", "make", "NT_C=")) and not COUNTED.match(it)][:3]
    return Step(passed, ["; ".join([ended, *first])], failed or 1, used=used)


def laid_out_otherwise(crate, room, kept):
    """The files of the crate that `rt fmt` lays out otherwise. (It names each that it lays out, so this works on a copy.)"""
    total = sum_of("laid out", crate.name, sum_of_kit(), sum_of_files(crate.folder))
    if kept.has_passed(total):
        return []
    said = run([kit.find_rt(), "fmt"], fill_room(f"{room}/{crate.name}", crate, below=False))
    names = re.findall(r"^rt: formatted (.*)$", said.text, re.M) or ([f"rt fmt: status {said.status}"] if said.status else [])
    if not names:
        kept.note_passed(total)
    return [f"crates/{crate.name}/{it}" for it in names]


def each_file_is_laid_out(top, takes, progress):
    """Crates whose files an earlier run saw laid out as they stand are taken so, where `takes`."""
    kept = Kept(progress.tell, takes)
    with tempfile.TemporaryDirectory() as room, ThreadPoolExecutor(processors()) as pool:
        failed = sum(pool.map(lambda it: laid_out_otherwise(it, room, kept), crates_of(top).values()), [])
    for it in failed:
        progress.tell(f"{it}: `rt fmt` lays it out otherwise")
    return Step(0 if failed else 1, failed)


def edits_apply(top, progress):
    """(Each edit is counted where it is tried.)"""
    found, bad = edits_in(top)
    for it in bad:
        progress.tell(it)
    return Step(0 if bad else 1, [it.partition(":")[0] for it in bad])


def chosen_of(found, kept, tries_all):
    """The mutants that a run tries, by crate, with the sums under which their refusals are kept; and how many are taken as refused."""
    standing = {crate: [(it, sum_of_mutant(it)) for it in edits if tries_all or not it.is_private] for crate, edits in found.items()}
    left = {crate: {it: total for it, total in edits if not kept.has_passed(total)} for crate, edits in standing.items()}
    return {crate: edits for crate, edits in left.items() if edits}, sum(map(len, standing.values())) - sum(map(len, left.values()))


def proofs_and_mutants(tree, work, is_all, progress):
    """Proves each crate once, runs tests and programs, and tries mutants of each crate over what its proof kept: in lanes that the proofs leave.
    What the proofs made stands in the tree. With `is_all` nothing is taken that earlier runs kept, and what is dear is tried too."""
    # (what cannot be applied was told, and counted, by a step before)
    found, kept = edits_in(tree)[0], Kept(progress.tell, takes=not is_all)
    chosen, as_refused = chosen_of(found, kept, is_all)
    many = sum(map(len, chosen.values()))
    crates = crates_of(tree)
    only_read = [] if is_all else [it for it in crates if it.endswith(BENCH)]
    proofs = Proofs(crates, work, progress, handles_of(tree), kept, tried={it.name for it in chosen}, only_read=only_read)
    progress.tell(f"{many} mutants are tried, and of {as_refused} the refusals were kept by earlier runs")
    kept.bound()
    trials = [Trial(crate, list(edits), work, progress, proofs.held, edits, kept) for crate, edits in chosen.items()]
    tasks = proofs.tasks(list(proofs.crates))
    for it in trials:
        tasks.update(it.tasks(after=[it.crate.name]))
    progress.of, progress.total = "crates and checks", len(tasks) - len(trials)
    run_all(tasks)
    kept.bound()
    tell_costs(proofs, trials, as_refused, progress)
    tell_rate(proofs, work, progress)
    failed = [name for it in trials for name in [*it.failed, *it.untold()]]
    passed = len(proofs.passed) + as_refused + sum(len(it.refused) for it in trials)
    return Step(passed, [*proofs.failed, *failed], is_made=not proofs.failed)


def tell_costs(proofs, trials, as_refused, progress):
    """Tells what was proved and tried, and the processor seconds of each part."""
    refused, left_out = sum(len(it.refused) for it in trials), sum(len(it.left_out) for it in trials)
    rest = f"; {left_out} of crates that are not proved were left out" if left_out else ""
    progress.tell(f"{len(proofs.as_kept)} of {len(proofs.crates)} crates were taken as earlier runs kept them, and {as_refused} refusals of mutants")
    progress.tell(f"{len(proofs.parts)} crates were proved, {len(proofs.as_checked)} of them by their build, and {refused} mutants refused{rest}")
    progress.tell(f"{proofs.checked} modules were checked in this run, and {proofs.taken} taken from work that checks on this machine had kept")
    proofs.tell_times(sum(it.used for it in trials))


def tell_rate(proofs, work, progress):
    """Tells the rate of the machine, if this run proved the crates that tell it."""
    if all(it in proofs.parts and it in proofs.passed for it in RATED):
        seconds = sum(Trial(proofs.crates[it], [], work, progress).check({}).seconds for it in RATED)
        progress.tell(f"{' and '.join(RATED)}, with nothing to do and nothing beside them: checked, {seconds:.0f} s")


# What builds without proofs: the two programs as one, and the dispatcher for C programs. They have nothing in common, and are built side by side.
BUILDS = (("./ntrun", "script", "examples/hand_over.nts"), ("./ntlook", "why", "examples/hand_over.nts"), ("c/kit/unproved",))


def begun_builds(top, pool):
    """Begins to build without proofs what is not there. The steps that need none of it need not wait."""
    return [(words, pool.submit(run, words, top)) for words in BUILDS]


def unproved_build(begun, progress):
    """Waits for what was begun."""
    built = [(words, it.result()) for words, it in begun]
    failed = [(f"{words[0]}: status {said.status}", said.text.rstrip()) for words, said in built if said.status]
    for told in failed:
        progress.tell("\n".join(told))
    return Step(len(BUILDS) - len(failed), [it for it, _ in failed])


# The exit statuses that what is run on an example may end with.
STATUSES = {"script": (0,), "why": (0, 3, 4), "timeline": (0,), "explore": (0, 3)}
# A picture of the docs, and the example that it shows.
PICTURE, SHOWN = "docs/two_locks.svg", "examples/two_locks.nts"


def runs_of(top):
    """What is run on the examples, and what it has to write: of each its transcript, and what else examples/reports has."""
    scripts = sorted(os.path.relpath(it, top) for it in glob.glob(f"{top}/examples/*.nts"))
    wanted = {f"./ntrun script {it}": "" for it in scripts} | rows.reports(top)
    return [(line.split(" "), text) for line, text in wanted.items()]


def example(top, words, wanted):
    """Runs the words on an example, and answers what is told where it does not write this."""
    how = {"stdin": subprocess.DEVNULL, "capture_output": True, "errors": "backslashreplace"}
    ran = subprocess.run(words, cwd=top, check=False, **how)
    told = [] if ran.returncode in STATUSES[words[1]] else [f"{' '.join(words)}: exit status {ran.returncode}", *ran.stderr.splitlines()]
    if ran.stdout != wanted:
        script = text_of(f"{top}/{words[2]}").encode()
        told += failures.transcript_failure(words[2], script, wanted, ran.stdout, f"what {' '.join(words)} wrote")
    return told


def examples(top, progress):
    """The launchers write of each example what stands, and draw the picture. Not of each stands why its threads wait, a timeline, or orders."""
    runs = [*runs_of(top), (["./ntlook", "timeline", SHOWN, "--svg", "/dev/stdout"], text_of(f"{top}/{PICTURE}"))]
    with ThreadPoolExecutor(processors()) as pool:
        told = list(pool.map(lambda it: example(top, *it), runs))
    for it in sum(told, []):
        progress.tell(it.replace(f"{top}/", ""))
    failed = [words[2] for (words, _), lines in zip(runs, told) if lines]
    return Step(len(runs) - len(failed), failed)


def command(top, *words):
    """A step that is one command at the top of a tree."""
    return functools.partial(counted, list(words), top)


# What needs tools that not each machine has, and the test of each.
FOR_OTHERS = (
    ("the package for Python", "python/test"),
    ("the crates for Rust", "rust/test"),
    ("the emulator of Windows programs", "examples/emulator/test"),
    ("the drawings, as viewers show them", "tests/pictures"),
    ("a release, where no kit is", "release/test"),
)


def for_others(top, tell):
    """These tests, over the library for C as it was built last. One whose tools are lacking is told, and left out."""
    found = []
    for name, test in FOR_OTHERS:
        said = run([f"{top}/{test}", "--lacks"], top)
        if said.status:
            tell(f"gate: {name}: not tried: {said.text.strip()}")
        else:
            found.append((name, command(top, test), False))
    return found


def before_proofs(top, takes):
    """What needs no proof and no build. What earlier runs kept of it is taken where `takes`."""
    return [
        ("no conflict markers", command(top, "sh", "-c", r"git grep -nE '^(<{7}|>{7}|\|{7})( |$)' -- .; test $? = 1"), False),
        ("each file is laid out", functools.partial(each_file_is_laid_out, top, takes), False),
        ("docs/MODEL.md has each file of definitions", command(top, "docs/check_model"), False),
        ("the names of the docs", command(top, "docs/check_names"), False),
        ("each mutant applies", functools.partial(edits_apply, top), False),
        ("each public function has a mutant", command(top, "mutants/run", "--reached"), False),
    ]


def unproved(top, builds, lane):
    """What a change breaks first, over builds without proofs: each program takes many times as long there. The tests of C, which wait more than they
    work, run beside the others."""
    named = [
        ("the unproved build", functools.partial(unproved_build, builds), True),
        ("the examples", functools.partial(examples, top), False),
        ("the launcher, and the worked scripts", command(top, "tests/launcher", "--few"), False),
        ("random scripts and lives, a second way", command(top, "tests/compare", "--few"), False),
        (IN_C_UNPROVED, command(top, "make", "--no-print-directory", "-C", "c", "quick"), False),
    ]
    return with_long_ones_beside(named, lane)


def sum_of_machine():
    """A sum of what the tests of programs rest on beside the tree and the kit: the tools, the system, its user, and what compilers and libraries heed."""
    tools = [os.path.realpath(shutil.which(it) or it) for it in (*TOOLS, "cc", "c++", "ld", "python3", "sh", "bash")]
    told = [f"{it} {os.stat(it).st_size} {os.stat(it).st_mtime_ns}" if os.path.isfile(it) else f"no {it}" for it in tools]
    heeded = [f"{name}={value}" for name, value in sorted(os.environ.items()) if HEEDED.match(name)]
    return sum_of(*told, *os.uname(), str(os.geteuid() == 0), str(len(os.sched_getaffinity(0))), *heeded)


def sum_of_rest(tree, without):
    """A sum of the tree's files, but of its crates, of what is made, of mutants, and of what is left out."""
    left_out, found = {f"{tree}/{it}" for it in (".git", "crates", *MADE, *without)}, []
    for at, folders, names in os.walk(tree):
        folders[:] = sorted(it for it in folders if f"{at}/{it}" not in left_out and it not in ("out", "__pycache__"))
        found += [f"{at}/{it}" for it in sorted(names) if f"{at}/{it}" not in left_out and not it.endswith(".edits")]
    return sum_of(*(part for it in found for part in (os.path.relpath(it, tree), str(os.access(it, os.X_OK)), bytes_of(it))))


def repeated(tree, kept, names, without, words, call):
    """The step that runs these words at the top of the tree, by this call. It rests on the crates of these names, or on those with tests if there are none;
    on all else in the tree but what it can do `without`; and on the machine. If it passed over the same in an earlier run, it counts as it did then."""
    def step(progress):
        crates = crates_of(tree)
        used = [crates[it] for it in names] or [it for it in crates.values() if it.has_tests()]
        total = sum_of("a step", sum_of_machine(), sum_of_rest(tree, without), *words, *map(sum_of_crate, used))
        count = kept.has_passed(total)
        if count:
            progress.tell(f"taken as an earlier run kept it: {count} passed over the same files and tools")
            return Step(count)
        found = call(progress)
        if found.passed and not found.failed:
            kept.note_passed(total, found.passed)
        return found
    return step


# What is long, and begins once the proofs or builds are made, in this order, one at a time beside the steps whose turn it is. Over proved builds each
# of these, and most others, keeps two processors busy by itself: so there have to be four.
IN_C_UNPROVED = "the library for C programs, unproved"
LONG, PROCESSORS_OF_TWO = ("the library for C programs", "the scripts, each growth refused", "a release, where no kit is", IN_C_UNPROVED), 4


def with_long_ones_beside(named, lane, alone=None):
    """These steps, of which the first begins the long ones if it makes what they run. What is to run alone of tests of C waits for its turn."""
    beside = {name: Beside(call, lane, alone if name == LONG[0] else None) for name, call, _ in named if name in LONG}

    def makes(progress):
        found = named[0][1](progress)
        for it in LONG:
            if found.is_made and it in beside:
                beside[it].begin()
        return found

    calls = {named[0][0]: makes, **{name: it.turn for name, it in beside.items()}}
    return [(name, calls.get(name, call), is_needed) for name, call, is_needed in named]


def proved(tree, work, is_all, tell, lane):
    """The steps with proofs: over what earlier runs kept, or from nothing with each mutant, case and planted fault of C. Those of tests that take long are
    not run again over the same."""
    kept, alone = Kept(lambda _: None, takes=not is_all), f"{work}/alone"
    # (of c/ a preload may have the kit's compiler)
    no_growth = ["docs", "bench", *(os.path.relpath(it, tree) for it in glob.glob(f"{tree}/c/*") if not it.endswith("/kit"))]
    again = lambda names, without, words, *before: repeated(tree, kept, names, without, words, command(tree, *before, *words))
    in_c = ["make", "--no-print-directory", "-C", "c", "check", "ALL=1" if is_all else "STRICT=1"]
    named = [
        ("proofs, tests, programs and mutants", functools.partial(proofs_and_mutants, tree, work, is_all), True),
        ("the tests, each growth refused", again([], no_growth, ["tests/growths/tests"]), False),
        ("object numbers and handles", command(tree, "tests/types"), False),
        ("what closed objects leave", command(tree, "tests/memory"), False),
        ("the threads of a plan", command(tree, "tests/threads"), False),
        ("a grant between a look and a sleep", command(tree, "tests/woken"), False),
        ("the programs of docs/EMBEDDING.md, each growth refused", command(tree, "tests/growths/example"), False),
        ("the examples", functools.partial(examples, tree), False),
        ("the launcher, and the worked scripts", command(tree, "tests/launcher"), False),
        ("random scripts and lives, a second way", command(tree, "tests/compare", *["--all"] * is_all), False),
        ("the library for C programs", again(["nt_c", "ntrun", "ntlook", "ntrace", "nchoose"], ["bench"], in_c, "env", f"ALONE={alone}"), False),
        *for_others(tree, tell),
        ("the scripts, each growth refused", again(["ntrun", "ntlook"], no_growth, ["tests/growths/scripts"]), False),
    ]
    return named if is_all or processors() < PROCESSORS_OF_TWO else with_long_ones_beside(named, lane, alone)
