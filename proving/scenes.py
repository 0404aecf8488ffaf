"""The gate's tests of itself: made-up scenes, each with something wrong that the gate must see. They come first, and end the run where one fails."""
import contextlib
import functools
import glob
import itertools
import os
import re
import shutil
import subprocess
import sys
import tempfile
import unittest.mock
from concurrent.futures import ThreadPoolExecutor, wait

import kit
import steps
import telling
from command import Said, why_no_proof_of_tests, why_not_proved
from crates import text_of
from edits import edits_in
from kept import Kept, bytes_of, sum_of_kit_of
from judging import judge_alone, judge_round
from progress import Progress
from sources import functions_of

TOP = os.path.dirname(os.path.dirname(os.path.realpath(__file__)))
PROVED, REFUSED = "logic=proved functions=1\n", "note: src/lib.rt:3:1: it is not proved that it gives 1\nlogic=not-proved functions=1\n"
# Stands for the command rt: it says what lies in src/VERB of the crate where it is called, ends with the status in src/VERB.status, and makes what rt would
# make. Of a text that has the word `wrong` it says what lies in src/refused. Each call is noted.
RT = """#!/bin/sh
say() {
    while IFS= read -r line; do echo "$line"; done < "$1"
}
echo "$*" >> "$CALLED"
[ -d out/rlib ] || [ "$1" = version ] || mkdir -p out/incremental out/rlib
verb=$1
[ ! -f src/lib.rt ] || case $(say src/lib.rt) in *wrong*) verb=refused ;; esac
case $* in
version) echo "$KIT"; exit 0 ;;
*--only*) echo only=0 proved=0; [ $verb = refused ] || exit "$READS"; echo fn low::one: not proved ;;
lib*) echo built > out/rlib/built; [ -z "$BUILT" ] || { echo "$BUILT"; exit; } ;;
run*) printf '#!/bin/sh\\nread -r it < "%s"\\necho "$it"\\n' "$CALLED.number" > "out/${PWD##*/}"; chmod +x "out/${PWD##*/}" ;;
test*) printf '#!/bin/sh\\n[ "$1" = --list ] && echo "one: test" && exit; exit "$TEST"\\n' > "out/${PWD##*/}_tests"; chmod +x "out/${PWD##*/}_tests" ;;
esac
echo work > out/incremental/work
if [ -f "src/$verb" ]; then say "src/$verb"; else echo 'logic=proved functions=1'; fi
[ ! -f "src/$verb.status" ] || exit "$(say "src/$verb.status")"
"""
# The tree of a scene: a library with one mutant, a program over it, its tests, and a crate that only measures.
FILES = {
    "crates.txt": "low:\napp: low\nrows: low\nlow_bench: low\n",
    "HANDLES": "Handles allowed: none.\n",
    "crates/low/src/lib.rt": "pub fn one() -> usize\n{\n    1\n}\n\npub fn two() -> usize\n{\n    2\n}\n",
    "crates/low/src/lib": f"crate low: modules loaded=100 checked=0\n{PROVED}",
    "crates/low/src/refused": REFUSED,
    "crates/low/src/refused.status": "1\n",
    "crates/app/src/main.rt": "fn main() {}\n",
    "crates/app/stdout": "9\n",
    "crates/low_bench/src/main.rt": "fn main() {}\n",
    "crates/low_bench/stdout": "9\n",
    "crates/rows/src/lib.rt": "#[cfg(test)]\nmod tests;\n",
    "crates/rows/src/tests.rt": "#[test]\nfn one() {}\n",
    "crates/rows/src/test": f"{PROVED[:-1]} tests=1\n",
    "mutants/low.edits": "# gives_another\nfile: src/lib.rt\nold:     1\nnew:     wrong\n\n"
    "# private gives_more\nfile: src/lib.rt\nold:     2\nnew:     wrong\n",
}
# The same with a library between the other and the program.
OVER = {"crates.txt": FILES["crates.txt"].replace("app:", "over: low\napp: over"), "crates/over/src/lib.rt": "pub fn three() -> usize\n{\n    3\n}\n"}
# What a check may end with and say, none of which shows that a crate is proved.
NOT_PROVED = [(0, ""), (0, "logic=not-proved functions=1"), (1, PROVED), (-9, PROVED), (0, f"warning: no call of `low::one` can be made\n{PROVED}")]
NOT_PROVED += [(0, f"{PROVED[:-1]} {it}") for it in ("hides=1", "bugs=1", "foreign=1", "may-abort=1", "unheard-of=1", "main=Net", "may-wait=1")]
# The same of tests.
NOT_PASSED = [(0, PROVED), (1, f"{PROVED[:-1]} tests=1"), (-9, f"{PROVED[:-1]} tests=1"), (0, f"{PROVED[:-1]} tests=0"), (0, f"{PROVED[:-1]} tests=1 bugs=1")]
# What a check of a mutant may end with, none of which refuses it.
NOT_REFUSED = [(0, PROVED), (0, REFUSED), (1, ""), (2, REFUSED), (3, REFUSED), (-9, REFUSED), (1, f"src/lib.rt:3:5: error: no such name\n{REFUSED}")]
# What must not pass as a step.
NO_STEPS = ["echo 3 passed, 0 failed; exit 1", "echo 3 passed, 0 failed; kill -9 $$", "echo 3 passed, 1 failed", "echo 2 passed, 0 failed"]
NO_STEPS += ["echo 0 passed, 0 failed", "exit 2"]
# A run that prints the sums of a crate and of its mutant, before and after a merge of the code that judges them.
MERGED = """import sys
sys.dont_write_bytecode = True
sys.path[:0] = [f"copy/{it}" for it in ("proving", "mutants", "launcher")]
import edits, kept, verdicts
for merges in (True, False):
    crate, mutants = next(iter(edits.edits_in("tree")[0].items()))
    print(kept.sum_of_crate(crate), verdicts.sum_of_mutant(mutants[0]))
    for it in ("proving/proofs.py", "mutants/judging.py") if merges else ():
        with open(f"copy/{it}", "a") as file:
            file.write("# merged")
"""
# A run that ends while a step runs beside others: early, or by a signal in another's turn, when that has said something. Each writes the number of a
# process that it began.
ENDED = """import os, sys, time
sys.dont_write_bytecode = True
sys.path[:0] = [f"{sys.argv[1]}/{it}" for it in ("proving", "mutants", "launcher", "tests")]
import signal, steps, telling
class Signals:
    def tell(self, _):
        os.kill(os.getpid(), int(sys.argv[2]))
# (what runs in the background of a shell begins with this one ignored)
signal.signal(signal.SIGINT, signal.SIG_DFL)
telling.end_by_signals()
with telling.lane(1) as lane:
    telling.Beside(steps.command(".", "sh", "-c", "timeout 60 sh -c 'echo $$ > began; sleep 20 && touch late' > /dev/null & wait"), lane).begin()
    while not os.path.exists("began") or not os.path.getsize("began"):
        time.sleep(0.01)
    if sys.argv[2:]:
        steps.command(".", "sh", "-c", "echo $$ > turn; echo one; echo two; exec sleep 20")(Signals())
"""
# Where what a step tells goes.
NOWHERE = open(os.devnull, "w", encoding="utf-8")  # pylint: disable=consider-using-with
# What the gate calls where it runs as a whole, beside the fake rt and Python: other tools are lacking there.
CALLED = ("sh", "env", "git", "mkdir", "chmod")


def write(path, text, mode=0o644):
    os.makedirs(os.path.dirname(path), exist_ok=True)
    with open(path, "w", encoding="utf-8") as file:
        file.write(text)
    os.chmod(path, mode)


def write_tree(folder, **changes):
    """Writes the tree of a scene into this folder, with these files of its library otherwise."""
    shutil.rmtree(f"{folder}/crates", ignore_errors=True)
    changed = {f"crates/low/src/{name.replace('_', '.')}": text for name, text in changes.items()}
    for path, text in {**FILES, **changed}.items():
        write(f"{folder}/{path}", text)


def ran(folder, is_all=False, beside=None, **changes):
    """Runs the proofs and mutants of a scene, with these files of its library and these `beside` it otherwise; returns what was counted, what failed,
    what was told, and how many checks there were."""
    write_tree(f"{folder}/tree", **changes)
    for path, text in (beside or {}).items():
        write(f"{folder}/tree/{path}", text)
    write(os.environ["CALLED"], "")
    with open(f"{folder}/told", "w+", encoding="utf-8") as told:
        found = steps.proofs_and_mutants(f"{folder}/tree", f"{folder}/rooms", is_all, Progress(out=told))
        told.seek(0)
        text = told.read()
    with open(os.environ["CALLED"], encoding="utf-8") as calls:
        return found.passed, sorted(found.failed), text, len(re.findall("(?m)^check --jobs", calls.read()))


def judged(folder):
    """What a tool says is judged."""
    yield not why_not_proved(Said(0, PROVED, 0), []) and not why_no_proof_of_tests(Said(0, f"{PROVED[:-1]} tests=1", 0), [])
    yield from (why_not_proved(Said(*it, 0), []) for it in NOT_PROVED)
    yield from (why_no_proof_of_tests(Said(*it, 0), []) for it in NOT_PASSED)
    yield judge_alone(Said(1, REFUSED, 0), {})[0]
    yield from (not judge_alone(Said(*it, 0), {})[0] for it in NOT_REFUSED)
    write_tree(f"{folder}/tree")
    write(f"{folder}/tree/mutants/low.edits", f"{FILES['mutants/low.edits']}\n# gives_three\nfile: src/lib.rt\nold:     2\nnew:     3\n")
    crate, edits = next(iter(edits_in(f"{folder}/tree")[0].items()))
    functions = functions_of(crate)
    for it in edits:
        it.find(functions)
    said = f"{REFUSED}fn low::one: not proved\nfn low::two: proved\nonly=2 proved=1\n"
    yield [it.name for it in judge_round(Said(1, said, 0), edits, functions, {}, {})[0]] == ["low/gives_another"]
    yield judge_round(Said(0, said, 0), edits, functions, {}, {})[0] == []


def not_proved(folder):
    """A crate that is not proved fails, with what is above it and what is run of it; and none of that is kept."""
    for _ in range(2):
        passed, failed, *_ = ran(folder, check="logic=not-proved functions=1\n")
        yield (passed, failed) == (0, ["app", "low", "low_bench", "rows"])
    yield ran(folder, lib_status="1\n")[1] == ["app", "low", "low_bench", "rows"]
    for _ in range(2):
        yield ran(folder, beside={"crates/app/stdout": "8\n"})[1] == ["app"]
        yield ran(folder, beside={"crates/rows/src/test.status": "1\n"})[1] == ["rows"]
        os.environ["READS"] = "1"
        yield ran(folder, beside={"crates/low_bench/src/main.rt": "fn main() { gone() }\n"})[1] == ["low_bench"]
        os.environ["READS"] = "0"


def kept(folder):
    """What was kept is taken where nothing changed, and else not."""
    passed, failed, said, checks = ran(folder)
    yield (passed, failed, checks) == (5, [], 4)
    passed, failed, said, checks = ran(folder)
    yield (passed, failed, checks) == (5, [], 0) and "4 of 4 crates were taken as earlier runs kept them, and 1 refusals" in said
    yield ran(folder, is_all=True)[::3] == (6, 5)
    yield ran(folder, beside={"crates.txt": FILES["crates.txt"].replace("app: low", "app: low itoa")})[::3] == (5, 1)
    yield ran(folder, beside={"HANDLES": "Handles allowed: Wait.\n"})[::3] == (5, 3)
    yield ran(folder, lib_rt=f"// One.\n{FILES['crates/low/src/lib.rt']}")[::3] == (5, 4)
    at = f"{os.environ['XDG_CACHE_HOME']}/kawhopune/kept/low"
    for path, text in (("out/rlib/built", "bui"), ("out/rlib/more", ""), ("noted", '{"held"')):
        for it in os.listdir(at):
            write(f"{at}/{it}/{path}", text)
        passed, failed, said, checks = ran(folder)
        yield (passed, failed, checks) == (5, [], 0) and "low: what was kept of it was changed or cut short" in said and "1 of them by their build" in said
    os.environ["TEST"] = "1"
    yield ran(folder)[1] == ["rows"]
    os.environ["TEST"] = "0"
    write(f"{folder}/called.number", "8\n")
    yield ran(folder)[1] == ["app"]
    write(f"{folder}/called.number", "9\n")
    # (the mutant is proved from here on)
    for _ in range(2):
        passed, failed, *_ = ran(folder, refused=PROVED, refused_status="0\n")
        yield (passed, failed) == (4, ["low/gives_another"])
    yield ran(folder, check="logic=not-proved functions=1\n")[1] == ["app", "low", "low_bench", "rows"]
    os.environ["KIT"] = "another kit"
    sum_of_kit_of.cache_clear()
    yield ran(folder)[::3] == (5, 4)


def over_contracts(folder):
    """A library is built and not checked where a body below it changed, or a comment; its build has to prove it. What is declared below is checked."""
    text, specs = FILES["crates/low/src/lib.rt"], "abbrev pub one : Nat\none = 1\n"
    yield ran(folder, beside=OVER)[::3] == (6, 5)
    with unittest.mock.patch.dict(os.environ, {"BUILT": "logic=not-proved functions=1"}):
        yield ran(folder, beside=OVER, lib_rt=text.replace("    2", "    8 / 4"))[1] == ["app", "low/gives_another", "over"]
    declared, comment, body = (f"{text}\npub const THREE: usize = 3;\n", f"// One.\n{text}", text.replace("    2", "    6 / 3"))
    for by_build, changed in ((1, body), (1, comment), (0, text.replace("two()", "two(it: usize)")), (0, declared)):
        passed, failed, said, checks = ran(folder, beside=OVER, lib_rt=changed)
        yield (passed, failed, checks) == (6, [], 5 - by_build) and f"crates were proved, {by_build} of them by their build" in said
    yield ran(folder, beside={**OVER, "crates/low/specs/One.antt": specs})[::3] == (6, 5) and ran(folder, is_all=True, beside=OVER)[::3] == (7, 6)


def merged(folder):
    """What a run kept has the sum of the code that judged it, whatever is merged while it runs; the next run's is another."""
    write_tree(f"{folder}/tree")
    for it in ("proving", "mutants", "launcher"):
        shutil.copytree(f"{TOP}/{it}", f"{folder}/copy/{it}", ignore=shutil.ignore_patterns("__pycache__"))
    how = {"cwd": folder, "stdout": subprocess.PIPE, "check": True, "text": True}
    lines = [subprocess.run([sys.executable, "-c", MERGED], **how).stdout.splitlines() for _ in range(2)]
    yield len(lines[0]) == 2 and lines[0][0] == lines[0][1]
    yield not {*lines[0][0].split()} & {*lines[1][0].split()}


def taken(folder):
    """A step that passed is taken over the same files, and else run again; one that failed is run again."""
    kept_before, words = Kept(lambda _: None), ["sh", "-c", "echo x >> ../ran; echo 3 passed, 0 failed; exit $(cat tests/status)"]
    for held, path, text in ((1, "tests/status", "0\n"), (1, "tests/status", "0\n"), (2, "docs/page.md", "a page\n"), (2, "mutants/low.edits", ""), (2, "bench/a", ""),
                             (3, "crates/low/src/lib.rt", "// one\n"), (4, "tests/status", "1\n"), (5, "tests/status", "1\n"), (5, "tests/status", "0\n")):
        if not os.path.isdir(f"{folder}/tree"):
            write_tree(f"{folder}/tree")
        write(f"{folder}/tree/{path}", text)
        step = steps.repeated(f"{folder}/tree", kept_before, ["low"], ["bench"], words, steps.command(f"{folder}/tree", *words))
        found = step(Progress(out=NOWHERE))
        yield len(bytes_of(f"{folder}/ran")) == 2 * held and (found.passed, bool(found.failed)) == (3, text == "1\n")


def laid_out(folder):
    """A crate that was seen laid out is asked for again only where its files changed; one that was not, each time."""
    is_laid, is_not = {}, {"fmt": "rt: formatted src/lib.rt\n"}
    for changes, takes, failed, asked in ((is_not, True, 1, 4), (is_not, True, 1, 1), (is_laid, True, 0, 1), (is_laid, True, 0, 0), (is_laid, False, 0, 4)):
        write_tree(f"{folder}/tree", **changes)
        write(os.environ["CALLED"], "")
        found = steps.each_file_is_laid_out(f"{folder}/tree", takes, Progress(out=NOWHERE))
        yield (len(found.failed), bytes_of(os.environ["CALLED"]).count(b"fmt\n")) == (failed, asked)


def told(folder):
    """Each step that failed is told as failed, and the gate's status with it; what writes other bytes than stand for it fails."""
    script, why = ["./ntrun", "script", "examples/a.nts"], ["./ntlook", "why", "examples/a.nts"]
    write(f"{folder}/tree/examples/a.nts", "threads 1\n")
    for wrote, status, is_right in (("one\n", 0, True), ("other\n", 0, False), ("", 0, False), ("one\n", 1, False)):
        write(f"{folder}/tree/ntrun", f"#!/bin/sh\necho one\nexit {status}\n", 0o755)
        yield (not steps.example(f"{folder}/tree", script, wrote)) == is_right
    for held in ("", f"$ {' '.join(script)}\none\n"):
        write(f"{folder}/tree/examples/reports", f"{held}$ {' '.join(why)}\nheld\n  $ 2\n")
        yield steps.runs_of(f"{folder}/tree") == [(script, held and "one\n"), (why, "held\n  $ 2\n")]
    quiet, least = (telling, "Progress", functools.partial(Progress, out=NOWHERE)), (telling.LEAST, {"a scene": 3})
    with unittest.mock.patch.object(*quiet), unittest.mock.patch.dict(*least), ThreadPoolExecutor(1) as lane:
        for words, is_beside in itertools.product(["echo 3 passed, 0 failed", *NO_STEPS], (False, True)):
            gate, step = telling.Gate(folder, "scene"), telling.Beside(steps.command(folder, "sh", "-c", words), lane)
            if is_beside:
                step.begin()
                wait([step.ended])
            gate.step("a scene", step.turn)
            yield (gate.end(), [it[:9] for it in gate.failed]) == ((1, ["a scene: "]) if words in NO_STEPS else (0, []))


def beside(folder):
    """Long steps begin after the first, tell their own time, and leave for their turn what is to run alone; nothing is left of a run that ends."""
    at = lambda name: f"{folder}/{name}"
    step = lambda name, words: (name, steps.command(folder, "sh", "-c", words), False)
    alone = f"touch began; flock -w 20 {at('alone')} test -e turn && echo 1 passed, 0 failed"
    others = [step("other", "sleep 0.1; touch turn"), step(steps.LONG[0], alone), step(steps.LONG[1], "echo 2 passed, 1 failed")]
    for makes, wanted in (("exit 1", [(0, 1)]), ("echo 1 passed, 0 failed", [(1, 0), (1, 0), (1, 0), (2, 1)])):
        with ThreadPoolExecutor(1) as lane:
            named = steps.with_long_ones_beside([step("makes", makes), *others], lane, at("alone"))
            found = [call(Progress(out=NOWHERE)) for _, call, _ in named[: len(wanted)]]
        yield [(it.passed, it.many) for it in found] == wanted and os.path.exists(at("began")) == (len(wanted) > 1)
    yield (found[2].took or 0) > 0.1 and found[0].took is None
    for status, *signals in ((0,), (130, "2"), (143, "15")):
        os.remove(at("began"))
        write(at("turn"), "")
        ended = subprocess.run([sys.executable, "-c", ENDED, TOP, *signals], cwd=folder, stdin=subprocess.DEVNULL, check=False)
        numbers = (bytes_of(at("began")) + bytes_of(at("turn"))).split()
        yield ended.returncode == status and len(numbers) == 1 + len(signals) and not any(map(runs, numbers)) and not os.path.exists(at("late"))


def runs(number):
    """Whether a process of this number runs."""
    with contextlib.suppress(OSError):
        return bytes_of(f"/proc/{int(number)}/stat").rpartition(b")")[2][1:2] not in (b"", b"Z", b"X")
    return False


def as_a_whole(folder):
    """The gate ends with status 1 where a crate is not proved, and names the tools that are lacking."""
    write_tree(f"{folder}/copy", check="logic=not-proved functions=1\n")
    for it in [*glob.glob("*/*.py", root_dir=TOP), "gate"]:
        write(f"{folder}/copy/{it}", text_of(f"{TOP}/{it}"), 0o755)
    write(f"{folder}/copy/proving/scenes.py", "from telling import Step\n\n\ndef run(_):\n    return Step(1)\n")
    for _, it in steps.FOR_OTHERS:
        write(f"{folder}/copy/{it}", "#!/bin/sh\necho 'no such language here'\nexit 1\n", 0o755)
    for it in CALLED:
        os.symlink(shutil.which(it), f"{folder}/bin/{it}")
    os.symlink(sys.executable, f"{folder}/bin/python3")
    how = {"cwd": f"{folder}/copy", "env": {**os.environ, "PATH": f"{folder}/bin", "TMPDIR": folder}, "stdin": subprocess.DEVNULL}
    how |= {"capture_output": True, "text": True, "check": False, "errors": "replace"}
    for words in (["init", "-q"], ["add", "-A"], ["-c", "user.name=a", "-c", "user.email=a@b", "commit", "-qm", "a scene"]):
        subprocess.run(["git", *words], **how)
    ended = subprocess.run(["./gate"], **how)
    yield ended.returncode == 1 and re.search(r"\n\d+ passed, [1-9]\d* failed\n$", ended.stdout) and "proofs, tests, programs and mutants: low\n" in ended.stdout
    yield "this machine lacks valgrind" in ended.stdout and "this machine lacks gcc" in ended.stdout


def run(progress):
    """Runs the scenes, each in a folder of its own, with nothing of this machine's kit and of what is kept."""
    passed, failed = 0, []
    for scene in (judged, not_proved, kept, over_contracts, merged, taken, laid_out, told, beside, as_a_whole):
        with tempfile.TemporaryDirectory() as folder, contextlib.ExitStack() as stack:
            write(f"{folder}/bin/rt", RT, 0o755)
            write(f"{folder}/called.number", "9\n")
            stack.enter_context(unittest.mock.patch.dict(os.environ, {"XDG_CACHE_HOME": f"{folder}/cache", "CALLED": f"{folder}/called", "KIT": "a kit of scenes", "TEST": "0", "READS": "0", "BUILT": ""}))
            stack.enter_context(unittest.mock.patch.object(kit, "find_rt", lambda folder=folder: f"{folder}/bin/rt"))
            for number, holds in enumerate(scene(folder), 1):
                passed += bool(holds)
                failed += [] if holds else [f"{scene.__name__}, {number}: {scene.__doc__}"]
    if failed:
        # (what would count these may be at fault itself)
        progress.tell("".join(f"failed: the gate itself: {it}\n" for it in failed) + f"{passed} passed, {len(failed)} failed")
        raise SystemExit(1)
    return telling.Step(passed)
