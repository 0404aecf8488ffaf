"""Programs with a library before all others, which counts or refuses what they ask of the system, and tells of it by descriptor 9."""
import contextlib
import os
import subprocess
import sys
import tempfile

from failures import TOP


def program_of(crate, verb="run"):
    """The path of the crate's program, or of its tests. Who asks ends if it is not built."""
    path = f"{TOP}/crates/{crate}/out/{crate}{'_tests' if verb == 'test' else ''}"
    if not os.path.isfile(path):
        sys.exit(f"no program: (cd crates/{crate} && rt {verb}) builds it, and so does ./gate")
    return path


@contextlib.contextmanager
def preload(source="growths/allocations.c"):
    """The path of this source below tests, compiled to such a library, while this lasts."""
    with tempfile.TemporaryDirectory() as folder:
        subprocess.run([f"{TOP}/tests/growths/compile_preload", f"{TOP}/tests/{source}", f"{folder}/preload.so"], check=True)
        yield f"{folder}/preload.so"


def preloaded(library, told, words, **environment):
    """The words that run these with the library, and with this in the environment. What it tells comes into the file `told`."""
    given = [f"{name}={value}" for name, value in {"LD_PRELOAD": library, **environment}.items()]
    return ["bash", "-c", 'exec 9>"$0"; exec env "$@"', told, *given, *words]


def told_by(library, words, stdin=subprocess.DEVNULL, stderr=None, **environment):
    """The exit status of these words with the library, what they wrote, and what it told."""
    with tempfile.NamedTemporaryFile() as told:
        how = {"stdin": stdin, "stdout": subprocess.PIPE, "stderr": stderr, "check": False, "timeout": 600}
        ran = subprocess.run(preloaded(library, told.name, words, **environment), **how)
        return ran.returncode, ran.stdout, told.read()


def count_allocations(library, words, **how):
    """How many allocations these words make where none is refused."""
    return int(told_by(library, words, stderr=subprocess.DEVNULL, REFUSE=0, **how)[2] or 0)


def refusing(library, words, numbers, stdin=subprocess.DEVNULL):
    """What comes of these words with each of these allocations refused in turn: the exit status, what was written and what was said."""
    environment = {**os.environ, "LD_PRELOAD": library, "REFUSE": "0", "EACH": "".join(f"{it} " for it in numbers)}
    ran = subprocess.run(words, env=environment, stdin=stdin, capture_output=True, check=False)
    written, said = (it.split(b"\0")[:-1] for it in (ran.stdout, ran.stderr))
    return [(os.waitstatus_to_exitcode(int(it[1])), it[0], it[2]) for it in zip(written[::2], written[1::2], said)]
