"""What the launchers' tests have before them: files, those of bytes that no text says well, and those whose paths have each length and each
byte that a path may have; standard streams of other kinds; a copy of the launcher over sources of its own, and a kit that builds at once."""
import os
import shutil
import subprocess
import sys

import building
from crates import text_of
from failures import TOP
from rows import blocks_of, lines_of, rows_of, script_of, wanted_of

EMPTY = "end: pending none\n"
TEXTS, FILES, RUNS = rows_of("ntrun")
SAMPLE = FILES["sample.nts"]
# Files of bytes that no text says well.
FILES |= {"crlf.nts": SAMPLE.replace(b"\n", b"\r\n"), "no_last_lf.nts": SAMPLE[:-1], "-dash.nts": SAMPLE, "two words.nts": SAMPLE}
FILES |= {"utf16.nts": b"\xff\xfe" + SAMPLE.decode().encode("utf-16-le"), "utf16_bare.nts": SAMPLE.decode().encode("utf-16-le")}
FILES |= {"utf16_be.nts": b"\xfe\xff" + SAMPLE.decode().encode("utf-16-be")}
FILES |= {"bom.nts": b"\xef\xbb\xbf" + SAMPLE, "every_byte": bytes(range(256)) * 9, "no_lf": b"\x7fELF\x00" * 1000, "empty.nts": b""}
FILES |= {"longest.nts": b"threads 1;" + b"x" * 4086 + b"\n", "too_long.nts": b"threads 1\nt0 event e ;" + b"x" * 4085 + b"\n"}
_, LOOKED_AT, LOOKS = rows_of("ntlook")
KNOT = LOOKED_AT["knot.nts"]
LOOKED_AT |= {"crlf.nts": KNOT.replace(b"\n", b"\r\n"), "no_last_lf.nts": KNOT[:-1], "-dash.nts": KNOT, "fault.nts": KNOT + b"t0 sett m1\n"}
LOOKED_AT |= {"crossed_crlf.nts": LOOKED_AT["crossed.nts"].replace(b"\n", b"\r\n")}
# More refused calls, and more names, than are told one by one.
LOOKED_AT |= {"refusals.nts": b"threads 1\n" + b"t0 set 9\n" * 22, "names.nts": b"threads 1\n" + b"".join(b"t0 event %c%c\n" % (it, it) for it in b"abcdefghijklmnopqrstuv")}
# A journal's objects have the numbers of their handles, and its file has room left.
LOOKED_AT |= {"journal": b"threads 256\n; h256 is accounts\nt0 mutex h256\nt0 any inf plain 256\nt1 any inf plain 256\n" + bytes(9000)}
# Scripts with the order that hangs, by hand: what is made before all calls and all lines that say nothing, and then the lines in that order, each as it
# stands.
ORDERS = [(script, script_of(block)) for kind, script, block in blocks_of("ntlook") if kind == "order"]
# What standard streams of other kinds do: what it is, a command, and what it gives.
SHELLED = [(what, lines_of(block, "$")[0], wanted_of(block, TEXTS)) for kind, what, block in blocks_of("ntrun") if kind == "shell"]

# A path has folders with names of 199 bytes, and at last a file's name of up to 200. The script in each ends at a line of its own, so the transcript
# tells which file was read.
PART = 200
LONGEST = 4000
# Each length of up to two parts, and those beside each round number.
LENGTHS = sorted({*range(1, 2 * PART + 3), *(it + by for it in (512, 1000, 1024, 2000, 2048, 3000, 4000) for by in (-1, 0, 1) if it + by <= LONGEST)})
# Each byte alone, or as the second of two; and a character for each byte that can be the first of two to four.
CHARACTERS = [*range(1, 0xC0), *range(0xC0, 0x800, 0x40), 0x800, *range(0x1000, 0x10000, 0x1000), *range(0x10000, 0x110000, 0x40000)]
# Alone none of these is a character of UTF-8.
UNREADABLE = [bytes([it]) for it in range(0x80, 0x100)]
USAGE = (2, "", "ntrun: usage: ntrun script FILE or ntrun threads N ROUNDS\n")


def script_of(line):
    """A script with its one call in this line."""
    return b"threads 1" + b"\n" * (line - 1) + b"t0 event e\n"


def answer_of(line):
    """What the program answers to it."""
    return 0, f"{line}: handle 1\nend: pending none\n", ""


def path_of(length):
    folders, name = divmod(length - 1, PART)
    return (b"d" * (PART - 1) + b"/") * folders + b"n" * (name + 1)


def long_paths(folder):
    """Writes a file for each length, so that a shorter path names another one. Each that is to be read: what it is, its path, and what is answered."""
    # (from here none is longer than a path may be)
    here = os.open(folder, os.O_RDONLY)
    for length in range(1, LONGEST + 1):
        path = path_of(length)
        if length % PART == 1 and length > PART:
            os.mkdir(os.path.dirname(path), dir_fd=here)
        with open(path, "wb", opener=lambda it, flags: os.open(it, flags, dir_fd=here)) as file:
            file.write(script_of(length + 1))
    os.close(here)
    return [(f"a path of {it} bytes", path_of(it), answer_of(it + 1)) for it in LENGTHS]


def odd_paths(folder):
    """The same of each byte, in the middle of a name."""
    names = [b"a" + chr(it).encode() + b"z" for it in CHARACTERS if it != ord("/") and not 0xD800 <= it < 0xE000]
    for at, name in enumerate([*names, *UNREADABLE], 2):
        with open(os.fsencode(folder) + b"/" + name, "wb") as file:
            file.write(script_of(at))
    made = [(f"a path with the bytes {name.hex()}", name, answer_of(at)) for at, name in enumerate(names, 2)]
    return made + [(f"a path that is the byte {it.hex()}", it, USAGE) for it in UNREADABLE]


def write(path, held):
    with open(path, "wb") as file:
        file.write(held)


def said_of(text):
    """The lines of what was said, but for a launcher's own."""
    return [it for it in text.splitlines() if not it.startswith(("./ntrun: ", "./ntlook: "))]


def built_program():
    """The path of `ntrun`, which its launcher builds if it has to be. Who asks ends if it can't be built."""
    if subprocess.run([f"{TOP}/ntrun", "threads", "1", "1"], stdout=subprocess.DEVNULL, check=False).returncode == 125:
        sys.exit("no program to be tested")
    return building.path_once_built(building.NTRUN)


# A kit for the tests of building: it notes each of its runs, and the program that it builds is the shell, which takes its first word for the name of
# a file of commands: so these say what the program does.
COMMANDS = {
    "script": 'while read -r line; do :; done <"$1"; echo "end: pending ${WAITS:-none}"',
    "threads": 'echo threads "$@"',
    "explore": 'echo 12345 67890 17 >"$NT_PROGRESS"; sleep 2.5; echo "$1: explored"',
    "why": 'while read -r line; do :; done <"$1"; echo "$1:1: nobody waits"',
    "timeline": 'echo "$GLIBC_TUNABLES"',
}


class Scratch:
    """A copy of the launcher over sources of its own, with the kit above."""

    def __init__(self, folder):
        programs = ("ntrun", "ntlook")
        self.folder, self.rt = f"{folder}/a clone", f"{folder}/bin/rt"
        for it in ("launcher", "proving"):
            shutil.copytree(f"{TOP}/{it}", f"{self.folder}/{it}", ignore=shutil.ignore_patterns("__pycache__"))
        for it in programs:
            shutil.copy(f"{TOP}/{it}", self.folder)
        script = "threads 1\n"
        held = {"crates.txt": "ntrun:\nntlook:\n", "HANDLES": "", "one.nts": script, "examples/hand_over.nts": script}
        held |= {f"crates/{it}/src/main.rt": "" for it in programs}
        held |= {f"{at}{name}": text for at in ("", *(f"crates/{it}/" for it in programs)) for name, text in COMMANDS.items()}
        for path, text in [*((f"{self.folder}/{it}", text) for it, text in held.items()), (self.rt, text_of(f"{TOP}/tests/rows/kit")), (f"{self.rt}.runs", "")]:
            os.makedirs(os.path.dirname(path), exist_ok=True)
            write(path, text.encode("ascii"))
        os.chmod(self.rt, 0o755)

    def started(self, *words, who="ntrun", **environment):
        """A run of a launcher."""
        path = f"{os.path.dirname(self.rt)}:{os.environ['PATH']}"
        how = {"env": {**os.environ, "PATH": path, **environment}, "stdout": subprocess.PIPE, "stderr": subprocess.PIPE}
        return subprocess.Popen([f"{self.folder}/{who}", *words], cwd=self.folder, **how)

    def runs(self, *words, who="ntrun"):
        """The exit status, what was written, and what the kit was asked for by this run."""
        before = self.asked()
        ran = self.started(*words, who=who)
        written = ran.communicate(timeout=600)[0].decode()
        return ran.returncode, written, self.asked()[len(before) :]

    def says(self, *words, **environment):
        """The exit status, and what was said by the launcher."""
        ran = self.started(*words, **environment)
        said = ran.communicate(timeout=600)[1].decode().splitlines()
        return ran.returncode, [it for it in said if it.startswith("./ntrun: ")]

    def asked(self):
        with open(f"{self.rt}.runs", encoding="ascii") as file:
            return file.read().split()

    def edit(self):
        with open(f"{self.folder}/crates/ntrun/src/main.rt", "a", encoding="ascii") as file:
            file.write("// edited\n")

    def marks(self, how):
        write(f"{self.rt}.{how}", b"")
