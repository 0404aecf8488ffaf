"""What a program tells of places in files that are stripped, away, replaced or broken, and with which addr2line: for c/tests/hangs/run."""
import os
import random
import re
import signal
import struct
import subprocess

NAME = "lost_pulse"
FUNCTION = re.compile(r"[\w.]+\+0x\.\. \(([^)]*)\)")
IN_LIBRARY = "int hang(void); int main(void) { return hang(); }\n"
# A library whose constructor waits for ever, and a program that loads it.
WAITS = """#include <windows.h>
__attribute__((constructor)) static void wait_for_ever(void) { WaitForSingleObject(CreateEventA(NULL, TRUE, FALSE, NULL), INFINITE); }
"""
LOADS = "#include <dlfcn.h>\nint main(void) { return dlopen(LIBRARY, RTLD_NOW) == 0; }\n"


class Files:
    """Builds the program in each of these ways, once the library is there. `run` is the module that tells how."""

    def __init__(self, run, folder, way):
        self.run, self.folder, self.way = run, folder, way
        _, self.wanted = run.wanted(NAME)

    def build(self, name, *flags):
        """Builds the program so, and answers it."""
        program = f"{self.folder}/{name}"
        words = [*self.run.WAYS[self.way], *self.run.WARNINGS, "-g", f"-I{self.run.C}/win", "-o", program, f"{self.run.HERE}/{NAME}.c", *flags]
        subprocess.run([*words, *self.library()], check=True)
        return program

    def library(self):
        return [f"{self.folder}/ntwin.o", os.environ["NT_C"], os.environ["LIBC_C"], "-lpthread"]

    def build_library(self, name, *flags):
        """Builds the program as a shared object, and one that calls it; answers both."""
        shared, program = f"{self.folder}/{name}.so", f"{self.folder}/{name}"
        words = [*self.run.WAYS[self.way], *self.run.WARNINGS, "-g", f"-I{self.run.C}/win"]
        subprocess.run([*words, "-fPIC", "-shared", "-Dmain=hang", "-Dhang(unused)=hang(void)", "-o", shared, f"{self.run.HERE}/{NAME}.c", *flags],
                       check=True)
        with open(f"{program}.c", "w", encoding="utf-8") as file:
            file.write(IN_LIBRARY)
        subprocess.run([*words, "-rdynamic", "-o", program, f"{program}.c", shared, *self.library()], check=True)
        return shared, program

    def tells(self, program, wanted, lines_of=None, meanwhile=lambda: None, **environment):
        """It tells this at SIGQUIT, once that is done; the lines are of another build of the same program, if one is given."""
        run = self.run.Run(program, lines_of, NTWIN_WHY="signal", **environment)
        try:
            run.await_line("SigBlk:", lambda it: int(it, 16) >> (signal.SIGQUIT - 1) & 1)
            meanwhile()
            run.quit_until(wanted)
        finally:
            run.end()

    # What a file may be.

    def is_stripped(self):
        self.tells(self.build("stripped", "-s"), FUNCTION.sub(r"\1", self.wanted), self.build("not_stripped"))

    def is_at_its_address(self):
        self.tells(self.build("not_pie", "-no-pie", "-fno-pie"), self.wanted)

    def is_deleted(self):
        program = self.build("deleted")
        self.tells(program, self.wanted, meanwhile=lambda: os.unlink(program))

    def is_replaced(self):
        program = self.build("replaced")
        def replace():
            os.rename(program, f"{program}.old")
            with open(program, "w", encoding="utf-8") as file:
                file.write("another")
        self.tells(program, self.wanted, f"{program}.old", replace)

    def is_in_library(self):
        _, program = self.build_library("in_library")
        self.tells(program, self.in_library())

    def in_library(self):
        return self.wanted.replace("main+", "hang+")

    def of_library(self, name):
        """Of a library whose file is no longer there the loader knows what it exports."""
        place = f"{self.folder}/{name}.so+0x.."
        return re.sub(r"work\+0x\.\. \([^)]*\)", place, re.sub(r"hang\+0x\.\. \([^)]*\)", f"hang+0x.. ({place})", self.in_library()))

    def library_is_deleted(self):
        shared, program = self.build_library("deleted_library")
        self.tells(program, self.of_library("deleted_library"), meanwhile=lambda: os.unlink(shared))

    def library_is_built_anew(self):
        """A file of the same layout, whose build id alone differs."""
        shared, program = self.build_library("built_anew", "-Wl,--build-id=0x1234")
        other, _ = self.build_library("other", "-Wl,--build-id=0x4321")
        self.tells(program, self.of_library("built_anew"), meanwhile=lambda: os.rename(other, shared))

    def is_in_constructor(self):
        """Who loads a library has the loader's lock while its constructor waits: that is told all the same."""
        shared, program = f"{self.folder}/waits.so", f"{self.folder}/loads"
        words = [*self.run.WAYS[self.way], *self.run.WARNINGS, f"-I{self.run.C}/win"]
        for path, text, flags in ((shared, WAITS, ["-fPIC", "-shared"]), (program, LOADS, [f'-DLIBRARY="{shared}"', "-rdynamic", *self.library(), "-ldl"])):
            with open(f"{path}.c", "w", encoding="utf-8") as file:
                file.write(text)
            subprocess.run([*words, "-o", path, f"{path}.c", *flags], check=True)
        run = self.run.Run(program, NTWIN_WHY="signal", PATH="/nowhere")
        try:
            run.await_line("SigBlk:", lambda it: int(it, 16) >> (signal.SIGQUIT - 1) & 1)
            while "waits for event" not in run.quit(self.run.SECONDS / 10):
                pass
        finally:
            run.end()

    # Which addr2line there is.

    def command(self, name, text):
        folder = f"{self.folder}/{name}"
        os.mkdir(folder)
        with open(f"{folder}/addr2line", "w", encoding="utf-8") as file:
            file.write(f"#!/bin/sh\n{text}\n")
        os.chmod(f"{folder}/addr2line", 0o755)
        return f"{folder}:{os.environ['PATH']}"

    def without_addr2line(self):
        self.tells(self.build("without"), self.wanted, PATH="/nowhere:")

    def with_one_in_the_folder(self):
        """One in a folder that depends on where the program runs is not taken."""
        program = self.build("with_one")
        self.command("here", "echo evil.c:1")
        self.tells(program, self.wanted, PATH=f"here:{os.path.relpath(self.folder)}/here::.")

    def with_one_that_hangs(self):
        self.tells(self.build("with_hanging"), self.wanted, PATH=self.command("hangs", "exec sleep 1000"))

    def with_one_that_never_ends(self):
        self.tells(self.build("with_endless"), self.wanted, PATH=self.command("endless", "while :; do echo '??:0'; done"))

    def with_one_that_fails(self):
        self.tells(self.build("with_failing"), self.wanted, PATH=self.command("fails", "exit 1"))

    def with_strange_lines(self):
        """A report has no control characters, whatever stands in a file."""
        wanted = re.sub(r"\([^)]*\)", "(a?b c.c:7)", self.wanted)
        self.tells(self.build("with_strange"), wanted, PATH=self.command("strange", "for i in $(seq 64); do printf 'a\\001b c.c:7 (discriminator 2)\\n'; done"))

    # A file that somebody breaks: whatever stands in it, the program tells and goes on.

    def breaks(self):
        """Ways to break this file, where nothing of it is in memory: its head's and sections' fields, and its tables."""
        with open(self.broken, "rb") as file:
            whole = file.read()
        sections, = struct.unpack_from("<Q", whole, 0x28)
        count, = struct.unpack_from("<H", whole, 0x3C)
        values = [0, 1, 0xFF, 0x7FFFFFFFFFFFFFFF, 0xFFFFFFFFFFFFFFFF, len(whole), len(whole) - 1]
        for at, size in ((0x20, 8), (0x28, 8), (0x36, 2), (0x38, 2), (0x3A, 2), (0x3C, 2)):
            yield from ((at, (value & (1 << 8 * size) - 1).to_bytes(size, "little")) for value in values)
        for i in range(count):
            kind, = struct.unpack_from("<I", whole, sections + i * 64 + 4)
            if kind in (2, 3): # (tables of symbols and of names)
                for at, size in ((4, 4), (24, 8), (32, 8), (40, 4), (56, 8)):
                    yield from ((sections + i * 64 + at, (value & (1 << 8 * size) - 1).to_bytes(size, "little")) for value in values)
        begin = min(struct.unpack_from("<Q", whole, sections + i * 64 + 24)[0] for i in range(count)
                    if struct.unpack_from("<I", whole, sections + i * 64 + 4)[0] == 2)
        chance = random.Random(1)
        yield from ((chance.randrange(begin, len(whole) - 64), chance.randbytes(64)) for _ in range(100))

    def settle(self, run):
        """Waits until both threads wait."""
        while "STUCK" not in run.quit():
            pass

    def is_broken(self):
        self.broken, program = self.build_library("broken")
        with open(self.broken, "rb") as file:
            whole = file.read()
        run = self.run.Run(program, None, NTWIN_WHY="signal", PATH="/nowhere")
        try:
            run.await_line("SigBlk:", lambda it: int(it, 16) >> (signal.SIGQUIT - 1) & 1)
            self.settle(run)
            for at, with_what in list(self.breaks()):
                with open(self.broken, "r+b") as file:
                    os.pwrite(file.fileno(), with_what, at)
                said = run.quit()
                if "STUCK" not in said or any(it < " " or it == "\x7f" for it in said.replace("\n", "")):
                    raise self.run.Wrong(f"with {with_what} at {at:#x} it told\n{said}")
                with open(self.broken, "r+b") as file:
                    os.pwrite(file.fileno(), whole[at:at + len(with_what)], at)
            os.truncate(self.broken, 100)
            if "STUCK" not in run.quit():
                raise self.run.Wrong("it told nothing of a file that was cut")
        finally:
            run.end()

    def all(self):
        return [self.is_stripped, self.is_at_its_address, self.is_deleted, self.is_replaced, self.is_in_library, self.library_is_deleted,
                self.library_is_built_anew, self.is_in_constructor, self.without_addr2line, self.with_one_in_the_folder, self.with_one_that_hangs,
                self.with_one_that_never_ends, self.with_one_that_fails, self.with_strange_lines, self.is_broken]
