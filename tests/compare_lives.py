"""Long lives, drawn turn by turn: a dispatcher of nt_open_lasting, played by c/tests/transcript.c, beside the machine of bench/machine.py with what
docs/DECISIONS.md and c/nt.h say of numbers that are given again."""
import os
import random
import shutil
import subprocess
import sys

import building
import kit
from compare_scripts import Draw, Tally, shortened, told
from failures import TOP
from machine import NO_HANDLE, RIGHTS, Gone, Machine, Thread, kind_of
from orders import Names

THREADS, TURNS = 7, 600
NO_MORE_ITEMS, HANDLE_LIMIT = 259, 0x20000007
NO_CODE = 3
WANTED = {
    "a number is given again", "a number of a handle alone is given again", "begin: thread", f"begin: error {NO_MORE_ITEMS}", "aside: ok",
    f"aside: error {NO_HANDLE}", "copy: ok", "two waits end by one call", "any ends: abandoned",
}  # fmt: skip


def player(folder):
    """The C program that plays lives, built in this folder; None where the kit leaves no code of an unproved build to take."""
    library = f"{TOP}/crates/nt_c/out/libnt_c.a"
    if not building.is_current(library, ("src", "specs", "proofs"), os.R_OK):
        built = subprocess.run([f"{TOP}/c/kit/unproved"], stdout=subprocess.PIPE, text=True, check=False)
        if built.returncode == NO_CODE:
            return None
        if built.returncode:
            sys.exit("tests/compare: no library for C to be tested")
        library = built.stdout.splitlines()[-1]
    compiler = os.environ.get("CC") or shutil.which("cc") or f"{TOP}/c/kit/cc"
    own = f"{os.path.dirname(os.path.dirname(os.path.realpath(kit.find_rt())))}/c/liblibc_c.a"
    subprocess.run([compiler, "-O2", "-o", f"{folder}/lives", f"{TOP}/c/tests/transcript.c", library, own, "-lpthread"], check=True)
    return f"{folder}/lives"


class Life(Machine):
    """The machine, which gives numbers again: the number that was freed last comes first. Where its object is still waited for, any other may come;
    `given` is the one that did, and is taken if it is one of those."""

    def __init__(self, threads):
        super().__init__(threads)
        self.closed, self.unnamed, self.given = [], [], None

    def is_vacant(self, number):
        return number >= self.threads and isinstance(self.objects[number], Gone)

    def spare(self):
        """The place of the object number that is given again, or None."""
        if not self.closed or not self.unnamed:
            return None
        if self.is_vacant(self.unnamed[-1]):
            return len(self.unnamed) - 1
        return self.any_spare() if self.given in self.unnamed else None

    def any_spare(self):
        chosen = self.given if self.given in self.unnamed and self.is_vacant(self.given) else None
        return next((at for at, it in enumerate(self.unnamed) if it == chosen or chosen is None and self.is_vacant(it)), None)

    def take_spare(self, at):
        """Takes the number at this place, and the last one comes there."""
        number, last = self.unnamed[at], self.unnamed.pop()
        if at < len(self.unnamed):
            self.unnamed[at] = last
        return number

    def open(self, opened):
        """A handle for this object, with these rights."""
        handle = self.closed.pop() if self.closed else len(self.handles)
        self.handles[handle : handle + 1] = [opened]
        return handle

    def create(self, it):
        at = self.spare()
        if at is None:
            return super().create(it)
        number = self.take_spare(at)
        self.objects[number] = it
        return f"handle {self.open((number, RIGHTS[kind_of(it)]))}", None, None

    def do_dup(self, who, handle, access):
        answered = super().do_dup(who, handle, access)
        return f"handle {self.open(self.handles.pop())}", *answered[1:]

    def do_close(self, who, handle):
        number, _ = self.opened(handle)
        answered = super().do_close(who, handle)
        self.closed.append(handle)
        if number >= self.threads and not any(it and it[0] == number for it in self.handles):
            self.unnamed.append(number)
        return answered

    def begin_thread(self):
        """A thread begins in the place of one that has ended and is gone: in `given`, if that is one."""
        places = [it for it in range(self.threads) if isinstance(self.objects[it], Gone)]
        if not places or not self.closed:
            return f"error {NO_MORE_ITEMS}"
        thread = self.given if self.given in places else places[0]
        self.objects[thread], self.handing[thread] = Thread(False), False
        return f"thread {thread} handle {self.open((thread, RIGHTS['thread']))}"

    def set_aside(self, thread):
        """The object of an ended thread gets the number of one that is gone, or the next, of which there are at most as many as handles."""
        is_ended = thread < self.threads and self.objects[thread] == Thread(True)
        if not is_ended or any(thread in it.objects for it in self.waits.values()):
            return f"error {NO_HANDLE}"
        at = self.any_spare()
        if at is None and len(self.objects) == len(self.handles):
            return f"error {HANDLE_LIMIT}"
        number = len(self.objects) if at is None else self.take_spare(at)
        self.objects[number : number + 1], self.objects[thread] = [self.objects[thread]], Gone()
        self.handles = [(number, it[1]) if it and it[0] == thread else it for it in self.handles]
        return "ok"


class Turns(Draw):
    """What is done next in a life. Handles are named by their numbers, which come again."""

    def __init__(self, rng, machine):
        super().__init__(rng, machine, {})
        self.most, self.is_crowd = 20, rng.random() < 0.5

    def name(self, letter):
        return letter

    def turn(self):
        drawn = self.rng.random()
        ended = [it for it in range(THREADS) if self.machine.objects[it] == Thread(True)]
        if drawn < 0.06:
            return "begin" if drawn < 0.03 or not ended else f"aside {self.rng.choice(ended)}"
        if drawn < 0.07:
            return "copy" if drawn < 0.065 else f"aside {self.rng.randrange(THREADS + 1)}"
        others = [it for it in self.callers() if it]
        if drawn < 0.1 and others:
            return f"t{self.rng.choice(others)} exit"
        return f"t{self.caller()} close {self.word()}" if drawn < 0.18 else self.line()


class Played:
    """The C program, which answers line by line."""

    def __init__(self, program):
        self.child = subprocess.Popen([program, "--lasting"], stdin=subprocess.PIPE, stdout=subprocess.PIPE, text=True)
        self.say(f"threads {THREADS}")
        self.number = 1

    def say(self, line):
        self.child.stdin.write(f"{line}\n")
        self.child.stdin.flush()

    def answers(self, line):
        """What is written of the line, up to the count of waits that pend."""
        self.say(line)
        self.number += 1
        lines = []
        while not lines or not lines[-1].startswith(f"{self.number}: waits "):
            said = self.child.stdout.readline()
            if not said:
                return [*lines, f"the program ended: {self.child.wait()}"]
            lines.append(said.rstrip("\n"))
        return lines

    def ends(self):
        self.child.stdin.close()
        self.child.stdout.close()
        return self.child.wait()


def wanted(life, names, line, number):
    """What the machine says of the line."""
    first, *rest = line.split()
    if first == "begin":
        answered = life.begin_thread(), []
    elif first == "aside":
        answered = life.set_aside(int(rest[0])), []
    elif first == "copy":
        answered = "ok", []
    elif first == "names":
        found = life.handles[int(rest[0])] if int(rest[0]) < len(life.handles) else None
        answered = f"object {found[0]} access {found[1]}" if found else f"error {NO_HANDLE}", []
    else:
        answered = names.carry_out(life, line)
    return *answered, [*told(number, *answered), f"{number}: waits {len(life.waits)} at {life.now}"]


def handle_to_look_at(life, line, found):
    """The handle that tells which number was given by the line, as it was answered."""
    words = found[0].split() if found else []
    if "handle" in words:
        return int(words[words.index("handle") + 1])
    if line.startswith("aside") and words[1:] == ["ok"]:
        thread = int(line.split()[1])
        return next((at for at, it in enumerate(life.handles) if it and it[0] == thread), None)
    return None


class Beside:
    """The two, side by side."""

    def __init__(self, program):
        self.played, self.life, self.names, self.tally = Played(program), Life(THREADS), Names(), Tally()

    def take(self, line):
        """Takes the line in both, and answers what differs."""
        found = self.played.answers(line)
        looks = handle_to_look_at(self.life, line, found)
        named = self.played.answers(f"names {looks}") if looks is not None else []
        self.life.given = int(named[0].split()[2]) if named and named[0].split()[1] == "object" else None
        handles = len(self.life.handles)
        answer, grants, said = wanted(self.life, self.names, line, self.played.number - (looks is not None))
        if looks is not None:
            said += wanted(self.life, self.names, f"names {looks}", self.played.number)[2]
        self.note(line, answer, grants, handles)
        if said == found + named:
            return []
        return [f"turn: {line}", *(f"the machine: {it}" for it in said), *(f"the program: {it}" for it in found + named)]

    def note(self, line, answer, grants, handles):
        self.tally.note(line, answer, grants)
        if "handle" in answer and not line.startswith("begin") and len(self.life.handles) == handles:
            is_duplicate = line.split()[1] == "dup"
            self.tally["a number of a handle alone is given again" if is_duplicate else "a number is given again"] += 1


def replay(program, lines):
    """What differs on these lines, or nothing."""
    beside = Beside(program)
    try:
        return next((it for it in map(beside.take, lines) if it), [])
    finally:
        beside.played.ends()


def compare(program, name):
    """The tally of the life of this name, and what is told if the two sides differ."""
    beside, lines = Beside(program), []
    turns = Turns(random.Random(name), beside.life)
    try:
        for _ in range(TURNS):
            lines.append(turns.turn())
            differs = beside.take(lines[-1])
            if differs:
                fewer = shortened(lines, lambda rest: replay(program, rest))
                return dict(beside.tally), [f"life {name}, after {len(lines)} turns", *fewer, *differs]
    finally:
        beside.played.ends()
    return dict(beside.tally), []
