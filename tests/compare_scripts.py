"""Random scripts, each drawn line by line beside the machine of bench/machine.py: so most of its lines are accepted as its objects stand, and
what it is to write is there once it is drawn."""
import collections
import random

from machine import CONTEXT, MODIFY, MS, SYNCHRONIZE, Machine, Mutex, Timer, kind_of, signaled
from orders import Names, lines_of

CREATIONS = ("event e", "event e manual", "event e set", "event e manual set", *["mutex m owned"] * 2, "mutex m", "timer x", "timer x manual")
COUNTS = [(0, 1), (0, 3), (2, 2), (1, 5), (0, 2147483647)] * 3 + [(3, 2), (0, 0), (-1, 2)]
RIGHTS = (0, 0, SYNCHRONIZE, SYNCHRONIZE, MODIFY, SYNCHRONIZE | MODIFY, SYNCHRONIZE | CONTEXT, CONTEXT, 1, 0xFFFFFFFF)
RELEASES = [1] * 6 + [2] * 3 + [3, 0, -1, 2147483647]
TIMES = ["inf"] * 7 + ["0", "0", "1", "1", "2", "3", "10", "4294967294", "4294967295"]
DUES = [-20000, -10000, -5000, -1, 0, 0] * 4 + [-(1 << 63), (1 << 63) - 1]
PERIODS = [0] * 6 + [1] * 4 + [2, 7, -1, 2147483647]
STEPS = (0, 1, 4999, 5000, 10000, 10000, 20000, 70000)

# So often a script is played again, with fewer lines.
MOST_TRIES = 400

# Each kind of answer and of ended wait must have come. Not among them: a mutex that its owner holds 2147483647 deep, and all 65,536 handles, which
# no script of some length comes to.
SIGNALS = {"set": "5 6", "reset": "5 6", "pulse": "5 6", "unlock": "6 288", "arm": "5 6 87", "cancel": "5 6", "apc": "5 6 31", "close": "6"}
WAITS = {"any": "5 6 87", "all": "5 6 87", "swap": "5 6 288 298"}
WANTED = {
    *(f"{keyword}: ok" for keyword in SIGNALS),
    *(f"{keyword}: error {it}" for keyword, numbers in SIGNALS.items() for it in numbers.split()),
    *(f"{keyword}: {it}" for keyword in WAITS for it in ("object", "abandoned", "APCs", "time is over", "pending")),
    *(f"{keyword}: error {it}" for keyword, numbers in WAITS.items() for it in numbers.split()),
    *(f"{keyword} ends: {it}" for keyword in WAITS for it in ("object", "abandoned", "APCs", "time is over")),
    *(f"any{ends}: {it}" for ends in ("", " ends") for it in ("a later object", "a later abandoned")),
    *(f"{keyword}: handle" for keyword in ("event", "semaphore", "mutex", "timer", "dup")),
    *("semaphore: error 87", "dup: error 5", "dup: error 6", "release: previous", *(f"release: error {it}" for it in (5, 6, 87, 298))),
    *("exit: ok", "sleep: object", "sleep: APCs", "sleep: pending", "sleep ends: object", "sleep ends: APCs"),
    *("next: apc", "next: apc of a timer", "next: none", "tick: ok", "tick: error 536870917"),
    *(f"a call: error {0x20000000 + it}" for it in (1, 2, 3)),
    *("two waits end by one call", "two waits end by one tick", "four waits end by one line"),
}


def kind_of_status(code):
    """What a status of a wait says."""
    if code in (0xC0, 0x102):
        return "APCs" if code == 0xC0 else "time is over"
    what = "object" if code < 0x80 else "abandoned"
    return what if code in (0, 0x80) else f"a later {what}"


def kind_of_answer(answer):
    """What an answer of the machine says, without its numbers."""
    first, *rest = answer.split()
    if first == "status":
        return kind_of_status(int(rest[0], 16))
    if first == "apc":
        return "none" if rest == ["none"] else "apc of a timer" if "at" in rest else "apc"
    return answer if first == "error" else first


def shortened(lines, still_differs):
    """The lines without those that can be left out: halves, quarters and so on, and then each."""
    tries, size = 0, len(lines) // 2
    while size and tries < MOST_TRIES:
        at = 0
        while at < len(lines) and tries < MOST_TRIES:
            rest, tries = lines[:at] + lines[at + size :], tries + 1
            lines, at = (rest, at) if still_differs(rest) else (lines, at + size)
        size //= 2
    return lines


class Tally(collections.Counter):
    """How often each kind of answer came."""

    def __init__(self):
        super().__init__()
        self.pending = {}

    def note(self, line, answer, grants):
        first, *rest = line.split()
        keyword, kind = rest[0] if first[0] == "t" and rest and first != "tick" else first, kind_of_answer(answer)
        is_of_caller = kind.startswith("error 5368709") and first != "tick"
        self["a call: " + kind if is_of_caller else f"{keyword}: {kind}"] += 1
        if kind == "pending":
            self.pending[int(first[1:])] = keyword
        for who, status in grants:
            self[f"{self.pending[who]} ends: {kind_of_status(status)}"] += 1
        if len(grants) > 1:
            self[f"two waits end by one {'tick' if first == 'tick' else 'call'}"] += 1
        if len(grants) > 3:
            self["four waits end by one line"] += 1


def told(number, answer, grants):
    """The lines of a transcript for a line of a script."""
    return [f"{number}: {answer}", *(f"{number}: t{who} status 0x{status:08X}" for who, status in grants)]


def end_of(machine):
    return "end: pending " + (" ".join(f"t{it}" for it in sorted(machine.waits)) or "none")


def transcript(text):
    """What the machine says to a script; None of one in which a name stands for nothing."""
    (_, opening), *lines = lines_of(text)
    machine, names, said = Machine(int(opening.split()[1])), Names(), []
    for number, line in lines:
        try:
            said += told(number, *names.carry_out(machine, line))
        except KeyError:
            return None
    return "\n".join([*said, end_of(machine)]) + "\n"


class Draw:
    """Lines for a machine, by chance. `names` says how handles are called; those that it lacks are numbers."""

    def __init__(self, rng, machine, names):
        self.rng, self.machine, self.names, self.made = rng, machine, names, 0
        # (In a crowd many threads wait for few objects, and hardly a call is refused.)
        self.is_crowd = machine.threads > 4 and rng.random() < 0.8
        self.most = rng.choice([2, 3, 4] if self.is_crowd else [4, 6, 12])

    def handles(self, *kinds):
        """The open handles of objects of these kinds, or of any."""
        return [at for at, it in enumerate(self.machine.handles) if it and (not kinds or kind_of(self.machine.objects[it[0]]) in kinds)]

    def word(self, *kinds):
        """A handle of these kinds, as a script may name it; now and then, or where there is none, any number."""
        found = self.handles(*kinds)
        if not found or self.rng.random() < (0.005 if self.is_crowd else 0.06):
            return str(self.rng.choice([self.rng.randrange(len(self.machine.handles) + 3), 65536, 4294967295]))
        return self.called(self.rng.choice(found))

    def called(self, it):
        called = [name for name, handle in self.names.items() if handle == it] + ([f"t{it}"] if it < self.machine.threads else [])
        return self.rng.choice(called) if called and self.rng.random() < 0.8 else str(it)

    def awaited(self, kind):
        """The same, and mostly one that a wait is for."""
        objects = {it for wait in self.machine.waits.values() for it in wait.objects}
        found = [it for it in self.handles(kind) if self.machine.handles[it][0] in objects]
        return self.called(self.rng.choice(found)) if found and self.rng.random() < 0.7 else self.word(kind)

    def callers(self):
        gone = [not hasattr(it, "ended") or it.ended for it in self.machine.objects[: self.machine.threads]]
        return [who for who in range(self.machine.threads) if who not in self.machine.waits and not gone[who]]

    def caller(self):
        """Mostly a thread that can call."""
        callers = self.callers()
        if not callers or self.rng.random() < 0.03:
            return self.rng.randrange(self.machine.threads + 1)
        return self.rng.choice(callers)

    def name(self, letter):
        self.made += 1
        return f"{letter}{self.made}"

    def time(self, who):
        """(The first thread mostly waits for nothing: so there is one that calls.)"""
        waits = who or not self.is_crowd and self.rng.random() < 0.1
        due = self.due_times() if self.rng.random() < 0.3 else []
        time = self.rng.choice(due or (["inf"] * 40 + TIMES if self.is_crowd else TIMES)) if waits else "0"
        return f"{time} {self.rng.choice(['plain', 'alertable'])}"

    def due_times(self):
        """The times after which timers are due: who waits so long times out at such a moment."""
        left = [it.armed.due - self.machine.now for it in self.machine.objects if isinstance(it, Timer) and it.armed]
        return [str(it // MS) for it in left if 0 < it < 100 * MS and it % MS == 0]

    def creation(self, _who):
        if self.rng.random() < 0.25:
            return f"semaphore {self.name('s')} {' '.join(map(str, (0, 3) if self.is_crowd else self.rng.choice(COUNTS)))}"
        keyword, letter, *flags = self.rng.choice(CREATIONS).split()
        return " ".join([keyword, self.name(letter), *flags])

    duplicate = lambda self, _who: f"dup {self.name('d')} {self.word()} {self.rng.choice(RIGHTS)}"
    close = lambda self, _who: f"close {self.word()}"
    signal = lambda self, _who: f"{self.rng.choice(['set', 'set', 'set', 'pulse', 'reset'])} {self.awaited('event')}"
    release = lambda self, _who: f"release {self.awaited('semaphore')} {self.rng.choice([1, 1, 1, 2, 3] if self.is_crowd else RELEASES)}"
    sleep = lambda self, who: f"sleep {self.time(who)}"
    apc = lambda self, _who: f"apc {self.word('thread')} {self.rng.randrange(9)} {self.rng.choice([0, 7, (1 << 64) - 1])}"
    next = lambda self, _who: "next"
    cancel = lambda self, _who: f"cancel {self.word('timer')}"
    exit = lambda self, who: "exit" if who or self.rng.random() < 0.1 else "next"

    def owned(self, who):
        return [at for at in self.handles("mutex") if self.machine.objects[self.machine.handles[at][0]].owner == who]

    def owner(self):
        """A thread that owns a mutex and can call, or None."""
        callers = self.callers()
        owners = [it.owner for it in self.machine.objects if isinstance(it, Mutex) and it.owner in callers]
        return self.rng.choice(owners) if owners else None

    def unlock(self, who):
        owned = self.owned(who)
        return f"unlock {self.rng.choice(owned) if owned and self.rng.random() < 0.8 else self.word('mutex')}"

    def wait(self, who):
        count = self.rng.choice([1] * 8 + [2] * 6 + [3] * 4 + [4, 5]) if self.rng.random() < 0.98 else self.rng.choice([0, 64, 65])
        kinds = self.rng.choice([("event", "semaphore", "mutex", "timer")] * 3 + [("mutex",), ("event",) if self.is_crowd else ()])
        words = [self.unset(who) if self.is_crowd else self.word(*kinds) for _ in range(count)]
        if self.rng.random() < 0.9:
            words = list(dict.fromkeys(words))
        return f"{self.rng.choice(['any', 'any', 'all'])} {self.time(who)} {' '.join(words)}".rstrip()

    def unset(self, who):
        """A handle of an object that is not signaled, mostly."""
        objects, handles = self.machine.objects, self.machine.handles
        found = [it for it in self.handles("event", "semaphore", "mutex", "timer") if not signaled(objects[handles[it][0]], who)]
        return str(self.rng.choice(found[:3])) if found and self.rng.random() < 0.9 else self.word()

    def swap(self, who):
        signal = self.word(*([self.rng.choice(["event", "semaphore", "mutex"])] if self.rng.random() < 0.95 else []))
        owned = self.owned(who)
        if owned and self.rng.random() < 0.5:
            signal = str(self.rng.choice(owned))
        awaited = self.word(*self.rng.choice([(), ("mutex",)]))
        return f"swap {signal} {awaited} {self.time(who)}"

    def arm(self, _who):
        due = self.rng.choice([*DUES, self.machine.now, self.machine.now + 5000, self.machine.now + 10000])
        routine = f" {self.rng.randrange(9)} {self.rng.randrange(9)}" if self.rng.random() < 0.5 else ""
        return f"arm {self.awaited('timer')} {due} {self.rng.choice(PERIODS)}{routine}"

    def tick(self):
        if self.rng.random() < 0.06:
            return f"tick {max(0, self.machine.now - 1)}"
        return f"tick {min(1 << 62, self.machine.now + self.rng.choice(STEPS))}" if self.rng.random() < 0.995 else f"tick {1 << 62}"

    KINDS = (
        *[creation] * 10, *[duplicate] * 4, *[close] * 3, *[signal] * 10, *[release] * 5, *[unlock] * 6, *[wait] * 20, *[swap] * 6,
        *[sleep] * 4, *[apc] * 6, *[next] * 4, *[arm] * 9, *[cancel] * 3, *[exit] * 3, *[tick] * 8,
    )  # fmt: skip

    IN_A_CROWD = (
        *[creation] * 4, duplicate, close, *[signal] * 10, *[release] * 5, *[unlock] * 6, *[wait] * 25, *[swap] * 3,
        sleep, *[apc] * 2, next, *[arm] * 5, *[exit] * 2, *[tick] * 3,
    )  # fmt: skip
    # What a line of this kind is for: mostly it is made only where such an object is there.
    NEEDS = {signal: "event", release: "semaphore", unlock: "mutex", arm: "timer", cancel: "timer"}

    def line(self):
        kind = self.rng.choice(self.IN_A_CROWD if self.is_crowd else self.KINDS)
        if self.is_crowd and len(self.machine.waits) > 4 and self.rng.random() < 0.5:
            kind = self.rng.choice([Draw.signal, Draw.signal, Draw.release, Draw.unlock, Draw.arm, Draw.tick, Draw.exit])
        if kind in self.NEEDS and not self.handles(self.NEEDS[kind]) and self.rng.random() < 0.9:
            kind = Draw.creation
        if kind is Draw.tick or not self.callers():
            return self.tick()
        if kind is Draw.creation and len(self.handles()) > self.machine.threads + self.most:
            kind = Draw.wait if self.is_crowd else self.rng.choice([Draw.close, Draw.wait])
        who = self.caller()
        if kind in (Draw.wait, Draw.swap) and who == 0 and self.is_crowd:
            others = self.callers()[1:]
            who, kind = (self.rng.choice(others), kind) if others else (who, self.rng.choice([Draw.signal, Draw.release, Draw.unlock]))
        if kind is Draw.next and any(self.machine.handing) and self.rng.random() < 0.8:
            who = self.machine.handing.index(True)
        if kind in (Draw.unlock, Draw.exit) and self.rng.random() < 0.6:
            owner = self.owner()
            who = who if owner is None else owner
        return f"t{who} {kind(self, who)}"


def drawn(seed):
    """A random script, what it is to write, and how often each kind of answer comes in that."""
    rng, tally = random.Random(seed), Tally()
    names, lines = Names(), [f"threads {rng.choice([1, 2, 3, 4, 5, 6, 8, 8, 8, 8])}"]
    machine, said = Machine(int(lines[0].split()[1])), []
    draw = Draw(rng, machine, names.handles)
    for number in range(2, rng.randrange(20, 120 if draw.is_crowd else 80)):
        lines.append(f"t0 {draw.creation(0)}" if number < 5 else draw.line())
        answer, grants = names.carry_out(machine, lines[-1])
        tally.note(lines[-1], answer, grants)
        said += told(number, answer, grants)
    return "\n".join(lines) + "\n", "\n".join([*said, end_of(machine)]) + "\n", tally
