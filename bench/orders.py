"""Every order of a script's lines, over the machine of bench/machine.py: the states, what hangs and what is lost, and the report of it."""
import re

from machine import BACK, CONTEXT, DEEP, DENIED, ENDED, GONE, MODIFY, NO_HANDLE, NOT_OWNER, PARAMETER, TOO_MANY, UNKNOWN, WAITING, Event, Gone, Machine, Mutex, Semaphore, Thread, Timer

CREATES = ("event", "semaphore", "mutex", "timer", "dup")
NAMES_ONE = ("set", "reset", "pulse", "release", "unlock", "arm", "cancel", "apc", "close")
REFUSALS = {
    DENIED: "ERROR_ACCESS_DENIED",
    NO_HANDLE: "ERROR_INVALID_HANDLE",
    GONE: "ERROR_GEN_FAILURE",
    PARAMETER: "ERROR_INVALID_PARAMETER",
    NOT_OWNER: "ERROR_NOT_OWNER",
    TOO_MANY: "ERROR_TOO_MANY_POSTS",
    WAITING: "NT_ERROR_THREAD_WAITING",
    ENDED: "NT_ERROR_THREAD_ENDED",
    UNKNOWN: "NT_ERROR_UNKNOWN_THREAD",
    DEEP: "NT_ERROR_RECURSION_LIMIT",
    BACK: "NT_ERROR_MOMENT_BACK",
}


# ---- scripts

def lines_of(text):
    """The lines of a script that say something, each with its number."""
    lines = [(number, " ".join(it.split(";")[0].split())) for number, it in enumerate(text.splitlines(), 1)]
    return [it for it in lines if it[1]]


class Names:
    """What a script's words stand for."""

    def __init__(self):
        self.handles = {}

    def handle(self, word):
        return int(word[1:]) if re.fullmatch(r"t\d+", word) else int(word) if word.isdigit() else self.handles[word]

    def waiting(self, words):
        """TIME MODE OBJ.."""
        return [self.handle(it) for it in words[2:]], None if words[0] == "inf" else int(words[0]), words[1] == "alertable"

    def call(self, keyword, words):
        """The words after the keyword, as the machine takes them."""
        if keyword in ("any", "all"):
            handles, ms, alertable = self.waiting(words)
            return "wait", handles, keyword == "all", ms, alertable
        if keyword == "sleep":
            return "sleep", *self.waiting(words)[1:]
        if keyword == "swap":
            return "swap", self.handle(words[0]), self.handle(words[1]), *self.waiting(words[2:])[1:]
        if keyword in CREATES:
            return keyword, *self.options(keyword, words[1:])
        if keyword == "arm":
            return "arm", self.handle(words[0]), int(words[1]), int(words[2]), (int(words[3]), int(words[4])) if words[3:] else None
        return keyword, *([self.handle(words[0])] if words else []), *map(int, words[1:])

    def options(self, keyword, words):
        if keyword == "event":
            return "manual" in words, "set" in words
        if keyword == "dup":
            return self.handle(words[0]), int(words[1])
        return [int(it) for it in words] if keyword == "semaphore" else [bool(words)]

    def carry_out(self, machine, line):
        """Makes the line's call, or lets its moments pass. Answers what is told, and the waits that ended."""
        first, *words = line.split()
        if first == "tick":
            return machine.tick(int(words[0]))
        answer = machine.call(int(first[1:]), *self.call(words[0], words[1:]))
        if words[0] in CREATES and answer[0].startswith("handle"):
            self.handles[words[1]] = int(answer[0].split()[1])
        return answer


class Race(ValueError):
    """The number of the first line whose handle names another thing in another order."""


class Late:
    """A creation after a call or a tick: its line and thread, the handle that it gave, that of which it is another one, and its gate."""

    def __init__(self, number, who, handle, source):
        self.number, self.who, self.handle, self.source, self.gate = number, who, handle, source, None


class Script:
    """The machine after all creations, wherever they stand, and the lines of each lane: those of the threads, and last the ticks. Each has its number,
    what is shown of it, and what is carried out. A late creation sets an event, its gate, and what has to come after it waits for that. Its handle is
    there from the start, but is let go where the creation is refused: once that is closed of which another one was to be made."""

    def __init__(self, text):
        (_, opening), *lines = lines_of(text)
        self.called = dict(re.findall(r"(?m)^; (\S+) is (.*)$", text))
        self.threads = int(opening.split()[1])
        self.start, self.names = Machine(self.threads), Names()
        self.lanes, self.passed = [[] for _ in range(self.threads + 1)], set()
        read = self.read(lines)
        named = {handle for _, line, late in read if not late for handle in self.named_by(line)}
        self.late = [it for _, _, it in read if it]
        for late in self.late:
            late.gate = self.unnamed(named, lambda: self.given("event", True, False))
            self.called[f"object {self.start.handles[late.gate][0]}"] = f"(line {late.number} of t{late.who})"
        for _ in self.late:
            self.unnamed(named, lambda: self.given("event", True, False))
        for at, (number, line, late) in enumerate(read):
            if late and any(late.handle in self.named_by(other) for _, other, it in read[:at] if not it):
                raise Race(number)
            self.lay(number, line, late, [it for _, _, it in read[:at] if it])

    def given(self, *call):
        """The handle that a call of the first thread gives."""
        return int(self.start.call(0, *call)[0].split()[1])

    def unnamed(self, named, make):
        """A handle of what is made so that no line names."""
        while (made := make()) in named:
            self.start.call(0, "close", made)
        return made

    def named_by(self, line):
        """The handles that a call names."""
        first, *words = line.split()
        return [] if first == "tick" else handles_in(*self.names.call(words[0], words[1:]))

    def read(self, lines):
        """Carries out the creations. Answers the other lines, and among them the creations that are late."""
        found, closed, exited = [], set(), set()
        for number, line in lines:
            first, keyword, *words = line.split()
            if first in exited:
                self.names.call(keyword, words)  # each name that is told has to be one
                continue
            if first == "tick" or keyword not in CREATES:
                found.append((number, line, None))
                handle = self.names.handle(words[0]) if keyword == "close" else None
                closed |= {handle} if handle is not None and handle < len(self.start.handles) and self.start.handles[handle] else set()
                exited |= {first} if keyword == "exit" else set()
                continue
            source = self.names.handle(words[1]) if keyword == "dup" else None
            if source in closed:
                continue
            answer = self.names.carry_out(self.start, line)[0]
            if found and answer.startswith("handle"):
                found.append((number, line, Late(number, int(first[1:]), int(answer.split()[1]), source)))
        return found

    def lay(self, number, line, late, above):
        """Puts the line last in its lane, after waits for the late creations above that it needs, and what it does to those whose source it closes."""
        first, *rest = line.split()
        lane = self.threads if first == "tick" else int(first[1:])
        begins = [it for it in above if first != "tick" and not self.lanes[lane] and it.source == lane]
        named = [late.source] if late else self.named_by(line)
        for it in begins[:1] + [it for it in above if it.handle in named]:
            if (lane, it.gate) not in self.passed:
                self.lanes[lane].append((number, f"t{lane} waits for line {it.number}", f"t{lane} any inf plain {it.gate}"))
                self.passed.add((lane, it.gate))
        self.lanes[lane].append((number, line, late or line))
        self.passed |= {(lane, late.gate)} if late else set()

    def carry_out(self, machine, done):
        """Has a line go. Answers what is told, and the waits that ended."""
        if not isinstance(done, Late):
            answer, ended = self.names.carry_out(machine, done)
            for it in self.late:
                self.refuse_without_source(machine, it)
            return answer, ended
        is_lost = done.source is not None and machine.handles[done.source] is None
        answer, ended = machine.call(done.who, "set", done.gate)
        return "error 6" if is_lost or machine.handles[done.handle] is None else answer, ended

    def refuse_without_source(self, machine, late):
        """Lets go what the late creation was to make, unless it was made, once that is closed of which it was to make another one."""
        is_made = machine.objects[machine.handles[late.gate][0]].set
        if not is_made and late.source is not None and machine.handles[late.source] is None:
            machine.handles[late.handle] = None
            machine.end_forgotten()

    def asked(self, done):
        """What a line asks, without its thread."""
        return ("late", done.number) if isinstance(done, Late) else self.names.call(*done.split()[1:2], done.split()[2:])

    def titled(self, word):
        """The word, and what the last comment that tells it a name calls it."""
        return f"{word} {self.called[word]}" if word in self.called else word


# ---- what hangs

def is_called(machine, who):
    """Whether an APC is queued to the thread, or an armed timer will queue one."""
    timers = [it for it in machine.objects if isinstance(it, Timer) and it.armed]
    return bool(machine.apcs[who]) or any(it.armed.routine and it.armed.routine[2] == who for it in timers)


def ends_in_time(machine, who, wait):
    """Whether time alone can end it: a deadline, timers that are armed, APCs."""
    comes = [machine.ready(who, it) or isinstance(machine.objects[it], Timer) and bool(machine.objects[it].armed) for it in wait.objects]
    fits = bool(comes) and all(comes) if wait.all else any(comes)
    return wait.deadline is not None or fits or wait.alertable and is_called(machine, who)


def is_given(machine, right, number):
    """Whether a handle of the object has this right. (Where none has, none ever will: a duplicate has no right that its source lacks.)"""
    return any(opened and opened[0] == number and opened[1] & right for opened in machine.handles)


def is_held(machine, knot, who, number):
    """Whether the knot holds the object: nobody outside it can make it signaled."""
    it = machine.objects[number]
    if isinstance(it, Mutex):
        return it.owner in knot and it.owner != who
    if isinstance(it, Thread):
        return number in knot and not it.ended
    if isinstance(it, Gone):
        return True
    idle = isinstance(it, Event) or isinstance(it, Semaphore) or it.armed is None
    return not is_given(machine, MODIFY, number) and idle and not machine.ready(who, number)


def is_tied(machine, knot, who):
    wait = machine.waits.get(who)
    if wait is None or wait.deadline is not None or wait.alertable and (is_called(machine, who) or is_given(machine, CONTEXT, who)):
        return False
    held = [is_held(machine, knot, who, it) for it in wait.objects]
    return any(held) if wait.all else all(held)


def knot_of(machine, callers):
    """The greatest knot: whoever makes no further call is of it."""
    knot = set(range(machine.threads))
    while loose := {who for who in knot & callers if not is_tied(machine, knot, who)}:
        knot -= loose
    return knot & set(machine.waits)


def is_stuck(machine, callers):
    """Whether each thread that may call and runs waits, and time alone ends no wait."""
    running = {who for who in callers if isinstance(machine.objects[who], Thread) and not machine.objects[who].ended}
    return running <= set(machine.waits) and not any(ends_in_time(machine, who, it) for who, it in machine.waits.items())


def hangs(machine, callers):
    """Whether a wait pends that nothing ends: all is stuck, or threads hold each other."""
    return bool(machine.waits) and is_stuck(machine, callers) or bool(knot_of(machine, callers))


# ---- who stands alike

def handles_in(keyword, *words):
    """The handles that a call names."""
    return words[0] if keyword == "wait" else words[:2] if keyword == "swap" else words[:1] if keyword in NAMES_ONE else ()


def twins_of(script):
    """For each thread the lower ones that have the same calls to make, where no call names the handle of one of the two."""
    calls = [[script.asked(done) for *_, done in lane] for lane in script.lanes[:-1]]
    named = {it for lane in calls for call in lane for it in handles_in(*call)}
    return [[low for low in range(who) if calls[low] == calls[who] and not {low, who} & named] for who in range(script.threads)]


def is_bare(machine, who):
    """Whether the thread runs, waits for nothing and owns nothing, nothing but its own handle names it, and nobody has an APC."""
    named = {number for number, opened in enumerate(machine.handles) if opened and opened[0] == who}
    owns = any(it.owner == who if isinstance(it, Mutex) else isinstance(it, Timer) and bool(it.armed and it.armed.routine and it.armed.routine[2] == who) for it in machine.objects)
    awaited = any(who in wait.objects for wait in machine.waits.values())
    return machine.objects[who] == Thread(False) and who not in machine.waits and not awaited and named <= {who} and not owns and not any(machine.apcs)


def are_alike(machine, low, who):
    """Whether two bare threads have handles of the same rights, and may take APCs alike."""
    rights = [opened and (opened[0] == it, opened[1]) for it, opened in ((low, machine.handles[low]), (who, machine.handles[who]))]
    return rights[0] == rights[1] and (rights[0] is None or rights[0][0]) and machine.handing[low] == machine.handing[who]


# ---- every order

class Point:
    def __init__(self, machine, at, before, lane):
        self.machine, self.at, self.before, self.lane = machine, at, before, lane
        self.after = []

    def order(self):
        """The lanes that lead here, the first first."""
        lanes, here = [], self
        while here.before:
            lanes, here = [here.lane, *lanes], here.before
        return lanes

    def steps(self):
        """The same, each with which of its lines that is."""
        lanes = self.order()
        return [(lane, lanes[:at].count(lane)) for at, lane in enumerate(lanes)]


class Found:
    """The points of a script, level by level; which hang, and where a wait is lost. Of threads that stand alike only the lowest goes, or each
    in a plain search."""

    def __init__(self, script, plain=False):
        self.script, self.steps, self.points, met = script, 0, [], {}
        self.twins = [[] for _ in script.lanes] if plain else [*twins_of(script), []]
        start = Point(script.start, (0,) * len(script.lanes), None, None)
        self.points.append(start)
        met[start.at, start.machine.key()] = start
        for here in self.points:
            for lane in range(len(script.lanes)):
                self.go(here, lane, met)
        self.hanging = [it for it in self.points if hangs(it.machine, self.callers(it))]
        self.find_losses()

    def callers(self, point):
        more = {lane for lane in range(self.script.threads) if point.at[lane] < len(self.script.lanes[lane])}
        return more | set(point.machine.waits)

    def go(self, here, lane, met):
        if here.at[lane] == len(self.script.lanes[lane]) or lane in here.machine.waits or self.has_lower(here, lane):
            return
        machine = here.machine.copy()
        self.script.carry_out(machine, self.script.lanes[lane][here.at[lane]][2])
        next_one = Point(machine, (*here.at[:lane], here.at[lane] + 1, *here.at[lane + 1:]), here, lane)
        found = met.setdefault((next_one.at, machine.key()), next_one)
        if found is next_one:
            self.points.append(found)
        here.after.append(found)
        self.steps += 1

    def has_lower(self, here, who):
        """Whether a lower thread stands alike."""
        machine, at = here.machine, here.at
        lower = [low for low in self.twins[who] if at[low] == at[who] and is_bare(machine, low) and are_alike(machine, low, who)]
        return bool(lower) and is_bare(machine, who)

    def find_losses(self):
        """A wait is lost where it pends, and is lost wherever one lane leads."""
        lost = {}
        for it in reversed(self.points):
            lost[it] = set(it.machine.waits).intersection(*(lost[after] for after in it.after))
        self.losses = [(it, sorted(lost[it])) for it in self.points if lost[it]]

    def told(self):
        """What must agree: states, steps, hangs, the least hang's length and the least loss's."""
        hang = len(self.hanging[0].order()) if self.hanging else None
        loss = len(self.losses[0][0].order()) if self.hanging else None
        return len(self.points), self.steps, len(self.hanging), hang, loss if loss != hang else None

    # ---- the report

    def report(self, name):
        """What `ntlook explore` is to write of it."""
        states, steps, many, hang, loss = self.told()
        counts = f"{name}: {counted(states, 'state')}, {counted(steps, 'step')}, "
        if hang is None:
            return counts + "none hangs\n"
        told = f"{counts}{counted(many, 'state')} hang{'s' * (many == 1)}; the shortest order, {counted(hang, 'line')}:\n"
        told += self.rows(self.hanging[0], 2) + self.hang_text() + self.waiters_text()
        if loss is None:
            return told
        point, threads = self.losses[0]
        told += f"  lost after {counted(loss, 'line')}: the wait of {self.script.titled(f't{threads[0]}')} ends in no order from here on\n"
        return told + self.rows(point, 4)

    def rows(self, point, indent):
        machine, at, rows = self.script.start.copy(), [0] * len(self.script.lanes), []
        for lane in point.order():
            number, line, done = self.script.lanes[lane][at[lane]]
            answer, grants = self.script.carry_out(machine, done)
            at[lane] += 1
            ends = "".join(f"; t{who}'s wait ends: {status_name(status)}" for who, status in grants)
            rows.append((str(number), line, answer_name(answer) + ends))
        numbers, texts = (max(len(row[column]) for row in rows) for column in (0, 1))
        return "".join(f"{' ' * indent}line {number:>{numbers}}  {line:<{texts}}    {answer}\n" for number, line, answer in rows)

    def hang_text(self):
        point = self.hanging[0]
        callers = self.callers(point)
        knot = [self.script.titled(f"t{it}") for it in sorted(knot_of(point.machine, callers))]
        if not knot:
            return "  stuck: whoever has a line left waits, and nothing can end that\n"
        others = "; nor the other waits" if is_stuck(point.machine, callers) and len(knot) < len(point.machine.waits) else ""
        if len(knot) == 1:
            return f"  nothing can end the wait of {knot[0]}{others}\n"
        return f"  {', '.join(knot[:-1])} and {knot[-1]} hold each other: nothing can end their waits{others}\n"

    def waiters_text(self):
        point, told = self.hanging[0], ""
        for who, wait in sorted(point.machine.waits.items()):
            number = self.script.lanes[who][point.at[who] - 1][0]
            kind = "all" if wait.all else "any" if wait.objects else "sleep"
            time = "inf" if wait.deadline is None else f"until {wait.deadline}"
            named = "".join(f" {self.name_of(it)}" for it in wait.objects)
            gap = "   " if len(wait.objects) == 1 else "\n    "
            states = "".join(f"{gap}{self.script.titled(self.name_of(it))}: {object_text(point.machine, it, self.script.titled)}" for it in wait.objects)
            told += f"  {self.script.titled(f't{who}')} since line {number}  {kind} {time} {'alertable' if wait.alertable else 'plain'}{named}{states}\n"
        return told

    def name_of(self, number):
        """A thread by its number, any other object by the first name that it was given, or by its number if it was given none."""
        if number < self.script.threads:
            return f"t{number}"
        named = (name for name, handle in self.script.names.handles.items() if self.script.start.handles[handle][0] == number)
        return next(named, f"object {number}")


def counted(count, what):
    return f"{count} {what}{'s' * (count != 1)}"


def status_name(status):
    """How a wait ended, by name: that of the first object has no number after it."""
    if status >= 192:
        return {0xC0: "WAIT_IO_COMPLETION", 0x102: "WAIT_TIMEOUT"}[status]
    first, index = ("WAIT_OBJECT_0", status) if status < 64 else ("WAIT_ABANDONED_0", status - 128)
    return f"{first}+{index}" if index else first


def answer_name(answer):
    first, _, second = answer.partition(" ")
    return status_name(int(second, 16)) if first == "status" else REFUSALS[int(second)] if first == "error" else answer


def doing(machine, who):
    it = machine.objects[who]
    return "waits" if who in machine.waits else "has ended" if not isinstance(it, Thread) or it.ended else "runs"


def object_text(machine, number, titled):
    """The object's state, in words."""
    it = machine.objects[number]
    unnamed = "" if any(opened and opened[0] == number for opened in machine.handles) else ", which no handle names"
    is_set = "set" if getattr(it, "set", None) else "not set"
    if isinstance(it, Event):
        return f"event, {is_set}{unnamed}"
    if isinstance(it, Semaphore):
        return f"semaphore, count {it.count} of {it.maximum}{unnamed}"
    if isinstance(it, Timer):
        return f"timer, {is_set}, {f'due at {it.armed.due}' if it.armed else 'not armed'}{unnamed}"
    if isinstance(it, Mutex) and it.owner is not None:
        return f"mutex, owned by {titled(f't{it.owner}')} ({counted(it.depth, 'release')} owed), who {doing(machine, it.owner)}{unnamed}"
    if isinstance(it, Mutex):
        return f"mutex, {'abandoned' if it.mark else 'free'}{unnamed}"
    return "gone" + unnamed if isinstance(it, Gone) else f"thread, who {doing(machine, number)}{unnamed}"
