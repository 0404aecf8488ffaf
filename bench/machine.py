"""The machine a second way: waitable objects, waits, APCs and time, from docs/WIN32.md and docs/SCRIPTS.md alone, with nothing of the crates.

A machine is plain data that is copied whole. It asks of every wait whether the objects satisfy it, and has no queues but the order in which
waits began.
"""
import collections

SYNCHRONIZE, MODIFY, CONTEXT = 0x100000, 0x2, 0x10
RIGHTS = {"event": SYNCHRONIZE | MODIFY, "semaphore": SYNCHRONIZE | MODIFY, "timer": SYNCHRONIZE | MODIFY, "mutex": SYNCHRONIZE, "thread": SYNCHRONIZE | CONTEXT}
DENIED, NO_HANDLE, GONE, PARAMETER, NOT_OWNER, TOO_MANY = 5, 6, 31, 87, 288, 298
WAITING, ENDED, UNKNOWN, DEEP, BACK = (0x20000000 + it for it in (1, 2, 3, 4, 5))
DEEPEST = 2147483647
MS = 10000  # a millisecond in units of 100 ns
INFINITE = 4294967295  # as many milliseconds mean that a wait has no deadline

Event = collections.namedtuple("Event", "manual set")
Semaphore = collections.namedtuple("Semaphore", "count maximum")
Mutex = collections.namedtuple("Mutex", "owner depth mark")
Timer = collections.namedtuple("Timer", "manual set armed")
Armed = collections.namedtuple("Armed", "due period routine")  # the routine: (routine, argument, thread), or None
Thread = collections.namedtuple("Thread", "ended")
Gone = collections.namedtuple("Gone", "")
Wait = collections.namedtuple("Wait", "objects all alertable deadline")
Apc = collections.namedtuple("Apc", "routine arg at timer")


class Refused(Exception):
    """A call is refused, with this number."""

    def __init__(self, number):
        super().__init__(number)
        self.number = number


def kind_of(it):
    return type(it).__name__.lower()


def signaled(it, who):
    """Whether the object satisfies a wait of this thread."""
    if isinstance(it, (Event, Timer)):
        return it.set
    if isinstance(it, Semaphore):
        return it.count > 0
    if isinstance(it, Mutex):
        return it.owner in (None, who)
    return isinstance(it, Thread) and it.ended


def taken(it, who):
    """The object, once this thread has taken it."""
    if isinstance(it, (Event, Timer)) and not it.manual:
        return it._replace(set=False)
    if isinstance(it, Semaphore):
        return it._replace(count=it.count - 1)
    return Mutex(who, it.depth + 1, False) if isinstance(it, Mutex) else it


def unlocked(it):
    """A mutex that its owner released once."""
    return Mutex(it.owner if it.depth > 1 else None, it.depth - 1, False)


class Machine:
    def __init__(self, threads):
        self.threads = threads
        self.objects = [Thread(False) for _ in range(threads)]
        self.handles = [(number, RIGHTS["thread"]) for number in range(threads)]
        self.waits = {}  # by thread, in the order in which they began
        self.apcs = [()] * threads
        self.handing = [False] * threads
        self.now = 0

    def copy(self):
        other = Machine.__new__(Machine)
        other.threads, other.now = self.threads, self.now
        other.objects, other.handles = self.objects[:], self.handles[:]
        other.waits, other.apcs, other.handing = dict(self.waits), self.apcs[:], self.handing[:]
        return other

    def key(self):
        """What two equal machines agree in: of the order of waits, that on each object."""
        order = tuple(tuple(who for who, wait in self.waits.items() if number in wait.objects) for number in range(len(self.objects)))
        return (tuple(self.objects), tuple(self.handles), tuple(sorted(self.waits.items())), order, tuple(self.apcs), tuple(self.handing), self.now)

    # ---- what a wait needs

    def ready(self, who, number):
        return signaled(self.objects[number], who)

    def fits(self, who, wait):
        found = [self.ready(who, it) for it in wait.objects]
        return bool(found) and all(found) if wait.all else any(found)

    def take(self, who, wait):
        """Takes what the wait needs, and answers its status."""
        index = 0 if wait.all else next(at for at, it in enumerate(wait.objects) if self.ready(who, it))
        numbers = wait.objects if wait.all else [wait.objects[index]]
        marked = any(isinstance(self.objects[it], Mutex) and self.objects[it].mark for it in numbers)
        for it in numbers:
            self.objects[it] = taken(self.objects[it], who)
        self.handing[who] = False
        return index + (0x80 if marked else 0)

    # ---- how waits end

    def end(self, who, status, grants):
        del self.waits[who]
        self.handing[who] = status == 0xC0
        grants.append((who, status))

    def serve(self, changed, grants):
        """Grants what fits, object by object, on each the wait that began first; then again from the first object on."""
        while True:
            waiting = [who for number in sorted(changed) for who, wait in self.waits.items() if number in wait.objects]
            found = next((who for who in waiting if self.fits(who, self.waits[who])), None)
            if found is None:
                break
            self.end(found, self.take(found, self.waits[found]), grants)
        assert not any(self.fits(who, wait) for who, wait in self.waits.items())

    def alert(self, grants):
        for who in sorted(self.waits):
            if self.waits[who].alertable and self.apcs[who]:
                self.end(who, 0xC0, grants)

    def time_out(self, moment, grants):
        for who in sorted(self.waits):
            wait = self.waits[who]
            if wait.deadline == moment:
                self.end(who, 0x102 if wait.objects else 0, grants)

    def end_forgotten(self):
        """What no handle and no pending wait names, and is no thread that runs, is gone."""
        named = {it[0] for it in self.handles if it} | {it for wait in self.waits.values() for it in wait.objects}
        for number, it in enumerate(self.objects):
            runs = isinstance(it, Thread) and not it.ended
            if number not in named and not runs and not isinstance(it, Gone):
                self.objects[number] = Gone()
                self.withdraw(number)

    # ---- timers

    def withdraw(self, timer):
        self.apcs = [tuple(it for it in queue if it.timer != timer) for queue in self.apcs]

    def expire(self, number, seen_from):
        timer = self.objects[number]
        due, period, routine = timer.armed
        if routine and not any(it.timer == number for queue in self.apcs for it in queue):
            self.apcs[routine[2]] += (Apc(routine[0], routine[1], due, number),)
        step = period * MS
        later = Armed(due + max(1, (seen_from - due) // step + 1) * step, period, routine) if period else None
        self.objects[number] = Timer(timer.manual, True, later)

    def due_moments(self):
        timers = [it.armed.due for it in self.objects if isinstance(it, Timer) and it.armed]
        return timers + [it.deadline for it in self.waits.values() if it.deadline is not None]

    def tick(self, moment):
        """Lets all moments up to this one pass. Answers what is told, and the waits that ended."""
        if moment < self.now:
            return f"error {BACK}", []
        grants = []
        while due := [it for it in self.due_moments() if it <= moment]:
            timers = [number for number, it in enumerate(self.objects) if isinstance(it, Timer) and it.armed and it.armed.due == min(due)]
            for number in timers:
                self.expire(number, moment)
            self.serve(timers, grants)
            self.alert(grants)
            self.time_out(min(due), grants)
        self.now = moment
        self.end_forgotten()
        return "ok", grants

    # ---- calls

    def opened(self, handle, kinds=None):
        """The object and the rights of a handle; of one of these kinds, if any are told."""
        found = self.handles[handle] if handle < len(self.handles) else None
        if found is None or kinds and kind_of(self.objects[found[0]]) not in kinds:
            raise Refused(NO_HANDLE)
        return found

    def named(self, handle, kind, right):
        number, rights = self.opened(handle, [kind])
        if right & ~rights:
            raise Refused(DENIED)
        return number

    def call(self, who, keyword, *words):
        """Makes a call. Answers what is told, and the waits that ended."""
        before, grants = self.copy(), []
        try:
            if who >= self.threads:
                raise Refused(UNKNOWN)
            if not isinstance(self.objects[who], Thread) or self.objects[who].ended:
                raise Refused(ENDED)
            if who in self.waits:
                raise Refused(WAITING)
            answer, wait, pulsed = getattr(self, f"do_{keyword}")(who, *words)
        except Refused as refused:
            assert before.key() == self.key()
            return f"error {refused.number}", []
        self.serve([at for at, (old, new) in enumerate(zip(before.objects, self.objects)) if old != new], grants)
        if pulsed is not None:
            self.objects[pulsed] = self.objects[pulsed]._replace(set=False)
        self.alert(grants)
        if wait:
            answer = self.begin(who, *wait)
        self.end_forgotten()
        return answer, grants

    def begin(self, who, objects, whole, ms, alertable):
        wait = Wait(tuple(objects), whole, alertable, None if ms in (None, INFINITE) else self.now + ms * MS)
        if self.fits(who, wait):
            return f"status 0x{self.take(who, wait):08X}"
        if alertable and self.apcs[who]:
            self.handing[who] = True
            return "status 0x000000C0"
        if ms == 0:
            self.handing[who] = False
            return f"status 0x{0x102 if objects else 0:08X}"
        self.waits[who] = wait
        return "pending"

    def create(self, it):
        self.objects.append(it)
        self.handles.append((len(self.objects) - 1, RIGHTS[kind_of(it)]))
        return f"handle {len(self.handles) - 1}", None, None

    def do_event(self, _who, manual, is_set):
        return self.create(Event(manual, is_set))

    def do_semaphore(self, _who, initial, maximum):
        if not 0 <= initial <= maximum or maximum <= 0:
            raise Refused(PARAMETER)
        return self.create(Semaphore(initial, maximum))

    def do_mutex(self, who, owned):
        return self.create(Mutex(who if owned else None, 1 if owned else 0, False))

    def do_timer(self, _who, manual):
        return self.create(Timer(manual, False, None))

    def do_dup(self, _who, handle, access):
        number, rights = self.opened(handle)
        if access & ~rights:
            raise Refused(DENIED)
        self.handles.append((number, access))
        return f"handle {len(self.handles) - 1}", None, None

    def do_close(self, _who, handle):
        self.opened(handle)
        self.handles[handle] = None
        return "ok", None, None

    def do_set(self, _who, handle, is_set=True, pulse=False):
        number = self.named(handle, "event", MODIFY)
        self.objects[number] = self.objects[number]._replace(set=is_set)
        return "ok", None, number if pulse else None

    def do_reset(self, who, handle):
        return self.do_set(who, handle, is_set=False)

    def do_pulse(self, who, handle):
        return self.do_set(who, handle, pulse=True)

    def do_release(self, _who, handle, more):
        number = self.named(handle, "semaphore", MODIFY)
        count, maximum = self.objects[number]
        if more <= 0:
            raise Refused(PARAMETER)
        if count + more > maximum:
            raise Refused(TOO_MANY)
        self.objects[number] = Semaphore(count + more, maximum)
        return f"previous {count}", None, None

    def do_unlock(self, who, handle):
        number, _ = self.opened(handle, ["mutex"])
        if self.objects[number].owner != who:
            raise Refused(NOT_OWNER)
        self.objects[number] = unlocked(self.objects[number])
        return "ok", None, None

    def do_arm(self, who, handle, due, period, routine):
        number = self.named(handle, "timer", MODIFY)
        if period < 0:
            raise Refused(PARAMETER)
        self.withdraw(number)
        moment = self.now - due if due < 0 else due
        self.objects[number] = Timer(self.objects[number].manual, False, Armed(moment, period, (*routine, who) if routine else None))
        if moment <= self.now:
            self.expire(number, self.now)
        return "ok", None, None

    def do_cancel(self, _who, handle):
        number = self.named(handle, "timer", MODIFY)
        self.objects[number] = self.objects[number]._replace(armed=None)
        self.withdraw(number)
        return "ok", None, None

    def do_apc(self, _who, handle, routine, arg):
        number = self.named(handle, "thread", CONTEXT)
        if self.objects[number].ended:
            raise Refused(GONE)
        self.apcs[number] += (Apc(routine, arg, None, None),)
        return "ok", None, None

    def do_next(self, who):
        if not (self.handing[who] and self.apcs[who]):
            self.handing[who] = False
            return "apc none", None, None
        first, *rest = self.apcs[who]
        self.apcs[who] = tuple(rest)
        return f"apc {first.routine} {first.arg}" + ("" if first.at is None else f" at {first.at}"), None, None

    def do_exit(self, who):
        for number, it in enumerate(self.objects):
            if isinstance(it, Mutex) and it.owner == who:
                self.objects[number] = Mutex(None, 0, True)
            if isinstance(it, Timer) and it.armed and it.armed.routine and it.armed.routine[2] == who:
                self.objects[number] = it._replace(armed=None)
        self.apcs[who] = ()
        self.objects[who] = Thread(True)
        return "ok", None, None

    def too_deep(self, who, numbers):
        return any(isinstance(it, Mutex) and it.owner == who and it.depth == DEEPEST for it in map(self.objects.__getitem__, numbers))

    def do_wait(self, who, handles, whole, ms, alertable):
        if not 1 <= len(handles) <= 64:
            raise Refused(PARAMETER)
        found = [self.opened(it) for it in handles]
        if not all(rights & SYNCHRONIZE for _, rights in found):
            raise Refused(DENIED)
        numbers = [number for number, _ in found]
        if len(set(numbers)) < len(numbers):
            raise Refused(PARAMETER)
        if self.too_deep(who, numbers):
            raise Refused(DEEP)
        return None, (numbers, whole, ms, alertable), None

    def do_sleep(self, _who, ms, alertable):
        return None, ([], False, ms, alertable), None

    def do_swap(self, who, signal, awaited, ms, alertable):
        number, rights = self.opened(signal, ["event", "semaphore", "mutex"])
        other, others = self.opened(awaited)
        it = self.objects[number]
        if not isinstance(it, Mutex) and not rights & MODIFY or not others & SYNCHRONIZE:
            raise Refused(DENIED)
        if isinstance(it, Mutex) and it.owner != who:
            raise Refused(NOT_OWNER)
        if isinstance(it, Semaphore) and it.count == it.maximum:
            raise Refused(TOO_MANY)
        if self.too_deep(who, [other]):
            raise Refused(DEEP)
        self.objects[number] = unlocked(it) if isinstance(it, Mutex) else it._replace(set=True) if isinstance(it, Event) else it._replace(count=it.count + 1)
        return None, ([other], False, ms, alertable), None
