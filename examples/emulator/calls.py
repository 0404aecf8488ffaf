# SPDX-License-Identifier: MIT OR Apache-2.0
"""A dispatcher that keeps each call as a line of a script, and what it answered as `ntrun script` tells it (docs/SCRIPTS.md)."""
from kawhopune import INFINITE, Dispatcher, Refused


class Calls:
    """Each method makes one call by a thread, under the word that scripts have for it. `threads` are there from the start; a script has those that
    began."""

    def __init__(self, threads):
        self.nt = Dispatcher(threads)
        self.lines, self.told, self.names, self.counts = [], [], {}, {}
        #: What the next call's line says in its comment, and who began.
        self.comment, self.began = "", 1
        #: The waits that calls ended, with their statuses, until somebody takes them.
        self.granted = []

    def name_of(self, handle):
        return self.names.get(handle, f"t{handle}" if handle < self.began else str(handle))

    def made(self, thread, words, call, says=lambda answer: "ok"):
        """Makes the call, and keeps its line. The lines of a script begin with `threads`, so the first call stands on line 2."""
        self.lines.append(f"t{thread} {words}" + (f"  ; {self.comment}" if self.comment else "") if thread is not None else words)
        at = len(self.lines) + 1
        try:
            answer = call()
        except Refused as refused:
            self.told.append(f"{at}: error {int(refused.error)}")
            raise
        self.told.append(f"{at}: {says(answer)}")
        self.told += [f"{at}: t{it.thread} status 0x{int(it.status):08X}" for it in self.nt.grants]
        self.granted += self.nt.grants
        return answer

    def created(self, thread, kind, words, call):
        name = f"{kind}{self.counts.get(kind, 0) + 1}"
        keyword = {"section": "mutex", "shared": "event", "exclusive": "event"}.get(kind, kind)
        handle = self.made(thread, " ".join([keyword, name, *words]), call, lambda it: f"handle {it}")
        self.counts[kind] = self.counts.get(kind, 0) + 1
        self.names[handle] = name
        return handle

    def event(self, thread, manual, is_set, kind="event"):
        words = ["manual"] * manual + ["set"] * is_set
        return self.created(thread, kind, words, lambda: self.nt.create_event(thread, manual, is_set))

    def mutex(self, thread, is_owned, kind="mutex"):
        return self.created(thread, kind, ["owned"] * is_owned, lambda: self.nt.create_mutex(thread, is_owned))

    def semaphore(self, thread, initial, most):
        return self.created(thread, "semaphore", [str(initial), str(most)], lambda: self.nt.create_semaphore(thread, initial, most))

    def timer(self, thread, manual):
        return self.created(thread, "timer", ["manual"] * manual, lambda: self.nt.create_timer(thread, manual))

    def duplicate(self, thread, handle, access):
        words = [self.name_of(handle), str(access)]
        name = f"dup{self.counts.get('dup', 0) + 1}"
        call = lambda: self.nt.duplicate_handle(thread, handle, access)
        made = self.made(thread, " ".join(["dup", name, *words]), call, lambda it: f"handle {it}")
        self.counts["dup"] = self.counts.get("dup", 0) + 1
        self.names[made] = name
        return made

    def set(self, thread, event):
        self.made(thread, f"set {self.name_of(event)}", lambda: self.nt.set_event(thread, event))

    def reset(self, thread, event):
        self.made(thread, f"reset {self.name_of(event)}", lambda: self.nt.reset_event(thread, event))

    def pulse(self, thread, event):
        self.made(thread, f"pulse {self.name_of(event)}", lambda: self.nt.pulse_event(thread, event))

    def unlock(self, thread, mutex):
        self.made(thread, f"unlock {self.name_of(mutex)}", lambda: self.nt.release_mutex(thread, mutex))

    def release(self, thread, semaphore, count):
        words = f"release {self.name_of(semaphore)} {count}"
        return self.made(thread, words, lambda: self.nt.release_semaphore(thread, semaphore, count), lambda it: f"previous {it}")

    def arm(self, thread, timer, due, period, routine=None, argument=0):
        words = f"arm {self.name_of(timer)} {due} {period}"
        if routine is None:
            self.made(thread, words, lambda: self.nt.set_timer(thread, timer, due, period))
        else:
            self.made(thread, f"{words} {routine} {argument}", lambda: self.nt.set_timer_apc(thread, timer, due, period, routine, argument))

    def cancel(self, thread, timer):
        self.made(thread, f"cancel {self.name_of(timer)}", lambda: self.nt.cancel_timer(thread, timer))

    def apc(self, thread, target, routine, argument):
        words = f"apc {self.name_of(target)} {routine} {argument}"
        self.made(thread, words, lambda: self.nt.queue_user_apc(thread, target, routine, argument))

    def close(self, thread, handle):
        self.made(thread, f"close {self.name_of(handle)}", lambda: self.nt.close_handle(thread, handle))

    def exit(self, thread):
        self.made(thread, "exit", lambda: self.nt.exit_thread(thread))

    def next(self, thread):
        def says(apc):
            at = "" if apc is None or apc.due is None else f" at {apc.due}"
            return "apc none" if apc is None else f"apc {apc.routine} {apc.argument}{at}"

        return self.made(thread, "next", lambda: self.nt.next_apc(thread), says)

    def wait(self, thread, handles, ms=INFINITE, alertable=False, all=False):
        """The status, or None if the wait pends."""
        words = f"{'all' if all else 'any'} {waiting(ms, alertable)} {' '.join(map(self.name_of, handles))}".rstrip()
        if len(handles) == 1 and not all:
            return self.made(thread, words, lambda: self.nt.wait_for_single_object(thread, handles[0], ms, alertable), ended)
        return self.made(thread, words, lambda: self.nt.wait_for_multiple_objects(thread, handles, all, ms, alertable), ended)

    def sleep(self, thread, ms, alertable=False):
        return self.made(thread, f"sleep {waiting(ms, alertable)}", lambda: self.nt.sleep(thread, ms, alertable), ended)

    def swap(self, thread, signal, handle, ms, alertable):
        words = f"swap {self.name_of(signal)} {self.name_of(handle)} {waiting(ms, alertable)}"
        return self.made(thread, words, lambda: self.nt.signal_object_and_wait(thread, signal, handle, ms, alertable), ended)

    def tick(self, moment):
        self.made(None, f"tick {moment}", lambda: self.nt.tick(moment))

    def script(self):
        """The calls so far as a script."""
        return "".join(f"{it}\n" for it in [f"threads {self.began}", *self.lines])


def waiting(ms, alertable):
    return f"{'inf' if ms == INFINITE else ms} {'alertable' if alertable else 'plain'}"


def ended(status):
    return "pending" if status is None else f"status 0x{int(status):08X}"
