# SPDX-License-Identifier: MIT OR Apache-2.0
"""Random calls with arguments that are right or wrong, beside bench/machine.py, a dispatcher of its own in Python: each call answers what that machine
does, or raises what its arguments are wrong for and then changes nothing.

In the environment KAWHOPUNE_CALLS says how many calls are made, and KAWHOPUNE_SEED by which seed.
"""
from __future__ import annotations

import os
import pathlib
import random
import sys

import pytest
from kawhopune import INFINITE, MAX_MOMENT, Access, Dispatcher, Kind, Refused, Status

sys.path.insert(0, str(pathlib.Path(__file__).parents[2] / "bench"))
from machine import NO_HANDLE, PARAMETER, UNKNOWN, Event, Machine, Mutex, Semaphore, Thread, Timer, kind_of  # noqa: E402

CALLS, SEED = int(os.environ.get("KAWHOPUNE_CALLS", 30_000)), int(os.environ.get("KAWHOPUNE_SEED", 17))
PARTS, CALLS_EACH = 10, 150
RANGES = {"u32": (0, 2**32 - 1), "i32": (-(2**31), 2**31 - 1), "u64": (0, 2**64 - 1), "i64": (-(2**63), 2**63 - 1)}
WRONG = [-1, 64, 255, 257, 1 << 31, (1 << 31) - 1, -(1 << 31), 1 << 32, (1 << 32) - 1, MAX_MOMENT, MAX_MOMENT + 1, (1 << 63) - 1, -(1 << 63), 1 << 64, 1 << 70,
         True, None, "3", 2.5, b"\x03", [], [3, 4], (3,), [None], [1 << 32], {}, {3: 4}, range(70), [0] * 64, [0] * 63 + ["x"], [0] * 64 + ["x"], object(), Status.TIMEOUT]  # fmt: skip
TIMES = [("timeout", "u32", INFINITE), ("alertable", "flag", False)]

# Each call's parameters after the thread: what they are, their types, and their defaults, if they have one. Then what the machine is asked for.
PARAMETERS = {
    "create_event": ([("flag", "flag", False), ("flag", "flag", False)], lambda *it: ("event", *it)),
    "create_semaphore": ([("count", "i32"), ("count", "i32")], lambda *it: ("semaphore", *it)),
    "create_mutex": ([("flag", "flag", False)], lambda *it: ("mutex", *it)),
    "create_timer": ([("flag", "flag", False)], lambda *it: ("timer", *it)),
    "set_event": ([("handle", "u32")], lambda *it: ("set", *it)),
    "reset_event": ([("handle", "u32")], lambda *it: ("reset", *it)),
    "pulse_event": ([("handle", "u32")], lambda *it: ("pulse", *it)),
    "release_semaphore": ([("handle", "u32"), ("count", "i32", 1)], lambda *it: ("release", *it)),
    "release_mutex": ([("handle", "u32")], lambda *it: ("unlock", *it)),
    "set_timer": ([("handle", "u32"), ("due", "i64"), ("period", "i32", 0)], lambda *it: ("arm", *it, None)),
    "set_timer_apc": (
        [("handle", "u32"), ("due", "i64"), ("period", "i32"), ("word", "u64"), ("word", "u64", 0)],
        lambda timer, due, period, *apc: ("arm", timer, due, period, apc),
    ),
    "cancel_timer": ([("handle", "u32")], lambda *it: ("cancel", *it)),
    "queue_user_apc": ([("thread", "u32"), ("word", "u64"), ("word", "u64", 0)], lambda *it: ("apc", *it)),
    "next_apc": ([], lambda: ("next",)),
    "duplicate_handle": ([("handle", "u32"), ("access", "u32")], lambda *it: ("dup", *it)),
    "close_handle": ([("handle", "u32")], lambda *it: ("close", *it)),
    "exit_thread": ([], lambda: ("exit",)),
    "sleep": ([("timeout", "u32"), ("flag", "flag", False)], lambda *it: ("sleep", *it)),
    "wait_for_single_object": ([("handle", "u32"), *TIMES], lambda it, time, alertable: ("wait", [it], False, time, alertable)),
    "wait_for_multiple_objects": ([("handles", "handles"), ("flag", "flag", False), *TIMES], lambda *it: ("wait", *it)),
    "signal_object_and_wait": ([("handle", "u32"), ("handle", "u32"), *TIMES], lambda *it: ("swap", *it)),
}
WAITS = ("sleep", "wait_for_single_object", "wait_for_multiple_objects", "signal_object_and_wait")
NAMES = [*PARAMETERS, *["set_event", "release_semaphore", "release_mutex", *WAITS, "tick"] * 3, "is_waiting", "opened", "object"]
RARE = {"exit_thread", "close_handle"}


def read(kind, value):
    """The argument as a call takes it; raises what the call raises of one that is wrong."""
    if kind == "flag":
        return bool(value)
    if kind == "handles":
        found = list(value)
        return [read("u32", it) for it in found[:64]] + found[64:]
    if not hasattr(type(value), "__index__"):
        raise TypeError(value)
    least, most = RANGES[kind]
    if not least <= value.__index__() <= most:
        raise OverflowError(value)
    return value.__index__()


def read_all(kinds, required, values):
    if not required <= len(values) <= len(kinds):
        raise TypeError(values)
    # (A list is read before numbers are.)
    order = sorted(range(len(values)), key=lambda at: kinds[at] != "handles")
    read_ones = {at: read(kinds[at], values[at]) for at in order}
    return [read_ones[at] for at in range(len(values))]


class Draw:
    """Arguments by chance."""

    def __init__(self, chance, machine):
        self.chance, self.machine = chance, machine

    def thread(self):
        runs = [it for it in range(self.machine.threads) if it not in self.machine.waits and getattr(self.machine.objects[it], "ended", True) is False]
        return self.chance.choice(runs) if runs and self.chance.random() < 0.9 else self.chance.randrange(self.machine.threads + 1)

    def handle(self, *kinds):
        found = [at for at, it in enumerate(self.machine.handles) if it and (not kinds or kind_of(self.machine.objects[it[0]]) in kinds)]
        return self.chance.choice(found) if found and self.chance.random() < 0.95 else self.chance.randrange(len(self.machine.handles) + 2)

    def value(self, what, name):
        chance = self.chance
        if chance.random() < 0.04:
            return chance.choice(WRONG)
        if what == "thread":
            return self.thread()
        if what == "handle":
            kinds = [it for it in ("event", "semaphore", "mutex", "timer") if name.endswith(it) or f"_{it}_" in name]
            return self.handle(*kinds)
        if what == "handles":
            return [self.handle("event", "semaphore", "mutex", "timer") for _ in range(chance.choice([1, 1, 2, 2, 3, 5, 64, 65, 0]))]
        choices = {"flag": [False, True, 0, 1], "count": [0, 1, 1, 2, 3, -1], "timeout": [0, 0, 1, 2, 5, INFINITE, INFINITE - 1], "period": [0, 0, 1, 3, -1],
                   "due": [0, 1, 5, 20_000, -1, -10_000, -30_000], "word": [0, 7, 1 << 63], "access": [*Access, Access.SYNCHRONIZE | Access.MODIFY_STATE, 0, 1],
                   "alertable": [False, False, True], "moment": [self.machine.now + it for it in (0, 1, 9_999, 10_000, 10_000, 30_000, -1)]}  # fmt: skip
        return chance.choice(choices[what])


def given(chance, draw, name, parameters):
    """Values for these parameters: now and then too many, or too few."""
    required = sum(len(it) == 2 for it in parameters)
    values = [draw.value(it[0], name) for it in parameters[: chance.randint(required, len(parameters))]]
    if chance.random() < 0.02:
        return [*values, 0] if chance.random() < 0.5 or not values else values[:-1]
    return values


def expected(machine, name, values, parameters, ask):
    """What the machine answers to the call, and the waits that it ended; None if what the last call ended is still told."""
    required = sum(len(it) == 2 for it in parameters)
    arguments = read_all([it[1] for it in parameters], required, values)
    arguments += [it[2] for it in parameters[len(arguments) :]]
    if name == "tick":
        return machine.tick(arguments[0]) if arguments[0] <= MAX_MOMENT else (f"error {PARAMETER}", None)
    return machine.call(arguments[0], *ask(*arguments[1:]))


def said(name, answer):
    """The answer as the machine tells it."""
    if answer is None:
        return "pending" if name in WAITS else "apc none" if name == "next_apc" else "ok"
    if isinstance(answer, Status):
        return f"status 0x{answer:08X}"
    if isinstance(answer, int):
        return f"{'previous' if name == 'release_semaphore' else 'handle'} {answer}"
    return f"apc {answer.routine} {answer.argument}" + ("" if answer.due is None else f" at {answer.due}")


def outcome(call):
    """What a call answers, or the class of what it raises."""
    try:
        return call()
    except Refused as refused:
        return f"error {int(refused.error)}"
    except (TypeError, OverflowError) as error:
        return type(error)


def has_looked(nt, machine, name, values):
    """Whether a reader of threads, handles or objects reads what the machine has."""
    found = outcome(lambda: getattr(nt, name)(*values))
    try:
        (number,) = read_all(["u32"], 1, values)
    except (TypeError, OverflowError) as error:
        return found is type(error)
    if name == "is_waiting":
        return found == (number in machine.waits if number < machine.threads else f"error {UNKNOWN}")
    if name == "opened":
        handle = machine.handles[number] if number < len(machine.handles) else None
        return found == (handle or f"error {NO_HANDLE}")
    return isinstance(found, str) if number >= len(machine.objects) else is_like(found, machine.objects[number])


def no_later(moment):
    """A moment that is after the greatest never comes, whichever it is."""
    return None if moment is None or moment > MAX_MOMENT else moment


def is_like(state, it):
    """Whether the object that the package tells is this one of the machine."""
    common = (state.kind, state.manual_reset, state.is_set)
    armed = (no_later(state.due), state.period)
    if isinstance(it, Event):
        return common == (Kind.EVENT, bool(it.manual), bool(it.set))
    if isinstance(it, Semaphore):
        return (state.kind, state.count, state.maximum) == (Kind.SEMAPHORE, it.count, it.maximum)
    if isinstance(it, Mutex):
        return (state.kind, state.owner, state.depth, state.abandoned) == (Kind.MUTEX, it.owner, it.depth, it.mark)
    if isinstance(it, Timer):
        wanted = (no_later(it.armed.due), it.armed.period) if it.armed else (None, 0)
        return common == (Kind.TIMER, bool(it.manual), it.set) and armed == wanted
    return common == ((Kind.THREAD, False, it.ended) if isinstance(it, Thread) else (Kind.GONE, False, False))


def are_equal(nt, machine):
    waits = {who: nt.wait_of(who) for who in range(machine.threads) if nt.is_waiting(who)}
    return (
        (nt.now, nt.pending, {*waits}) == (machine.now, len(machine.waits), {*machine.waits})
        and all(is_like(nt.object(number), it) for number, it in enumerate(machine.objects))
        and all(outcome(lambda handle=handle: nt.opened(handle)) == (it or f"error {NO_HANDLE}") for handle, it in enumerate(machine.handles))
        and all((*waits[who][:3], no_later(waits[who].deadline)) == (it.objects, bool(it.all), bool(it.alertable), no_later(it.deadline)) for who, it in machine.waits.items())
    )


def one_call(chance, nt, machine, seen):
    """Makes one call of both, and returns it as text if their answers differ."""
    draw, name = Draw(chance, machine), chance.choice(NAMES)
    if name in RARE and chance.random() < 0.7:
        name = chance.choice(NAMES)
    if name in ("is_waiting", "opened", "object"):
        values = given(chance, draw, name, [("handle" if name == "opened" else "thread", "u32")])
        return None if has_looked(nt, machine, name, values) else f"{name}{values}"
    parameters, ask = PARAMETERS.get(name, ([], None))
    parameters = [("moment", "u64")] if name == "tick" else [("thread", "u32"), *parameters]
    values, before = given(chance, draw, name, parameters), nt.grants
    answer = outcome(lambda: getattr(nt, name)(*values))
    try:
        wanted, ended = expected(machine, name, values, parameters, ask)
    except (TypeError, OverflowError) as error:
        wanted, ended = type(error), None
    seen.add(wanted if isinstance(wanted, type) else wanted.split(" ")[0])
    found, ended = answer if isinstance(answer, (str, type)) else said(name, answer), before if ended is None else ended
    return None if (found, nt.grants) == (wanted, ended) else f"{name}{tuple(values)}: {found}, {nt.grants}; wanted {wanted}, {ended}"


@pytest.mark.parametrize("part", range(PARTS))
def test_calls_answer_as_the_second_machine_does(part):
    seen = set()
    for number in range(CALLS // (PARTS * CALLS_EACH) + 1):
        chance = random.Random(f"{SEED} {part} {number}")
        threads = chance.choice([1, 2, 3, 5])
        machine = Machine(threads)
        with Dispatcher(threads) as nt:
            for at in range(CALLS_EACH):
                differs = one_call(chance, nt, machine, seen)
                assert not differs, f"seed {SEED}, part {part}, life {number}, call {at}: {differs}"
            assert are_equal(nt, machine), f"seed {SEED}, part {part}, life {number}"
    assert seen >= {TypeError, OverflowError, "error", "ok", "handle", "pending", "status"}
