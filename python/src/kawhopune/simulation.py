# SPDX-License-Identifier: MIT OR Apache-2.0
"""Threads as generators that yield their calls, one at a time, in an order that a seed or a list of decisions gives, in virtual time.

    def philosopher(me, left, right):
        yield me.wait(left)
        yield me.wait(right)
        yield me.release_mutex(right)
        yield me.release_mutex(left)

    def dinner(world):
        forks = [world.create_mutex() for _ in range(2)]
        world.start(philosopher, forks[0], forks[1])
        world.start(philosopher, forks[1], forks[0])

    simulate(dinner, seed=3)          # runs, or raises Hang
    find_hang(dinner)                 # the first Hang of the seeds from 0 on, or None

A thread runs to its next `yield`, and then another may go on. Where all wait, time jumps to the next moment at which a timer is due or a wait times
out. If nothing is due either, nothing can end the waits: the run raises `Hang`, whose text says who waits for what.
"""
from __future__ import annotations

import random
from dataclasses import dataclass
from typing import Any, Callable, Generator, Iterable, Optional, Sequence

from ._names import INFINITE, Status
from ._native import Dispatcher

#: What a thread yields: a call that is made once the thread is chosen, and gives the answer that `yield` returns.
Call = Callable[[], Any]
Thread = Generator[Call, Any, Any]


class Hang(Exception):
    """A run in which nothing can end the waits, or in which threads hold each other: those in `knot`. `decisions` make the run again."""

    def __init__(self, text: str, decisions: Sequence[int], knot: Sequence[int]) -> None:
        super().__init__(text)
        self.decisions, self.knot = list(decisions), list(knot)


class Stopped(Exception):
    """A run that was ended after its most steps."""


@dataclass
class _Running:
    name: str
    code: Thread
    answer: Any = None
    waits: bool = False


class Caller:
    """A thread's view of the world: each method gives a call to yield."""

    def __init__(self, world: World, number: int) -> None:
        self._world, self.number = world, number

    def __getattr__(self, name: str) -> Callable[..., Call]:
        """Any call of Dispatcher, without its first argument, the thread."""
        method = getattr(self._world.dispatcher, name)
        return lambda *args, **named: lambda: method(self.number, *args, **named)

    def wait(self, handle: int, timeout: int = INFINITE, alertable: bool = False) -> Call:
        """WaitForSingleObjectEx: `yield` returns the Status, after the wait has ended. timeout is in ms."""
        return lambda: self._world.dispatcher.wait_for_single_object(self.number, handle, timeout, alertable)

    def wait_any(self, *handles: int, timeout: int = INFINITE, alertable: bool = False) -> Call:
        """WaitForMultipleObjectsEx for any of the objects: `yield` returns the Status."""
        return lambda: self._world.dispatcher.wait_for_multiple_objects(self.number, handles, False, timeout, alertable)

    def wait_all(self, *handles: int, timeout: int = INFINITE, alertable: bool = False) -> Call:
        """WaitForMultipleObjectsEx for all the objects: `yield` returns the Status."""
        return lambda: self._world.dispatcher.wait_for_multiple_objects(self.number, handles, True, timeout, alertable)

    def step(self) -> Call:
        """No call: only a point at which another thread may go on."""
        return lambda: Status.OBJECT_0


class World:
    """A dispatcher, the threads that run over it, and who goes on next."""

    def __init__(self, threads: int = 64, seed: Optional[int] = None, decisions: Iterable[int] = ()) -> None:
        # (thread 0 makes what is there before the others begin)
        self.dispatcher = Dispatcher(threads + 1)
        self.decisions: list[int] = []
        self._given, self._random = iter(decisions), random.Random(0 if seed is None else seed)
        self._running: dict[int, _Running] = {}

    def __getattr__(self, name: str) -> Callable[..., Any]:
        """Any call of Dispatcher, made by thread 0 before the threads begin."""
        method = getattr(self.dispatcher, name)
        return lambda *args, **named: method(0, *args, **named)

    def start(self, code: Callable[..., Thread], *args: Any, name: Optional[str] = None) -> int:
        """Starts a thread that runs code(caller, *args). Returns its number, which is its handle too."""
        number = len(self._running) + 1
        if number >= self.dispatcher.threads:
            raise ValueError(f"more than {self.dispatcher.threads - 1} threads: World(threads=..) has room for more")
        self._running[number] = _Running(name or f"{code.__name__} {number}", code(Caller(self, number), *args))
        return number

    def run(self, most_steps: int = 100_000) -> None:
        """Runs all threads to their ends. Raises Hang if nothing can end the waits there are, and Stopped after `most_steps`."""
        for _ in range(most_steps):
            ready = [number for number, it in self._running.items() if not it.waits]
            if ready:
                self._go_on(self._chosen(ready))
            elif not self._running:
                return
            else:
                self._let_time_pass()
        raise Stopped(f"{most_steps} steps were made")

    def _chosen(self, ready: Sequence[int]) -> int:
        if len(ready) == 1:
            return ready[0]
        at = next(self._given, None)
        at = self._random.randrange(len(ready)) if at is None else at
        if not 0 <= at < len(ready):
            raise ValueError(f"decision {len(self.decisions)} is {at}, where {len(ready)} threads can go on: it is another program's")
        self.decisions.append(at)
        return ready[at]

    def _go_on(self, number: int) -> None:
        it = self._running[number]
        answer, it.answer = it.answer, None
        try:
            call = it.code.send(answer)
        except StopIteration:
            del self._running[number]
            self.dispatcher.exit_thread(number)
        else:
            it.answer = call()
            it.waits = self.dispatcher.is_waiting(number)
        self._end_waits()

    def _end_waits(self) -> None:
        for thread, status in self.dispatcher.grants:
            it = self._running.get(thread)
            if it is not None:
                it.answer, it.waits = status, False
        self._raise_if_held()

    def _let_time_pass(self) -> None:
        moment = self.dispatcher.due()
        if moment is None:
            self._raise_hang(self._knot())
        else:
            self.dispatcher.tick(moment)
            self._end_waits()

    def _knot(self) -> list[int]:
        """The threads that hold each other. (In the dispatcher's knot those are too that make no further calls.)"""
        over = [number for number in range(self.dispatcher.threads) if number not in self._running]
        return [number for number in self.dispatcher.why(over).knot if number in self._running]

    def _raise_if_held(self) -> None:
        if self.dispatcher.pending:
            knot = self._knot()
            if knot:
                self._raise_hang(knot)

    def _raise_hang(self, knot: Sequence[int]) -> None:
        lines = [self._told(number) for number, it in self._running.items() if it.waits]
        held = f"; these hold each other: {', '.join(self._running[it].name for it in knot)}" if knot else ""
        raise Hang("\n  ".join([f"nothing can end the waits{held}", *lines, f"decisions={self.decisions}"]), self.decisions, knot)

    def _told(self, number: int) -> str:
        wait = self.dispatcher.wait_of(number)
        objects = [self._named(it) for it in wait.objects] if wait else []
        return f"{self._running[number].name} waits for {' and '.join(objects) if wait and wait.wait_all else ' or '.join(objects) or 'time'}"

    def _named(self, number: int) -> str:
        state = self.dispatcher.object(number)
        owner = self._running.get(state.owner) if state.owner is not None else None
        return f"{state.kind.name.lower()} {number}" + (f" of {owner.name}" if owner else "")


def simulate(
    program: Callable[[World], Any], seed: Optional[int] = None, decisions: Iterable[int] = (), threads: int = 64, most_steps: int = 100_000
) -> World:
    """Runs what `program` starts in a new world, in the order that the decisions give, and after them the seed. Returns the world at its end."""
    world = World(threads, seed, decisions)
    program(world)
    world.run(most_steps)
    return world


def find_hang(program: Callable[[World], Any], seeds: Iterable[int] = range(1000), threads: int = 64, most_steps: int = 100_000) -> Optional[Hang]:
    """The first hang of these seeds, or None. Its decisions make it again: simulate(program, decisions=hang.decisions)."""
    for seed in seeds:
        try:
            simulate(program, seed, threads=threads, most_steps=most_steps)
        except Hang as hang:
            return hang
    return None
