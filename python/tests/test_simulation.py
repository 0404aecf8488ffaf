# SPDX-License-Identifier: MIT OR Apache-2.0
"""Simulated threads: a deadlock is found and made again, time passes by itself, and what is wrong is told."""
import pytest

from kawhopune import Status
from kawhopune.simulation import Hang, Stopped, find_hang, simulate


def philosopher(me, left, right):
    yield me.wait(left)
    yield me.wait(right)
    yield me.release_mutex(right)
    yield me.release_mutex(left)


def dinner(world):
    forks = [world.create_mutex() for _ in range(2)]
    world.start(philosopher, forks[0], forks[1], name="ann")
    world.start(philosopher, forks[1], forks[0], name="ben")


def ordered_dinner(world):
    forks = [world.create_mutex() for _ in range(2)]
    for name in ("ann", "ben"):
        world.start(philosopher, *forks, name=name)


def test_a_deadlock_is_found_and_made_again():
    hang = find_hang(dinner)
    assert "these hold each other: ann, ben" in str(hang) and "ann waits for mutex 66 of ben" in str(hang) and hang.knot == [1, 2]
    with pytest.raises(Hang) as again:
        simulate(dinner, decisions=hang.decisions)
    assert again.value.decisions == hang.decisions and str(again.value) == str(hang)


def test_an_order_of_locks_has_no_deadlock():
    assert find_hang(ordered_dinner, seeds=range(200)) is None


def test_a_seed_makes_one_run():
    def ran(seed):
        try:
            return simulate(dinner, seed).decisions
        except Hang as hang:
            return hang.decisions

    assert all(ran(seed) == ran(seed) for seed in range(50)) and len({tuple(ran(seed)) for seed in range(50)}) > 2


def test_time_passes_where_all_wait():
    seen = []

    def sleeper(me, event):
        seen.append((yield me.wait(event, timeout=3_600_000)))
        seen.append((yield me.wait_any(event, timeout=5)))

    world = simulate(lambda world: world.start(sleeper, world.create_event()))
    assert seen == [Status.TIMEOUT, Status.TIMEOUT] and world.dispatcher.now == 3_600_005 * 10_000


def test_a_lost_pulse_is_a_hang():
    def waiter(me, event):
        yield me.wait(event)

    def pulser(me, event):
        yield me.pulse_event(event)

    def program(world):
        event = world.create_event(manual_reset=True)
        world.start(waiter, event)
        world.start(pulser, event)

    hang = find_hang(program)
    assert "nothing can end the waits" in str(hang) and "waiter 1 waits for event 65" in str(hang) and hang.knot == []


def test_what_is_wrong_is_told():
    def endless(me):
        while True:
            yield me.step()

    with pytest.raises(Stopped):
        simulate(lambda world: world.start(endless), most_steps=100)
    with pytest.raises(ValueError, match="another program's"):
        simulate(dinner, decisions=[7])
    with pytest.raises(ValueError, match="more than 1 threads"):
        simulate(dinner, threads=1)
