# SPDX-License-Identifier: MIT OR Apache-2.0
"""The calls by Win32's names: what each returns, and each refusal."""
import gc
import os
import pathlib
import random
import re
import shutil
import subprocess
import sys
import threading
import tracemalloc

import pytest

import kawhopune
from kawhopune import INFINITE, MAX_MOMENT, Access, Dispatcher, Error, Kind, Refused, Status

MS = 10_000


def is_refused(error, call, *args, **named):
    with pytest.raises(Refused) as raised:
        call(*args, **named)
    assert raised.value.error is error and raised.value.errno == error


def test_an_event_hands_over_in_turn():
    with Dispatcher(3) as nt:
        event = nt.create_event(0)
        assert event == 3
        assert nt.wait_for_single_object(0, event) is None and nt.wait_for_single_object(1, event) is None
        nt.set_event(2, event)
        assert nt.grants == [(0, Status.OBJECT_0)] and nt.grants[0].status is Status.OBJECT_0
        nt.set_event(2, event)
        assert nt.grants == [(1, 0)] and nt.pending == 0


def test_a_manual_event_stays_set():
    with Dispatcher(1) as nt:
        event = nt.create_event(0, manual_reset=True, initial_state=True)
        assert [nt.wait_for_single_object(0, event, 0) for _ in range(2)] == [Status.OBJECT_0] * 2
        nt.reset_event(0, event)
        assert nt.wait_for_single_object(0, event, 0) is Status.TIMEOUT
        nt.pulse_event(0, event)
        assert nt.wait_for_single_object(0, event, timeout=0) is Status.TIMEOUT


def test_a_semaphore_counts():
    with Dispatcher(1) as nt:
        semaphore = nt.create_semaphore(0, 1, 3)
        assert nt.release_semaphore(0, semaphore, 2) == 1
        is_refused(Error.TOO_MANY_POSTS, nt.release_semaphore, 0, semaphore)
        is_refused(Error.INVALID_PARAMETER, nt.release_semaphore, 0, semaphore, 0)
        is_refused(Error.INVALID_PARAMETER, nt.create_semaphore, 0, 4, 3)
        assert nt.object(semaphore)[:1] == (Kind.SEMAPHORE,) and nt.object(semaphore).count == 3


def test_a_mutex_is_abandoned():
    with Dispatcher(2) as nt:
        mutex = nt.create_mutex(0, initial_owner=True)
        is_refused(Error.NOT_OWNER, nt.release_mutex, 1, mutex)
        assert nt.wait_for_multiple_objects(1, [1, mutex]) is None
        assert nt.wait_of(1) == ((1, mutex), False, False, None)
        nt.exit_thread(0)
        assert nt.grants == [(1, Status.ABANDONED_1)] and nt.object(mutex).owner == 1
        is_refused(Error.THREAD_ENDED, nt.set_event, 0, mutex)


def test_a_wait_for_all_takes_all_or_nothing():
    with Dispatcher(2) as nt:
        one, two = nt.create_event(0), nt.create_event(0)
        assert nt.wait_for_multiple_objects(1, (one, two), wait_all=True) is None
        nt.set_event(0, one)
        assert nt.grants == [] and nt.object(one).is_set
        nt.set_event(0, two)
        assert nt.grants == [(1, Status.OBJECT_0)] and not nt.object(one).is_set
        is_refused(Error.INVALID_PARAMETER, nt.wait_for_multiple_objects, 0, [])
        is_refused(Error.INVALID_PARAMETER, nt.wait_for_multiple_objects, 0, [one] * 65)
        is_refused(Error.INVALID_PARAMETER, nt.wait_for_multiple_objects, 0, [one, one])


def test_timers_and_timeouts_pass_by_ticks():
    with Dispatcher(2) as nt:
        timer = nt.create_timer(0)
        nt.set_timer_apc(0, timer, -5 * MS, 2, routine=7, argument=9)
        assert nt.sleep(0, 9, alertable=True) is None and nt.wait_for_single_object(1, timer, 1) is None
        assert nt.due() == MS and nt.due(up_to=MS - 1) is None
        nt.tick(nt.due())
        assert nt.now == MS and nt.grants == [(1, Status.TIMEOUT)]
        nt.tick(5 * MS)
        assert nt.grants == [(0, Status.IO_COMPLETION)]
        assert nt.next_apc(0) == (7, 9, 5 * MS) and nt.next_apc(0) is None
        nt.cancel_timer(0, timer)
        assert nt.due() is None
        is_refused(Error.MOMENT_BACK, nt.tick, MS)
        is_refused(Error.INVALID_PARAMETER, nt.tick, MAX_MOMENT + 1)


def test_apcs_and_signal_object_and_wait():
    with Dispatcher(2) as nt:
        one, two = nt.create_event(0), nt.create_event(0)
        assert nt.wait_for_single_object(1, one) is None
        assert nt.signal_object_and_wait(0, one, two, timeout=INFINITE, alertable=True) is None
        assert nt.grants == [(1, Status.OBJECT_0)]
        nt.queue_user_apc(1, target=0, routine=3)
        assert nt.grants == [(0, Status.IO_COMPLETION)] and nt.next_apc(0) == (3, 0, None)


def test_handles_have_rights():
    with Dispatcher(1) as nt:
        event = nt.create_event(0)
        for_waits = nt.duplicate_handle(0, event, Access.SYNCHRONIZE)
        assert nt.opened(for_waits) == (event, Access.SYNCHRONIZE)
        is_refused(Error.ACCESS_DENIED, nt.set_event, 0, for_waits)
        nt.close_handle(0, event)
        is_refused(Error.INVALID_HANDLE, nt.set_event, 0, event)
        assert nt.object(event).kind is Kind.EVENT
        nt.close_handle(0, for_waits)
        assert nt.object(event).kind is Kind.GONE


def test_a_lasting_dispatcher_gives_numbers_again():
    with Dispatcher(2, lasting=True) as nt:
        first = nt.create_event(0)
        nt.close_handle(0, first)
        assert nt.create_event(0) == first
        nt.exit_thread(1)
        nt.close_handle(0, 1)
        spare = nt.create_event(0)
        nt.close_handle(0, spare)
        assert nt.begin().thread == 1
        is_refused(Error.NO_MORE_ITEMS, nt.begin)


def test_a_driver_that_blocks_learns_whom_to_wake():
    with Dispatcher(2) as nt:
        event = nt.create_event(0)
        assert nt.wait_for_single_object(1, event, 3) is None
        assert nt.pend(1) == 3 * MS
        nt.set_event(0, event)
        assert nt.told == [(1, Status.OBJECT_0)]


def test_two_mutexes_the_other_way_round_are_a_knot():
    with Dispatcher(2) as nt:
        one, two = nt.create_mutex(0, True), nt.create_mutex(1, True)
        assert nt.wait_for_single_object(0, two) is None
        assert nt.why() == (False, (), None)
        assert nt.wait_for_single_object(1, one) is None
        assert nt.why() == (True, (0, 1), None)


def test_a_copy_is_equal_and_apart():
    with Dispatcher(1) as nt, Dispatcher(2) as other:
        event = nt.create_event(0)
        with nt.copy() as point:
            nt.set_event(0, event)
            assert nt.object(event).is_set and not point.object(event).is_set and other.threads == 2


def test_a_closed_dispatcher_is_told():
    nt = Dispatcher(1)
    nt.close()
    nt.close()
    assert nt.closed
    for call in (lambda: nt.now, lambda: nt.grants, lambda: nt.create_event(0), nt.why, nt.copy, nt.begin):
        with pytest.raises(ValueError, match="closed"):
            call()
    is_refused(Error.INVALID_PARAMETER, Dispatcher, 0)
    is_refused(Error.INVALID_PARAMETER, Dispatcher, 257)
    is_refused(Error.UNKNOWN_THREAD, Dispatcher(1).create_event, 1)


@pytest.mark.parametrize("wrong", [-1, 1 << 32, 1 << 70])
def test_numbers_out_of_range_do_not_wrap(wrong):
    with Dispatcher(1) as nt:
        for call in (nt.create_event, lambda it: nt.set_event(0, it), lambda it: nt.wait_for_multiple_objects(0, [it]), lambda it: nt.sleep(0, it)):
            with pytest.raises(OverflowError):
                call(wrong)
        with pytest.raises(OverflowError):
            nt.create_semaphore(0, 1 << 31, 1 << 31)


def test_arguments_are_named_as_in_python():
    with Dispatcher(1) as nt:
        for call, args, named in (
            (nt.set_event, (0,), {}), (nt.set_event, (0, 3, 4), {}), (nt.set_event, (0, 3), {"event": 3}), (nt.set_event, (0,), {"handle": 3}),
            (nt.set_event, (0, "3"), {}), (nt.set_event, (0, 3.0), {}), (nt.wait_for_multiple_objects, (0, 5), {}), (nt.why, (3,), {}),
        ):
            with pytest.raises(TypeError):
                call(*args, **named)
        assert nt.create_event(thread=0, initial_state=True) == 1


class Closes:
    """A number that closes the dispatcher as it is read."""

    def __init__(self, nt):
        self.nt = nt

    def __index__(self):
        self.nt.close()
        return 0


def test_an_argument_that_closes_the_dispatcher_does_no_harm():
    for call in ("create_event", "exit_thread", "is_waiting", "object", "opened"):
        nt = Dispatcher(1)
        with pytest.raises(ValueError, match="closed"):
            getattr(nt, call)(Closes(nt))


def test_threads_share_one_under_the_interpreters_lock():
    with Dispatcher(5) as nt:
        semaphore = nt.create_semaphore(0, 0, 1 << 30)
        threads = [threading.Thread(target=lambda t=t: [nt.release_semaphore(t, semaphore) for _ in range(2000)]) for t in range(1, 5)]
        for it in threads:
            it.start()
        for it in threads:
            it.join()
        assert nt.object(semaphore).count == 8000


def test_no_call_leaks():
    def round_of_calls():
        with Dispatcher(2) as nt:
            event = nt.create_event(0)
            nt.wait_for_multiple_objects(0, [event, 1], timeout=5)
            nt.set_event(1, event)
            nt.grants, nt.why(), nt.object(event), nt.opened(event), nt.wait_of(1), nt.copy()
            for wrong in (99, "x", -1):
                try:
                    nt.set_event(0, wrong)
                except (Refused, TypeError, OverflowError):
                    pass

    round_of_calls()
    gc.collect()
    tracemalloc.start()
    before = tracemalloc.get_traced_memory()[0]
    for _ in range(300):
        round_of_calls()
    gc.collect()
    after = tracemalloc.get_traced_memory()[0]
    tracemalloc.stop()
    assert after - before < 20_000, f"{after - before} bytes more after 300 rounds"


# As many dispatchers as it is asked for, each with calls that succeed, pend and are refused.
ROUNDS = """
import sys
from kawhopune import Dispatcher, Refused
for _ in range(int(sys.argv[1])):
    with Dispatcher(2, lasting=True) as nt:
        event = nt.create_event(0)
        nt.wait_for_multiple_objects(1, [event, 1])
        nt.set_event(0, event)
        nt.grants, nt.why(), nt.object(event), nt.wait_of(1)
        with nt.copy() as other:
            other.close_handle(0, event)
        try:
            nt.set_event(0, 99)
        except Refused:
            pass
"""


def lost_after(rounds):
    """How many bytes valgrind finds lost for good after such rounds. (Python itself loses some.)"""
    words = ["valgrind", "--leak-check=full", sys.executable, "-c", ROUNDS, str(rounds)]
    ran = subprocess.run(words, env={**os.environ, "PYTHONMALLOC": "malloc"}, capture_output=True, text=True, check=True)
    assert "Invalid" not in ran.stderr, ran.stderr
    found = re.search(r"definitely lost: ([\d,]+) bytes", ran.stderr)
    return int(found[1].replace(",", "")) if found else 0


@pytest.mark.skipif(shutil.which("valgrind") is None, reason="valgrind is not on this machine")
def test_nothing_is_lost_by_valgrind():
    assert lost_after(40) == lost_after(1)


def test_the_stub_has_each_call():
    stub = (pathlib.Path(kawhopune.__file__).parent / "_native.pyi").read_text(encoding="ascii")
    for name in dir(Dispatcher):
        if not name.startswith("_"):
            assert f"def {name}(" in stub, name
            assert getattr(Dispatcher, name).__doc__, name


def test_nothing_that_is_handed_in_does_harm():
    """Random calls with numbers, types and counts of arguments that are right or wrong: each returns, or raises one of four exceptions."""
    chance = random.Random(17)
    values = [0, 1, 2, 3, 4, 5, 9, -1, 64, 255, 1 << 31, 1 << 32, (1 << 62) + 1, 1 << 64, True, None, "3", 2.5, [], [3, 4], (3,), [None], {}, object()]
    names = [it for it in dir(Dispatcher) if not it.startswith("_") and callable(getattr(Dispatcher, it)) and it != "close"]
    raised = set()
    for _ in range(300):
        nt = Dispatcher(chance.choice([1, 2, 5]), lasting=chance.random() < 0.5)
        for _ in range(100):
            try:
                getattr(nt, chance.choice(names))(*[chance.choice(values) for _ in range(chance.randrange(7))])
                nt.grants, nt.told, nt.now, nt.pending, nt.tested, nt.why()
            except (Refused, TypeError, OverflowError) as error:
                raised.add(type(error))
    assert raised == {Refused, TypeError, OverflowError}
