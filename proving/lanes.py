"""Runs tasks side by side: one for each processor, and as many as memory holds."""
import concurrent.futures
import contextlib
import dataclasses
import os
import re
from typing import Callable

# What a check takes of memory, in bytes: for itself, for each line of code, of proofs and specs, and of code below, and for each library of the kit. (A
# crate of tests is rows, which few functions walk: its lines take less.)
ITSELF, LINE, PROOF, BELOW, OF_KIT = 1_000_000_000, 1_000_000, 200_000, 80_000, 300_000_000
LINE_OF_TESTS = 300_000
KIT_AT_MOST = 2_500_000_000
# What a check over kept work takes of the memory of one from nothing.
OVER_KEPT = 0.7


@dataclasses.dataclass
class Task:
    """What is called, once those tasks that it waits for have ended, with what all tasks so far gave, by key. One that `fills` is begun only if no
    other can be, and leaves a lane to the others until all of them have ended."""

    waits: list
    weight: float
    memory: float
    call: Callable
    fills: bool = False


def memory_of(crate):
    """The most memory that a check of the crate from nothing is likely to take, in bytes."""
    below = crate.below()
    of_kit = {name for it in [crate, *below] for name in it.of_kit}
    own = (LINE_OF_TESTS if crate.has_tests() else LINE) * crate.lines() + PROOF * crate.lines(".antt")
    return ITSELF + own + BELOW * sum(it.lines() for it in below) + min(OF_KIT * len(of_kit), KIT_AT_MOST)


def number_in(path, pattern):
    """The number that the pattern finds in a file, or None."""
    with contextlib.suppress(OSError), open(path, encoding="ascii") as file:
        found = re.search(pattern, file.read(), re.M)
        return int(found[1]) if found else None
    return None


def processors():
    """How many processors there are to use: those that the process may run on, or fewer by the quota of its control group."""
    group = "/sys/fs/cgroup/cpu.max"
    quota, period = number_in(group, r"^(\d+) "), number_in(group, r" (\d+)$")
    found = len(os.sched_getaffinity(0))
    return min(found, max(quota // period, 1)) if quota and period else found


def free_memory():
    """The memory that is free, in bytes, within the limit of the control group too."""
    found = 1024 * (number_in("/proc/meminfo", r"MemAvailable:\s+(\d+)") or 4_000_000)
    limit, held = number_in("/sys/fs/cgroup/memory.max", r"^(\d+)"), number_in("/sys/fs/cgroup/memory.stat", r"^anon (\d+)")
    return min(found, limit - (held or 0)) if limit else found


def behind(tasks):
    """The weight of each task with that of the heaviest chain of tasks behind it, of such as fill lanes or of such as do not."""
    found = {key: it.weight for key, it in tasks.items()}
    # (a task comes after those that it waits for)
    for key in reversed(list(tasks)):
        for it in (it for it in tasks[key].waits if tasks[it].fills == tasks[key].fills):
            found[it] = max(found[it], tasks[it].weight + found[key])
    return found


def open_to(task, tasks, left, begun, lanes):
    """How many lanes are free for the task."""
    filling = [it for it in begun if tasks[it].fills]
    keeps_one = task.fills and lanes > 1 and any(not tasks[it].fills for it in [*left, *begun])
    return lanes - 1 - len(filling) if keeps_one and len(filling) == len(begun) else lanes - len(begun)


def fits_beside(task, tasks, begun, memory):
    """Whether the memory holds the task beside these. Where nothing is under way, any task fits."""
    return not begun or sum(tasks[it].memory for it in begun) + task.memory <= memory


def run_all(tasks, at_once=None):
    """Runs the tasks, first those with the heaviest chain behind them. It returns what each gave, by key."""
    lanes, memory, chain = at_once or processors(), 0.85 * free_memory(), behind(tasks)
    left, begun, given = sorted(tasks, key=lambda it: (tasks[it].fills, -chain[it])), {}, {}
    with concurrent.futures.ThreadPoolExecutor(lanes) as pool:
        while left or begun:
            is_short = False
            for key in [it for it in left if all(other in given for other in tasks[it].waits)]:
                fits = fits_beside(tasks[key], tasks, begun.values(), memory)
                # (what fills lanes takes no memory for which another task waits)
                others = [it for it in begun.values() if not tasks[it].fills]
                is_short = is_short or not fits and not tasks[key].fills and fits_beside(tasks[key], tasks, others, memory)
                if fits and not (is_short and tasks[key].fills) and open_to(tasks[key], tasks, left, begun.values(), lanes) > 0:
                    left.remove(key)
                    begun[pool.submit(tasks[key].call, given)] = key
            for it in concurrent.futures.wait(begun, return_when=concurrent.futures.FIRST_COMPLETED).done:
                given[begun.pop(it)] = it.result()
    return given
