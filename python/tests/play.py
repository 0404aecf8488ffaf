# SPDX-License-Identifier: MIT OR Apache-2.0
"""Plays a script of calls (docs/SCRIPTS.md) by the package, and gives its transcript. It reads scripts without faults alone."""
from __future__ import annotations

import re
from typing import Callable, Iterator, Optional

from kawhopune import INFINITE, Dispatcher, Refused, Status



class Player:
    def __init__(self, threads: int) -> None:
        self.nt, self.names, self.pending = Dispatcher(threads), {}, set()

    def handle(self, word: str) -> int:
        thread = re.fullmatch(r"t(\d+)", word)
        return int(word) if word.isdigit() else int(thread[1]) if thread else self.names[word]

    def call(self, thread: int, words: list[str]) -> str:
        """Makes the call of these words, and returns what its line of the transcript says."""
        keyword, rest = words[0], words[1:]
        if keyword in ("event", "semaphore", "mutex", "timer", "dup"):
            made = self.create(thread, keyword, rest[1:])
            self.names[rest[0]] = made
            return f"handle {made}"
        if keyword in ("any", "all", "sleep", "swap"):
            status = self.wait(thread, keyword, rest)
            return "pending" if status is None else f"status 0x{status:08X}"
        return self.act(thread, keyword, rest)

    def create(self, thread: int, keyword: str, rest: list[str]) -> int:
        nt = self.nt
        if keyword == "event":
            return nt.create_event(thread, manual_reset="manual" in rest, initial_state="set" in rest)
        if keyword == "semaphore":
            return nt.create_semaphore(thread, int(rest[0]), int(rest[1]))
        if keyword == "mutex":
            return nt.create_mutex(thread, initial_owner="owned" in rest)
        if keyword == "timer":
            return nt.create_timer(thread, manual_reset="manual" in rest)
        return nt.duplicate_handle(thread, self.handle(rest[0]), int(rest[1]))

    def wait(self, thread: int, keyword: str, rest: list[str]) -> Optional[Status]:
        nt = self.nt
        if keyword == "swap":
            signal, wait, time, mode = rest
            return nt.signal_object_and_wait(thread, self.handle(signal), self.handle(wait), milliseconds(time), mode == "alertable")
        time, alertable = milliseconds(rest[0]), rest[1] == "alertable"
        if keyword == "sleep":
            return nt.sleep(thread, time, alertable)
        handles = [self.handle(it) for it in rest[2:]]
        if len(handles) == 1 and keyword == "any":
            return nt.wait_for_single_object(thread, handles[0], time, alertable)
        return nt.wait_for_multiple_objects(thread, handles, keyword == "all", time, alertable)

    def act(self, thread: int, keyword: str, rest: list[str]) -> str:
        nt, handle, numbers = self.nt, self.handle(rest[0]) if rest else 0, [int(it) for it in rest[1:]]
        if keyword == "next":
            apc = nt.next_apc(thread)
            at = "" if apc is None or apc.due is None else f" at {apc.due}"
            return "apc none" if apc is None else f"apc {apc.routine} {apc.argument}{at}"
        if keyword == "release":
            return f"previous {nt.release_semaphore(thread, handle, *numbers)}"
        calls: dict[str, Callable[..., None]] = {
            "set": nt.set_event, "reset": nt.reset_event, "pulse": nt.pulse_event, "unlock": nt.release_mutex, "cancel": nt.cancel_timer,
            "apc": nt.queue_user_apc, "close": nt.close_handle, "arm": nt.set_timer_apc if len(numbers) == 4 else nt.set_timer,
        }
        nt.exit_thread(thread) if keyword == "exit" else calls[keyword](thread, handle, *numbers)
        return "ok"

    def line(self, words: list[str]) -> Iterator[str]:
        try:
            if words[0] == "tick":
                self.nt.tick(int(words[1]))
                said = "ok"
            else:
                said = self.call(int(words[0][1:]), words[1:])
        except Refused as refused:
            yield f"error {int(refused.error)}"
            return
        yield said
        if said == "pending":
            self.pending.add(int(words[0][1:]))
        for thread, status in self.nt.grants:
            self.pending.discard(thread)
            yield f"t{thread} status 0x{status:08X}"


def milliseconds(word: str) -> int:
    return INFINITE if word == "inf" else int(word)


def transcript(script: str) -> str:
    """The transcript of a script without faults."""
    told, player = [], None
    for at, line in enumerate(script.split("\n"), 1):
        words = line.partition(";")[0].split()
        if words and player is None:
            player = Player(int(words[1]))
        elif words:
            told += [f"{at}: {it}" for it in player.line(words)]
    pending = " ".join(f"t{it}" for it in sorted(player.pending)) or "none"
    return "".join(f"{it}\n" for it in [*told, f"end: pending {pending}"])
