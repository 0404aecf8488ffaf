# SPDX-License-Identifier: MIT OR Apache-2.0
"""Numbers and errors of the dispatcher, by Windows' names."""
from __future__ import annotations

import enum

#: A timeout that never comes, in place of milliseconds.
INFINITE = 0xFFFFFFFF
#: The greatest moment, in units of 100 ns.
MAX_MOMENT = 1 << 62
MAXIMUM_WAIT_OBJECTS = 64

_OBJECT_0, _ABANDONED_0 = 0x00, 0x80

Status = enum.IntEnum(  # type: ignore[misc]
    "Status",
    {
        **{f"OBJECT_{index}": _OBJECT_0 + index for index in range(MAXIMUM_WAIT_OBJECTS)},
        **{f"ABANDONED_{index}": _ABANDONED_0 + index for index in range(MAXIMUM_WAIT_OBJECTS)},
        "IO_COMPLETION": 0xC0,
        "TIMEOUT": 0x102,
    },
    module=__name__,
)
Status.__doc__ = "How a wait ended: OBJECT_i or ABANDONED_i for the object at index i, IO_COMPLETION for an APC, TIMEOUT."


class Kind(enum.IntEnum):
    """What an object is. One that is GONE has ended."""

    GONE, EVENT, SEMAPHORE, MUTEX, TIMER, THREAD = range(6)


class Access(enum.IntFlag):
    """The rights of a handle."""

    NONE = 0
    #: To signal an event or a semaphore, or to set or cancel a timer.
    MODIFY_STATE = 0x0002
    #: To queue an APC to the thread.
    SET_CONTEXT = 0x0010
    #: To wait for the object.
    SYNCHRONIZE = 0x00100000


class Error(enum.IntEnum):
    """Why a call is refused: Windows' own numbers, and those with bit 29, which no number of the system has."""

    ACCESS_DENIED = 5
    INVALID_HANDLE = 6
    NOT_ENOUGH_MEMORY = 8
    GEN_FAILURE = 31
    INVALID_PARAMETER = 87
    NO_MORE_ITEMS = 259
    NOT_OWNER = 288
    TOO_MANY_POSTS = 298
    THREAD_WAITING = 0x20000001
    THREAD_ENDED = 0x20000002
    UNKNOWN_THREAD = 0x20000003
    RECURSION_LIMIT = 0x20000004
    MOMENT_BACK = 0x20000005
    HANDLE_LIMIT = 0x20000007


class Refused(OSError):
    """A refused call. It changed nothing; `error` says why."""

    def __init__(self, error: int) -> None:
        self.error = Error(error)
        super().__init__(error, f"ERROR_{self.error.name}")


class OutOfMemory(Refused, MemoryError):
    """A call that had to grow, and was refused memory. It changed nothing."""


def refusal(error: int) -> Refused:
    """The exception of a refused call."""
    return (OutOfMemory if error == Error.NOT_ENOUGH_MEMORY else Refused)(error)
