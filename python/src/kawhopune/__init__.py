# SPDX-License-Identifier: MIT OR Apache-2.0
"""A proved dispatcher of Windows NT waitable objects, for threads that its user drives.

    with Dispatcher(2) as nt:
        event = nt.create_event(0)
        nt.wait_for_single_object(0, event)      # None: the wait pends
        nt.set_event(1, event)
        nt.grants                                # [Grant(thread=0, status=Status.OBJECT_0)]

Calls of one dispatcher come one after another: the interpreter's lock is held in each, and none blocks.
"""
from ._names import INFINITE, MAX_MOMENT, MAXIMUM_WAIT_OBJECTS, Access, Error, Kind, OutOfMemory, Refused, Status
from ._native import Apc, Begun, Dispatcher, Grant, ObjectState, Opened, PendingWait, Told, Why

__all__ = [
    "INFINITE", "MAXIMUM_WAIT_OBJECTS", "MAX_MOMENT", "Access", "Apc", "Begun", "Dispatcher", "Error", "Grant", "Kind", "ObjectState", "Opened",
    "OutOfMemory", "PendingWait", "Refused", "Status", "Told", "Why",
]
