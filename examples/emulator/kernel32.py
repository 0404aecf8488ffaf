# SPDX-License-Identifier: MIT OR Apache-2.0
"""The calls of kernel32 that a guest may import. Each method is a call under its own name, with its parameters; it answers the number that the call
returns, or None if the thread waits. Handles of guests are the dispatcher's, times four and four more, as Windows' are."""
import inspect

from kawhopune import Access, Refused

from machine import EPOCH, Hang, Stopped, thread_id

WAIT_FAILED, TIMEOUT, IO_COMPLETION = 0xFFFF_FFFF, 0x102, 0xC0
STANDARD_OUTPUT, PSEUDO_PROCESS, PSEUDO_THREAD = 0xFFFF_FFF0, 2**64 - 1, 2**64 - 2
NOT_SUPPORTED, INVALID_HANDLE, INVALID_PARAMETER, NO_RESOURCES = 50, 6, 87, 1450
# Windows' numbers for what the dispatcher refuses by numbers of its own.
OWN_ERRORS = {0x2000_0004: 587, 0x2000_0007: NO_RESOURCES}
# How much of time a look at it takes, in units of 100 ns: so whoever polls the time sees it pass.
LOOK = 1000
RIGHTS = Access.MODIFY_STATE | Access.SET_CONTEXT | Access.SYNCHRONIZE


def dword(number):
    return number & 0xFFFF_FFFF


def signed(number, bits):
    number &= (1 << bits) - 1
    return number - (1 << bits) if number >> (bits - 1) else number


class Slim:
    """A slim lock: who has it, and who waits for it, by two events of its own."""

    def __init__(self, exclusive, shared):
        self.exclusive, self.shared = exclusive, shared
        self.has_writer, self.readers, self.writers_wait, self.readers_wait = False, 0, 0, 0


class Kernel:
    def __init__(self, machine):
        self.machine, self.calls = machine, machine.calls
        self.sections, self.slims, self.exits = {}, {}, {}

    def call(self, dll, name, *given):
        """Makes the call of this name by the thread whose turn it is, with what the guest gave, or this. Whom it lets go on learns so."""
        machine, self.me = self.machine, self.machine.current
        found = getattr(self, name, None) if name[:1].isupper() else None
        if found is None:
            raise Stopped(f"{machine.place()}: {dll or 'the program'} has {name}, which is not known here")
        self.calls.comment = f"{name} at {machine.caller:#x}" if dll else "the routine returned"
        try:
            answer = found(*(given or machine.words(len(inspect.signature(found).parameters))))
        except Refused as refused:
            machine.last_error = OWN_ERRORS.get(int(refused.error), int(refused.error))
            answer = WAIT_FAILED if "Wait" in name and "Timer" not in name else 0
        if self.calls.nt.is_waiting(self.me):
            machine.ready.remove(self.me)
            answer = None
        machine.wake()
        if self.calls.nt.pending and machine.knot():
            raise Hang(machine.why())
        return answer

    def fails(self, error, answer=0):
        self.machine.last_error = error
        return answer

    # ---- Handles: a guest's, and the dispatcher's.
    def made(self, handle):
        return 4 * handle + 4

    def of(self, handle):
        if handle == PSEUDO_THREAD:
            return self.me
        return handle // 4 - 1 if handle % 4 == 0 and 0 < handle < 4 * 65537 else 0xFFFF_FFFF

    def CloseHandle(self, handle):
        self.calls.close(self.me, self.of(handle))
        return 1

    def DuplicateHandle(self, of, handle, to, at, access, inherit, options):
        has_same = dword(options) & 2
        rights = self.calls.nt.opened(self.of(handle)).access if has_same else dword(access) & RIGHTS
        made = self.calls.duplicate(self.me, self.of(handle), int(rights))
        self.machine.put(at, self.made(made), 8)
        return 1

    # ---- Threads.
    def CreateThread(self, attributes, stack, routine, argument, flags, number):
        if dword(flags) & 4:
            return self.fails(NOT_SUPPORTED)
        began = self.machine.begin(routine, argument)
        if began is None:
            return self.fails(NO_RESOURCES)
        if number:
            self.machine.put(number, thread_id(began), 4)
        return self.made(began)

    def ExitThread(self, status):
        machine = self.machine
        self.exits[self.me] = dword(status)
        self.calls.exit(self.me)
        machine.ready.remove(self.me)
        if len(self.exits) == len(machine.threads):
            machine.status = dword(status)
        return 0

    def ExitProcess(self, status):
        self.machine.status = dword(status)
        return 0

    def GetCurrentThread(self):
        return PSEUDO_THREAD

    def GetCurrentProcess(self):
        return PSEUDO_PROCESS

    def GetCurrentThreadId(self):
        return thread_id(self.me)

    def GetLastError(self):
        return self.machine.last_error

    def SetLastError(self, number):
        self.machine.last_error = dword(number)
        return 0

    def QueueUserAPC(self, routine, thread, argument):
        self.calls.apc(self.me, self.of(thread), routine, argument)
        return 1

    # ---- Objects. (None has a name here.)
    def CreateEventA(self, attributes, manual, is_set, name):
        return self.fails(NOT_SUPPORTED) if name else self.made(self.calls.event(self.me, bool(dword(manual)), bool(dword(is_set))))

    def SetEvent(self, event):
        self.calls.set(self.me, self.of(event))
        return 1

    def ResetEvent(self, event):
        self.calls.reset(self.me, self.of(event))
        return 1

    def PulseEvent(self, event):
        self.calls.pulse(self.me, self.of(event))
        return 1

    def CreateMutexA(self, attributes, is_owned, name):
        return self.fails(NOT_SUPPORTED) if name else self.made(self.calls.mutex(self.me, bool(dword(is_owned))))

    def ReleaseMutex(self, mutex):
        self.calls.unlock(self.me, self.of(mutex))
        return 1

    def CreateSemaphoreA(self, attributes, initial, most, name):
        if name:
            return self.fails(NOT_SUPPORTED)
        return self.made(self.calls.semaphore(self.me, signed(initial, 32), signed(most, 32)))

    def ReleaseSemaphore(self, semaphore, count, at):
        before = self.calls.release(self.me, self.of(semaphore), signed(count, 32))
        if at:
            self.machine.put(at, before, 4)
        return 1

    def CreateWaitableTimerA(self, attributes, manual, name):
        return self.fails(NOT_SUPPORTED) if name else self.made(self.calls.timer(self.me, bool(dword(manual))))

    def SetWaitableTimer(self, timer, at, period, routine, argument, resume):
        due = signed(self.machine.read(at, 8), 64)
        due = due if due < 0 else max(0, due - EPOCH)
        self.calls.arm(self.me, self.of(timer), due, signed(period, 32), routine or None, argument)
        return 1

    def CancelWaitableTimer(self, timer):
        self.calls.cancel(self.me, self.of(timer))
        return 1

    CreateEventW, CreateMutexW, CreateSemaphoreW, CreateWaitableTimerW = CreateEventA, CreateMutexA, CreateSemaphoreA, CreateWaitableTimerA

    # ---- Waits.
    def ended(self, status):
        """What a wait answers; where it ends for APCs, these come first."""
        self.machine.threads[self.me].alerted = status == IO_COMPLETION
        return status if status is None else int(status)

    def WaitForSingleObject(self, handle, ms):
        return self.ended(self.calls.wait(self.me, [self.of(handle)], dword(ms)))

    def WaitForSingleObjectEx(self, handle, ms, alertable):
        return self.ended(self.calls.wait(self.me, [self.of(handle)], dword(ms), bool(dword(alertable))))

    def WaitForMultipleObjects(self, count, at, all, ms):
        return self.WaitForMultipleObjectsEx(count, at, all, ms, 0)

    def WaitForMultipleObjectsEx(self, count, at, all, ms, alertable):
        if not 0 < dword(count) <= 64:
            return self.fails(INVALID_PARAMETER, WAIT_FAILED)
        handles = [self.of(self.machine.read(at + 8 * it, 8)) for it in range(dword(count))]
        return self.ended(self.calls.wait(self.me, handles, dword(ms), bool(dword(alertable)), bool(dword(all))))

    def SignalObjectAndWait(self, signal, handle, ms, alertable):
        return self.ended(self.calls.swap(self.me, self.of(signal), self.of(handle), dword(ms), bool(dword(alertable))))

    def Sleep(self, ms):
        self.calls.sleep(self.me, dword(ms))
        return 0

    def SleepEx(self, ms, alertable):
        return self.ended(self.calls.sleep(self.me, dword(ms), bool(dword(alertable))))

    # ---- Critical sections: each is a mutex, known by where it lies.
    def section(self, at):
        if at not in self.sections:
            self.sections[at] = self.calls.mutex(self.me, False, "section")
        return self.sections[at]

    def InitializeCriticalSection(self, at):
        self.DeleteCriticalSection(at)
        self.section(at)
        return 1

    def InitializeCriticalSectionAndSpinCount(self, at, spins):
        return self.InitializeCriticalSection(at)

    def DeleteCriticalSection(self, at):
        if at in self.sections:
            self.calls.close(self.me, self.sections.pop(at))
        return 0

    def EnterCriticalSection(self, at):
        self.calls.wait(self.me, [self.section(at)])
        return 0

    def TryEnterCriticalSection(self, at):
        return int(self.calls.wait(self.me, [self.section(at)], 0) != TIMEOUT)

    def LeaveCriticalSection(self, at):
        try:
            self.calls.unlock(self.me, self.section(at))
        except Refused:
            raise Stopped(f"{self.machine.place()}: LeaveCriticalSection of a section that the thread does not own") from None
        return 0

    # ---- Slim locks: what they are lies here; whoever has to wait does so for an event of the lock.
    def slim(self, at):
        if at not in self.slims:
            self.slims[at] = Slim(self.calls.event(self.me, False, False, "exclusive"), self.calls.event(self.me, True, False, "shared"))
        return self.slims[at]

    def InitializeSRWLock(self, at):
        self.slims.pop(at, None)
        return 0

    def TryAcquireSRWLockExclusive(self, at):
        it = self.slim(at)
        is_free = not it.has_writer and not it.readers
        it.has_writer |= is_free
        return int(is_free)

    def AcquireSRWLockExclusive(self, at):
        if not self.TryAcquireSRWLockExclusive(at):
            self.slim(at).writers_wait += 1
            self.calls.wait(self.me, [self.slim(at).exclusive])
        return 0

    def TryAcquireSRWLockShared(self, at):
        it = self.slim(at)
        it.readers += not it.has_writer
        return int(not it.has_writer)

    def AcquireSRWLockShared(self, at):
        if not self.TryAcquireSRWLockShared(at):
            self.slim(at).readers_wait += 1
            self.calls.wait(self.me, [self.slim(at).shared])
        return 0

    def ReleaseSRWLockExclusive(self, at):
        it = self.slim(at)
        it.has_writer = False
        if it.readers_wait:
            it.readers, it.readers_wait = it.readers_wait, 0
            self.calls.pulse(self.me, it.shared)
        else:
            self.hand_on(it)
        return 0

    def ReleaseSRWLockShared(self, at):
        it = self.slim(at)
        it.readers -= 1
        if not it.readers:
            self.hand_on(it)
        return 0

    def hand_on(self, it):
        if it.writers_wait:
            it.writers_wait, it.has_writer = it.writers_wait - 1, True
            self.calls.set(self.me, it.exclusive)

    # ---- Time, which a look lets pass a little.
    def look(self):
        self.calls.tick(self.calls.nt.now + LOOK)
        return self.calls.nt.now

    def GetTickCount64(self):
        return self.look() // 10_000

    def GetTickCount(self):
        return dword(self.look() // 10_000)

    def QueryPerformanceCounter(self, at):
        self.machine.put(at, self.look(), 8)
        return 1

    def QueryPerformanceFrequency(self, at):
        self.machine.put(at, 10_000_000, 8)
        return 1

    def GetSystemTimeAsFileTime(self, at):
        self.machine.put(at, EPOCH + self.look(), 8)
        return 0

    # ---- Output and memory.
    def GetStdHandle(self, which):
        return STANDARD_OUTPUT if dword(which) == dword(-11) else PSEUDO_PROCESS

    def WriteFile(self, file, at, count, written, overlapped):
        if file != STANDARD_OUTPUT:
            return self.fails(INVALID_HANDLE)
        self.machine.write(self.machine.bytes(at, dword(count)))
        if written:
            self.machine.put(written, dword(count), 4)
        return 1

    def GetProcessHeap(self):
        return PSEUDO_PROCESS

    def HeapAlloc(self, heap, flags, count):
        return self.machine.allocated(count)

    def HeapFree(self, heap, flags, at):
        return 1
