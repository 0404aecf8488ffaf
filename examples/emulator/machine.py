# SPDX-License-Identifier: MIT OR Apache-2.0
"""A 64-bit Windows program in Unicorn: its own machine code, thread by thread, in an order that a seed gives, in virtual time. What its threads wait
for is the dispatcher's; kernel32.py has the calls that it may import."""
import random
import struct

import pefile
from unicorn import UC_ARCH_X86, UC_HOOK_CODE, UC_MODE_64, Uc, UcError
from unicorn.x86_const import (
    UC_X86_REG_GS_BASE, UC_X86_REG_R8, UC_X86_REG_R9, UC_X86_REG_RAX, UC_X86_REG_RCX, UC_X86_REG_RDX, UC_X86_REG_RIP, UC_X86_REG_RSP,
)  # fmt: skip

from calls import Calls

THREADS = 64
IO_COMPLETION = 0xC0
# The moment 0 in Windows' time, units of 100 ns since 1601: the year 2024 begins.
EPOCH = 133_485_408_000_000_000
# Where imports point to, a place for each; and stacks and blocks of threads, which Windows has there or elsewhere.
STUBS, STACKS, BLOCKS, HEAP = 0x7FFE_0000_0000, 0x10_0000_0000, 0x20_0000_0000, 0x30_0000_0000
STACK, BLOCK, PAGE, STUB, HEAP_SIZE = 0x10_0000, 0x2000, 0x1000, 16, 0x100_0000
# In a thread's block (TEB): its stack, itself, its process, its number, its last error.
STACK_BASE, STACK_LIMIT, SELF, PROCESS, THREAD, LAST_ERROR = 0x08, 0x10, 0x30, 0x40, 0x48, 0x68
# How many instructions a turn may have.
TURN = (20, 400)
MOST_TURNS = 1_000_000
ARGUMENTS = (UC_X86_REG_RCX, UC_X86_REG_RDX, UC_X86_REG_R8, UC_X86_REG_R9)


class Stopped(Exception):
    """Why a run ended before its program did."""


class Hang(Stopped):
    """Nothing can end the waits there are, or threads hold each other."""


class Thread:
    """A thread of the guest: where it goes on, and what of its calls has yet to be answered."""

    def __init__(self, context):
        self.context, self.answer = context, None
        #: The call in which it waits, or waited last, and what is to be done once that wait has ended.
        self.call, self.then = "", None
        #: Whether it has APCs to run before its wait answers; and where it goes on after each that it runs.
        self.alerted, self.interrupted = False, []


class Machine:
    def __init__(self, program, seed, write):
        self.program, self.random, self.write = program, random.Random(seed), write
        self.calls, self.uc = Calls(THREADS), Uc(UC_ARCH_X86, UC_MODE_64)
        self.threads, self.ready, self.status, self.turns = {}, [], None, 0
        self.imports, self.heap = {}, HEAP
        try:
            image = pefile.PE(program)
        except pefile.PEFormatError as error:
            raise Stopped(f"{program}: it is no Windows program: {error}") from None
        self.load(image)
        self.uc.mem_map(STACKS, STACK * THREADS)
        self.uc.mem_map(BLOCKS, BLOCK * THREADS)
        self.uc.mem_map(HEAP, HEAP_SIZE)
        self.blank = self.uc.context_save()
        self.current = 0
        self.begin(image.OPTIONAL_HEADER.ImageBase + image.OPTIONAL_HEADER.AddressOfEntryPoint, 0)

    def load(self, image):
        """Maps the image where it wants to be, and points each of its imports to a place of its own."""
        if image.FILE_HEADER.Machine != 0x8664:
            raise Stopped(f"{self.program}: it is no 64-bit program for x86")
        base, text = image.OPTIONAL_HEADER.ImageBase, bytes(image.get_memory_mapped_image())
        self.uc.mem_map(base, (len(text) + PAGE - 1) // PAGE * PAGE)
        self.uc.mem_write(base, text)
        found = [(dll.dll.decode(), it) for dll in getattr(image, "DIRECTORY_ENTRY_IMPORT", []) for it in dll.imports]
        self.uc.mem_map(STUBS, (STUB * (len(found) + 2) + PAGE - 1) // PAGE * PAGE)
        for place, (dll, it) in enumerate(found, 2):
            name = it.name.decode() if it.name else f"#{it.ordinal}"
            self.imports[STUBS + STUB * place] = (dll, name)
            self.uc.mem_write(it.address, struct.pack("<Q", STUBS + STUB * place))
        # (At the first place a thread's routine returns, and at the second an APC's.)
        self.uc.hook_add(UC_HOOK_CODE, lambda uc, *_: uc.emu_stop(), begin=STUBS, end=STUBS + STUB * (len(found) + 2))

    def begin(self, routine, argument):
        """A thread begins; answers its number, or None where no place is left."""
        number = len(self.threads)
        if number == THREADS:
            return None
        block, top = BLOCKS + BLOCK * number, STACKS + STACK * (number + 1) - PAGE
        for place, value in ((STACK_BASE, top), (STACK_LIMIT, top - STACK + PAGE), (SELF, block), (PROCESS, 4), (THREAD, thread_id(number))):
            self.uc.mem_write(block + place, struct.pack("<Q", value))
        before = self.uc.context_save()
        self.uc.context_restore(self.blank)
        # (As after a call: 8 bytes past a multiple of 16, with the address to return to, and room for four arguments above.)
        self.uc.mem_write(top - 0x38, struct.pack("<Q", STUBS))
        for register, value in ((UC_X86_REG_RSP, top - 0x38), (UC_X86_REG_RCX, argument), (UC_X86_REG_RIP, routine)):
            self.uc.reg_write(register, value)
        self.threads[number] = Thread(self.uc.context_save())
        self.uc.context_restore(before)
        self.ready.append(number)
        self.calls.began = len(self.threads)
        return number

    # ---- Memory and registers, as calls see them.
    def words(self, count):
        """The arguments of the call that is made."""
        rest = [self.read(self.frame + 0x28 + 8 * it, 8) for it in range(max(0, count - len(ARGUMENTS)))]
        return ([self.uc.reg_read(it) for it in ARGUMENTS] + rest)[:count]

    def bytes(self, at, count):
        try:
            return bytes(self.uc.mem_read(at, count))
        except UcError:
            raise Stopped(f"{self.place()}: {self.threads[self.current].call} reads {at:#x}, where there is no memory") from None

    def read(self, at, size):
        return int.from_bytes(self.bytes(at, size), "little")

    def put(self, at, value, size):
        try:
            self.uc.mem_write(at, (value & (1 << 8 * size) - 1).to_bytes(size, "little"))
        except UcError:
            raise Stopped(f"{self.place()}: {self.threads[self.current].call} writes {at:#x}, where there is no memory") from None

    def allocated(self, count):
        """So much of the heap, of which nothing is given again; 0 if it is too small."""
        at = self.heap
        if count > HEAP + HEAP_SIZE - at:
            return 0
        self.heap += (count + 15) // 16 * 16
        return at

    @property
    def last_error(self):
        return self.read(BLOCKS + BLOCK * self.current + LAST_ERROR, 4)

    @last_error.setter
    def last_error(self, number):
        self.put(BLOCKS + BLOCK * self.current + LAST_ERROR, number, 4)

    def place(self):
        return f"thread {self.current} at {self.caller:#x}"

    # ---- Turns.
    def run(self, kernel):
        """Runs the program to its end; answers its exit status. `kernel` makes its calls."""
        while self.status is None:
            if not self.ready:
                self.pass_time()
            elif self.turns == MOST_TURNS:
                raise Stopped(f"not done after {MOST_TURNS} turns")
            else:
                self.turns += 1
                self.turn(self.random.choice(self.ready), kernel)
        return self.status

    def turn(self, number, kernel):
        self.current, it, uc = number, self.threads[number], self.uc
        uc.context_restore(it.context)
        uc.reg_write(UC_X86_REG_GS_BASE, BLOCKS + BLOCK * number)
        if it.alerted:
            self.run_apc(it)
        elif it.answer is not None:
            uc.reg_write(UC_X86_REG_RAX, it.answer)
            it.answer = None
        try:
            uc.emu_start(uc.reg_read(UC_X86_REG_RIP), 0, count=self.random.randrange(*TURN))
        except UcError as error:
            self.caller = uc.reg_read(UC_X86_REG_RIP)
            raise Stopped(f"{self.place()}: {error}") from None
        at = uc.reg_read(UC_X86_REG_RIP)
        if at == STUBS:
            kernel.call("", "ExitThread", uc.reg_read(UC_X86_REG_RAX))
        elif at == STUBS + STUB:
            self.end_apc(it)
        elif at in self.imports:
            self.call(kernel, it, *self.imports[at])
        it.context = uc.context_save()

    def call(self, kernel, it, dll, name):
        """Makes the call that was just entered, and returns from it: with an answer, or with none if it waits."""
        self.frame = self.uc.reg_read(UC_X86_REG_RSP)
        self.caller, it.call = self.read(self.frame, 8), name
        self.uc.reg_write(UC_X86_REG_RSP, self.frame + 8)
        self.uc.reg_write(UC_X86_REG_RIP, self.caller)
        answer = kernel.call(dll, name)
        if it.alerted:
            it.answer = answer
        elif answer is not None:
            self.uc.reg_write(UC_X86_REG_RAX, answer & 0xFFFF_FFFF_FFFF_FFFF)

    def run_apc(self, it):
        """Enters the routine of the thread's oldest APC; its wait answers once none is left."""
        self.calls.comment = "an APC begins"
        apc = self.calls.next(self.current)
        it.alerted = False
        it.interrupted.append((self.uc.context_save(), it.answer))
        it.answer = None
        stack = (self.uc.reg_read(UC_X86_REG_RSP) - 0x80) // 16 * 16 - 8
        self.put(stack, STUBS + STUB, 8)
        due = 0 if apc.due is None else kernel_time(apc.due)
        values = (UC_X86_REG_RSP, stack), (UC_X86_REG_RIP, apc.routine), (UC_X86_REG_RCX, apc.argument)
        for register, value in (*values, (UC_X86_REG_RDX, due & 0xFFFF_FFFF), (UC_X86_REG_R8, due >> 32)):
            self.uc.reg_write(register, value)

    def end_apc(self, it):
        """The routine of an APC has returned: the next one begins, if there is one, and else the wait answers."""
        context, it.answer = it.interrupted.pop()
        self.uc.context_restore(context)
        self.calls.comment = "whether another APC is there"
        it.alerted = self.calls.sleep(self.current, 0, True) == IO_COMPLETION

    def wake(self):
        """Lets those go on whose waits calls and ticks ended."""
        granted, self.calls.granted = self.calls.granted, []
        for number, status in granted:
            it = self.threads[number]
            self.ready.append(number)
            it.alerted = int(status) == IO_COMPLETION
            it.answer = int(status) if it.then is None else it.then(int(status))
            it.then = None

    def pass_time(self):
        moment = self.calls.nt.due()
        if moment is None:
            raise Hang(self.why())
        self.calls.comment = ""
        self.calls.tick(moment)
        self.wake()

    def over(self):
        """The threads that make no call: those that never began."""
        return range(len(self.threads), THREADS)

    def knot(self):
        return [it for it in self.calls.nt.why(self.over()).knot if it in self.threads and self.calls.nt.is_waiting(it)]

    def why(self):
        """Who waits for what, and which threads hold each other."""
        nt, knot = self.calls.nt, self.knot()
        told = [f"threads hold each other: {', '.join(map(str, knot))}" if knot else "nothing can end the waits"]
        for number, it in self.threads.items():
            wait = nt.wait_of(number)
            if wait is None:
                continue
            names = [self.object_name(object) for object in wait.objects]
            told.append(f"  thread {number} in {it.call}: waits for {(' and ' if wait.wait_all else ' or ').join(names) or 'time'}")
        return "\n".join(told)

    def object_name(self, object):
        """The first name by which a script knows the object, and who owns it."""
        nt = self.calls.nt
        state = nt.object(object)
        named = next((name for handle, name in self.calls.names.items() if is_of(nt, handle, object)), f"thread {object}")
        return named + (f", which thread {state.owner} owns" if state.owner is not None else "")


def is_of(nt, handle, object):
    try:
        return nt.opened(handle).object == object
    except OSError:
        return False


def kernel_time(moment):
    return EPOCH + moment


def thread_id(number):
    return 1000 + 4 * number
