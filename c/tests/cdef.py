"""Makes calls by cffi: `python3 c/tests/cdef.py NT.CDEF LIBRARY`. Each answer is that of docs/WIN32.md; what is wrong is told, with exit status 1."""
import sys

import cffi

FFI = cffi.FFI()
with open(sys.argv[1], encoding="ascii") as file:
    FFI.cdef(file.read())
NT = FFI.dlopen(sys.argv[2])
WRONG = []


def expect(what, found, wanted):
    if found != wanted:
        WRONG.append(f"{what}: found {found!r}, wanted {wanted!r}")


nt, reply, handles, grant = NT.nt_new(2), FFI.new("struct nt_reply *"), FFI.new("uint32_t[1]"), FFI.new("struct nt_grant *")
expect("nt_create_event", NT.nt_create_event(nt, 0, NT.NT_EVENT_MANUAL_RESET, reply), 0)
handles[0] = reply.number
expect("its handle", reply.number, 2)
expect("nt_wait", (NT.nt_wait(nt, 0, handles, 1, False, NT.NT_INFINITE, False, reply), reply.kind), (0, NT.NT_PENDED))
expect("nt_wait for none", NT.nt_wait(nt, 1, FFI.NULL, 1, False, 0, False, reply), NT.NT_ERROR_INVALID_PARAMETER)
expect("nt_set_event", NT.nt_set_event(nt, 1, handles[0], reply), 0)
expect("nt_grant", (NT.nt_grant(nt, 0, grant), grant.thread, grant.status), (0, 0, NT.NT_WAIT_OBJECT_0))
expect("nt_error_name", FFI.string(NT.nt_error_name(NT.NT_ERROR_NOT_OWNER)), b"ERROR_NOT_OWNER")
expect("nt_status_name", FFI.string(NT.nt_status_name(0x81)), b"WAIT_ABANDONED_0+1")
expect("NT_GREATEST_MOMENT", NT.NT_GREATEST_MOMENT, 1 << 62)
expect("a tick to that moment", NT.nt_tick(nt, NT.NT_GREATEST_MOMENT), 0)
# Each function of the header is in the library.
for name in dir(NT):
    getattr(NT, name)
NT.nt_free(nt)
print(*WRONG, sep="\n", end="\n" if WRONG else "")
sys.exit(bool(WRONG))
