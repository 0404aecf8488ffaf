/* SPDX-License-Identifier: MIT OR Apache-2.0 */
/* ---- Completion ports. A packet that is posted goes to the thread that came last, if the port lets one more run, or waits in the port. A thread that
 * waits for a packet waits for an event of its own. For the dispatcher a port is an event that is never set. */
#include "../ntwin/by_pointer.h"
#include "internal.h"

struct packet {
    struct packet *next;
    OVERLAPPED_ENTRY entry;
};

/* A thread that waits for a packet. */
struct getter {
    struct getter *above, *below; /* who came after it, and before */
    HANDLE event;
    struct packet *packet;        /* what it was given */
    bool is_told;                 /* it waits no longer: it was given one, or the port is closed */
};

NTW_INTERNAL _Atomic uint32_t ports_latch;

NTW_INTERNAL uint32_t *handles_of_port(struct port *port)
{
    return &port->handles;
}

HANDLE CreateIoCompletionPort(HANDLE file, HANDLE port, ULONG_PTR key, DWORD threads)
{
    struct nt_reply event, reply;
    (void)key;
    if (file != INVALID_HANDLE_VALUE || port != NULL) {
        ntw_fail(file != INVALID_HANDLE_VALUE ? ERROR_INVALID_HANDLE : ERROR_INVALID_PARAMETER);
        return NULL;
    }
    struct port *made = calloc(1, sizeof *made);
    struct seat *seat = made != NULL ? ntw_begin() : NULL;
    if (seat == NULL) {
        if (made == NULL)
            ntw_fail(ERROR_NOT_ENOUGH_MEMORY);
        free(made);
        return NULL;
    }
    uint32_t refused = nt_create_event(&waiting.dispatcher, seat->number, 0, &event);
    if (refused == 0) {
        refused = nt_duplicate(&waiting.dispatcher, seat->number, event.number, SYNCHRONIZE, &reply);
        close_number(seat, event.number);
    }
    if (refused == 0) {
        note_made(reply.number, NULL);
        waiting.kinds[reply.number] = KIND_PORT;
        waiting.ports[reply.number] = made;
        made->handles = 1;
        made->most = threads != 0 ? threads : GetActiveProcessorCount(ALL_PROCESSOR_GROUPS);
    } else {
        free(made);
    }
    return finish_creation(seat, refused, &reply, own.last_error);
}

/* The port that a handle names, which stays until `leave_port`; null, with the last error set, where it names none. */
static struct port *enter_port(HANDLE handle)
{
    struct seat *seat = ntw_begin();
    if (seat == NULL)
        return NULL;
    const uint32_t number = listed_number_of(handle);
    struct port *port = number != NO_HANDLE && kind_of(number) == KIND_PORT ? waiting.ports[number] : NULL;
    if (port != NULL) {
        take_latch(&ports_latch);
        port->users++;
        give_latch(&ports_latch);
    }
    end_look(seat, port != NULL ? 0 : ERROR_INVALID_HANDLE);
    return port;
}

/* The call leaves the port, under the latch, which is given back. */
static void leave_port(struct port *port)
{
    const bool ends = --port->users == 0 && port->is_closed;
    give_latch(&ports_latch);
    for (struct packet *at = ends ? port->first : NULL, *next; at != NULL; at = next) {
        next = at->next;
        free(at);
    }
    if (ends)
        free(port);
}

/* Takes a thread off the stack, under the latch. */
static void leave_stack(struct port *port, struct getter *getter)
{
    if (getter->above != NULL)
        getter->above->below = getter->below;
    else
        port->top = getter->below;
    if (getter->below != NULL)
        getter->below->above = getter->above;
}

/* Takes the packet that was posted first, under the latch; null where there is none. */
static struct packet *take_packet(struct port *port)
{
    struct packet *packet = port->first;
    if (packet != NULL)
        port->first = packet->next;
    return packet;
}

/* Gives the first packet, under the latch, to the thread that came last, where there are both and one more may run. Answers the event that is to be set
 * for it once the latch is given back; else null. */
static HANDLE hand_over(struct port *port)
{
    struct getter *getter = port->top;
    if (getter == NULL || port->first == NULL || port->running >= port->most)
        return NULL;
    leave_stack(port, getter);
    getter->packet = take_packet(port);
    getter->is_told = true;
    port->running++;
    return getter->event;
}

/* ---- Threads with a packet. One that sleeps lets another run in its place; once it is awake it counts again, even if too many run then. */

/* The caller has no packet any longer. */
static void drop_packet(void)
{
    struct port *port = own.port;
    if (port == NULL)
        return;
    take_latch(&ports_latch);
    port->running -= !own.rests;
    HANDLE event = hand_over(port);
    own.port = NULL;
    own.rests = false;
    leave_port(port);
    if (event != NULL)
        SetEvent(event);
}

/* The caller sleeps with its packet from now on. Answers the event that is to be set; null where there is none. */
static HANDLE begin_to_rest(void)
{
    take_latch(&ports_latch);
    own.rests = true;
    own.port->running--;
    HANDLE event = hand_over(own.port);
    give_latch(&ports_latch);
    return event;
}

NTW_INTERNAL void rest_with_packet(void)
{
    HANDLE event = own.port != NULL && !own.rests ? begin_to_rest() : NULL;
    if (event != NULL)
        SetEvent(event);
}

/* The same, under the lock, where the caller's wait pends. It makes no call then, so a thread sets the event that is yet to come; where none is, the
 * caller counts among those that run. */
NTW_INTERNAL void rest_beside_wait(struct seat *caller)
{
    struct nt_reply reply;
    if (waiting.seated == waiting.places)
        return;
    HANDLE event = begin_to_rest();
    if (event != NULL && nt_set_event(&waiting.dispatcher, waiting.places - 1, listed_number_of(event), &reply) == 0)
        ntw_note(caller);
}

NTW_INTERNAL void go_on_with_packet(void)
{
    take_latch(&ports_latch);
    own.rests = false;
    own.port->running++;
    give_latch(&ports_latch);
}

/* ---- The event of a thread, which is closed as it ends. */

static _Thread_local HANDLE event_of_thread __attribute__((tls_model("initial-exec")));
static struct {
    bool is_there; /* under the ports' latch */
    pthread_key_t leaving;
} event_key;

static void end_getter(void *event)
{
    drop_packet();
    event_of_thread = NULL;
    CloseHandle(event);
}

/* Makes the key, where there is none yet: a constructor of the program's may call before this one. Answers whether there is one. */
static bool make_event_key(void)
{
    take_latch(&ports_latch);
    if (!event_key.is_there)
        event_key.is_there = pthread_key_create(&event_key.leaving, end_getter) == 0;
    const bool is_there = event_key.is_there;
    give_latch(&ports_latch);
    return is_there;
}

/* (While there are keys.) */
__attribute__((constructor)) static void make_event_key_early(void)
{
    make_event_key();
}

/* The caller's event; null, with the last error set, where there is none. */
static HANDLE event_to_wait(void)
{
    const DWORD error = own.last_error;
    if (event_of_thread != NULL)
        return event_of_thread;
    HANDLE made = CreateEventA(NULL, FALSE, FALSE, NULL);
    if (made != NULL && (!make_event_key() || pthread_setspecific(event_key.leaving, made) != 0)) {
        CloseHandle(made);
        ntw_fail(ERROR_NOT_ENOUGH_MEMORY);
        return NULL;
    }
    if (made != NULL)
        own.last_error = error;
    return event_of_thread = made;
}

/* ---- Packets are posted and gotten. */

/* The last handle of a port is closed: who waits there learns that. */
NTW_INTERNAL void close_port(struct port *port)
{
    take_latch(&ports_latch);
    port->users++;
    port->is_closed = true;
    for (struct getter *at; (at = port->top) != NULL;) {
        HANDLE event = at->event;
        leave_stack(port, at);
        at->is_told = true;
        give_latch(&ports_latch);
        SetEvent(event);
        take_latch(&ports_latch);
    }
    leave_port(port);
}

BOOL PostQueuedCompletionStatus(HANDLE handle, DWORD bytes, ULONG_PTR key, LPOVERLAPPED overlapped)
{
    if (is_at_latch())
        return FALSE;
    struct packet *packet = malloc(sizeof *packet);
    if (packet == NULL)
        return ntw_fail(ERROR_NOT_ENOUGH_MEMORY);
    *packet = (struct packet){ .entry = { .lpCompletionKey = key, .lpOverlapped = overlapped, .dwNumberOfBytesTransferred = bytes } };
    struct port *port = enter_port(handle);
    if (port == NULL) {
        free(packet);
        return FALSE;
    }
    take_latch(&ports_latch);
    if (port->first == NULL)
        port->first = port->last = packet;
    else
        port->last = port->last->next = packet;
    HANDLE event = hand_over(port);
    leave_port(port);
    if (event != NULL)
        SetEvent(event);
    return TRUE;
}

/* The caller, which is done with a packet of this port or has none, gets one at once, under the latch, where there is one and it may run. */
static struct packet *begin_to_get(struct port *port)
{
    if (own.port != NULL) {
        port->running--;
        port->users--;
        own.port = NULL;
    }
    struct packet *packet = port->running < port->most ? take_packet(port) : NULL;
    port->running += packet != NULL;
    return packet;
}

/* Waits for a packet, under the latch, which is given back meanwhile. Answers it, or null, and in `error` why there is none. APCs that end the wait have
 * yet to run, since one may leave the call, or wait for a packet itself. If a packet comes before that is known, they stay queued. */
static struct packet *wait_for_packet(struct port *port, DWORD ms, BOOL alertable, HANDLE event, DWORD *error)
{
    struct getter getter = { .below = port->top, .event = event };
    if (port->top != NULL)
        port->top->above = &getter;
    port->top = &getter;
    give_latch(&ports_latch);
    const DWORD status = wait_before_apcs(event, ms, alertable);
    take_latch(&ports_latch);
    if (!getter.is_told) {
        leave_stack(port, &getter);
        *error = status == WAIT_FAILED ? own.last_error : status;
        return NULL;
    }
    *error = ERROR_ABANDONED_WAIT_0;
    if (status != WAIT_OBJECT_0) {
        /* (It was notified just then: the event is set, or about to be.) */
        give_latch(&ports_latch);
        WaitForSingleObject(event, INFINITE);
        take_latch(&ports_latch);
    }
    return getter.packet;
}

/* Takes up to `count` packets, waiting for the first of them. Answers how many; 0, with the last error set, where there is none. */
static ULONG get_packets(HANDLE handle, LPOVERLAPPED_ENTRY entries, ULONG count, DWORD ms, BOOL alertable)
{
    struct port *port = !is_at_latch() ? enter_port(handle) : NULL;
    HANDLE event = port != NULL ? event_to_wait() : NULL;
    DWORD error = event != NULL ? WAIT_TIMEOUT : own.last_error;
    ULONG taken = 0;
    if (port == NULL)
        return 0;
    if (own.port != port)
        drop_packet();
    take_latch(&ports_latch);
    struct packet *packet = begin_to_get(port);
    /* (It may be closed since its handle was looked up: who waits from then on would be woken by nobody.) */
    if (packet == NULL && port->is_closed)
        error = ERROR_ABANDONED_WAIT_0;
    else if (packet == NULL && event != NULL && (ms > 0 || alertable))
        packet = wait_for_packet(port, ms, alertable, event, &error);
    own.port = packet != NULL ? port : NULL;
    port->users += packet != NULL;
    for (; packet != NULL; packet = taken < count ? take_packet(port) : NULL) {
        entries[taken++] = packet->entry;
        free(packet);
    }
    leave_port(port);
    if (taken > 0)
        return taken;
    if (error == WAIT_IO_COMPLETION)
        run_apcs(own.seat);
    ntw_fail(error);
    return 0;
}

BOOL GetQueuedCompletionStatus(HANDLE port, LPDWORD bytes, PULONG_PTR key, LPOVERLAPPED *overlapped, DWORD ms)
{
    OVERLAPPED_ENTRY entry;
    *overlapped = NULL;
    if (get_packets(port, &entry, 1, ms, FALSE) == 0)
        return FALSE;
    *bytes = entry.dwNumberOfBytesTransferred;
    *key = entry.lpCompletionKey;
    *overlapped = entry.lpOverlapped;
    return TRUE;
}

BOOL GetQueuedCompletionStatusEx(HANDLE port, LPOVERLAPPED_ENTRY entries, ULONG count, PULONG removed, DWORD ms, BOOL alertable)
{
    if (entries == NULL || count == 0 || removed == NULL)
        return ntw_fail(ERROR_INVALID_PARAMETER);
    *removed = get_packets(port, entries, count, ms, alertable);
    return *removed > 0;
}
