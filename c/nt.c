/* SPDX-License-Identifier: MIT OR Apache-2.0 */
/* What nt.h has beside the proved calls: names of numbers, a dispatcher with its room, and nt_wait for who calls it without the header. */
#define nt_wait nt_wait_inline
#include "nt.h"
#undef nt_wait

#include "processor.h"

#include <stdlib.h>

/* (It runs before all else of the program or library that this is linked into, and before anything that is built for later processors.) */
__attribute__((constructor)) static void look_at_processor(void)
{
    end_without_v2("ntwin");
}

uint32_t nt_wait(struct nt *nt, uint32_t who, const uint32_t *handles, size_t count, bool all, uint32_t ms, bool alertable, struct nt_reply *reply)
{
    return nt_wait_inline(nt, who, handles, count, all, ms, alertable, reply);
}

const char *nt_version(void)
{
    return NT_VERSION;
}

#define WINDOWS(name) \
    case NT_##name: \
        return #name
#define OWN(name) \
    case name: \
        return #name

const char *nt_error_name(uint32_t error)
{
    switch (error) {
        WINDOWS(ERROR_ACCESS_DENIED);
        WINDOWS(ERROR_INVALID_HANDLE);
        WINDOWS(ERROR_NOT_ENOUGH_MEMORY);
        WINDOWS(ERROR_GEN_FAILURE);
        WINDOWS(ERROR_INVALID_PARAMETER);
        WINDOWS(ERROR_NO_MORE_ITEMS);
        WINDOWS(ERROR_NOT_OWNER);
        WINDOWS(ERROR_TOO_MANY_POSTS);
        OWN(NT_ERROR_THREAD_WAITING);
        OWN(NT_ERROR_THREAD_ENDED);
        OWN(NT_ERROR_UNKNOWN_THREAD);
        OWN(NT_ERROR_RECURSION_LIMIT);
        OWN(NT_ERROR_MOMENT_BACK);
        OWN(NT_ERROR_HANDLE_LIMIT);
    }
    return NULL;
}

/* Ten names of a row: those that end with this digit before their last one. */
#define TEN(name, tens) \
    name tens "0", name tens "1", name tens "2", name tens "3", name tens "4", name tens "5", name tens "6", name tens "7", name tens "8", \
        name tens "9"
#define ROW(name) \
    { \
        name, name "+1", name "+2", name "+3", name "+4", name "+5", name "+6", name "+7", name "+8", name "+9", TEN(name, "+1"), \
            TEN(name, "+2"), TEN(name, "+3"), TEN(name, "+4"), TEN(name, "+5"), name "+60", name "+61", name "+62", name "+63" \
    }

const char *nt_status_name(uint32_t status)
{
    static const char *const objects[NT_MAXIMUM_WAIT_OBJECTS] = ROW("WAIT_OBJECT_0");
    static const char *const abandoned[NT_MAXIMUM_WAIT_OBJECTS] = ROW("WAIT_ABANDONED_0");
    if (status - NT_WAIT_OBJECT_0 < NT_MAXIMUM_WAIT_OBJECTS)
        return objects[status - NT_WAIT_OBJECT_0];
    if (status - NT_WAIT_ABANDONED_0 < NT_MAXIMUM_WAIT_OBJECTS)
        return abandoned[status - NT_WAIT_ABANDONED_0];
    return status == NT_WAIT_TIMEOUT ? "WAIT_TIMEOUT" : status == NT_WAIT_IO_COMPLETION ? "WAIT_IO_COMPLETION" : NULL;
}

/* The room stands right behind the handle, in one block. (A handle has 16 bytes, so the room is aligned as the block is.) */
static struct nt *opened_by(uint32_t (*open)(struct nt *, uint32_t), uint32_t threads)
{
    struct nt *const nt = aligned_alloc(16, (sizeof(struct nt) + nt_room() + 15) / 16 * 16);
    if (nt == NULL)
        return NULL;
    *nt = (struct nt){ nt + 1, false };
    if (open(nt, threads) == 0)
        return nt;
    free(nt);
    return NULL;
}

struct nt *nt_new(uint32_t threads)
{
    return opened_by(nt_open, threads);
}

struct nt *nt_new_lasting(uint32_t threads)
{
    return opened_by(nt_open_lasting, threads);
}

void nt_free(struct nt *nt)
{
    if (nt == NULL)
        return;
    nt_close(nt);
    free(nt);
}
