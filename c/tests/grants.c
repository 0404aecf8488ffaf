/* What nt_grant answers after a call of nt.h that is refused: there is no grant, or those of the call before are still there. A driver that
 * reads the grants of each accepted call before the next one learns of each wait once. */
#include "room.h"

static struct nt nt;
static struct nt_reply reply;

static uint32_t set_no_event(void)
{
    return nt_set_event(&nt, 1, NT_MAXIMUM_HANDLES - 1, &reply);
}

static uint32_t call_for_nobody(void)
{
    return nt_create_event(&nt, 2, 0, &reply);
}

static uint32_t tick_too_far(void)
{
    return nt_tick(&nt, NT_GREATEST_MOMENT + 1);
}

static uint32_t open_again(void)
{
    return nt_open(&nt, 2);
}

static uint32_t wait_for_none(void)
{
    return nt_wait(&nt, 1, NULL, 0, false, 0, false, &reply);
}

/* A call, and why it is refused. */
static const struct {
    uint32_t (*call)(void);
    uint32_t refused;
} rows[] = {
    { set_no_event, NT_ERROR_INVALID_HANDLE },
    { call_for_nobody, NT_ERROR_UNKNOWN_THREAD },
    { tick_too_far, NT_ERROR_INVALID_PARAMETER },
    { open_again, NT_ERROR_INVALID_PARAMETER },
    { wait_for_none, NT_ERROR_INVALID_PARAMETER },
};

int main(void)
{
    nt.room = room();
    must(nt_open(&nt, 2) == 0 && nt_create_event(&nt, 0, 0, &reply) == 0);
    const uint32_t event = reply.number;
    for (size_t i = 0; i < sizeof rows / sizeof *rows; i++) {
        struct nt_grant grant = { 99, 99 };
        IS(nt_wait(&nt, 0, &event, 1, false, NT_INFINITE, false, &reply), 0);
        IS(nt_set_event(&nt, 1, event, &reply), 0);
        IS(rows[i].call(), rows[i].refused);
        const uint32_t answer = nt_grant(&nt, 0, &grant);
        IS(answer == NT_ERROR_NO_MORE_ITEMS ? grant.thread == 99 : answer == 0 && grant.thread == 0 && grant.status == NT_WAIT_OBJECT_0, 1);
        IS(nt_grant(&nt, 1, &grant), NT_ERROR_NO_MORE_ITEMS);
        IS(nt_sleep(&nt, 0, 0, false, &reply), 0);
        IS(nt_grant(&nt, 0, &grant), NT_ERROR_NO_MORE_ITEMS);
    }
    nt_close(&nt);
    free(nt.room);
    return counted();
}
