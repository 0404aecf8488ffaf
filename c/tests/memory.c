/* What the calls of nt.h take of memory: makes a dispatcher with its room, and frees it; opens a dispatcher and its copy, which gives numbers again
 * from then on, and makes waits that end at once, for each number of handles from 1 to 64, in each of the two. Words: how many rounds of them. It
 * writes what making, opening, creating, copying and giving again answered, and ends there where one is refused. Run by tests/allocations, which
 * counts. */
#include "../nt.h"
#include "check.h"

static uint32_t EVENTS[NT_MAXIMUM_WAIT_OBJECTS];

/* Writes what was answered, and ends the program where that is a refusal. */
static void tell(const char *what, uint32_t answered)
{
    printf("%s %u\n", what, answered);
    if (answered != 0)
        exit(0);
}

static struct nt unopened(void)
{
    struct nt nt = { aligned_alloc(16, (nt_room() + 15) / 16 * 16), false };
    if (nt.room == NULL)
        tell("room", 8);
    return nt;
}

/* The wait for the first `count` events ends at once, with this status. */
static void wait_for(struct nt *nt, size_t count, bool all, uint32_t status)
{
    struct nt_reply reply;
    must(nt_wait(nt, 0, EVENTS, count, all, 0, false, &reply) == 0);
    must(reply.kind == NT_STATUS && reply.number == status);
}

/* One round: for any where none is set and where the last one is, and for all where each one is. */
static void make_waits(struct nt *nt)
{
    struct nt_reply reply;
    for (size_t count = 1; count <= NT_MAXIMUM_WAIT_OBJECTS; count++) {
        wait_for(nt, count, false, NT_WAIT_TIMEOUT);
        must(nt_set_event(nt, 0, EVENTS[count - 1], &reply) == 0);
        wait_for(nt, count, false, NT_WAIT_OBJECT_0 + (uint32_t)count - 1);
        for (size_t i = 0; i < count; i++)
            must(nt_set_event(nt, 0, EVENTS[i], &reply) == 0);
        wait_for(nt, count, true, NT_WAIT_OBJECT_0);
    }
}

int main(int count, char **words)
{
    struct nt_reply reply;
    struct nt *const made = nt_new_lasting(2);
    tell("new", made == NULL ? 8 : 0);
    nt_free(made);
    struct nt nt = unopened(), copy = unopened();
    const long rounds = count > 1 ? atol(words[1]) : 1;
    tell("open", nt_open(&nt, 2));
    for (size_t i = 0; i < NT_MAXIMUM_WAIT_OBJECTS; i++) {
        const uint32_t refused = nt_create_event(&nt, 0, 0, &reply);
        if (refused != 0)
            tell("create", refused);
        EVENTS[i] = reply.number;
    }
    tell("copy", nt_copy(&nt, &copy));
    tell("again", nt_give_again(&copy));
    for (long round = 0; round < rounds; round++) {
        make_waits(&nt);
        make_waits(&copy);
    }
    nt_close(&copy);
    nt_close(&nt);
    free(copy.room);
    free(nt.room);
    return 0;
}
