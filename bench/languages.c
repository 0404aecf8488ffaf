/* Rounds of two calls of c/nt.h, as bench/languages counts them: an event is set, and taken by a wait that ends at once. */
#include "nt.h"

#include <stdlib.h>

int main(int count, char **words)
{
    const long rounds = count > 1 ? atol(words[1]) : 1;
    struct nt *const nt = nt_new(2);
    struct nt_reply reply;
    if (nt == NULL || nt_create_event(nt, 0, 0, &reply) != 0)
        return 1;
    const uint32_t event = reply.number;
    for (long i = 0; i < rounds; i++)
        if (nt_set_event(nt, 0, event, &reply) != 0 || nt_wait_object(nt, 1, event, 0, false, &reply) != 0 || reply.kind != NT_STATUS)
            return 1;
    nt_free(nt);
    return 0;
}
