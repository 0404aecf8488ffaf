/* Room for a dispatcher of nt.h. */
#ifndef ROOM_H
#define ROOM_H

#include "../nt.h"
#include "check.h"

static inline void *room(void)
{
    void *at = aligned_alloc(16, (nt_room() + 15) / 16 * 16);
    must(at != NULL);
    return at;
}

#endif
