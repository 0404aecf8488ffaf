/* SPDX-License-Identifier: MIT OR Apache-2.0 */
/* ---- Which handles are a completion port's, under the lock (ports.c has the ports). */
#include "internal.h"

/* How many handles it has. */

/* What the one number names, the other names too. */
NTW_INTERNAL void note_port(uint32_t number, uint32_t other)
{
    struct port *port = number < NT_MAXIMUM_HANDLES ? waiting.ports[number] : NULL;
    waiting.ports[other] = port;
    if (port != NULL)
        ++*handles_of_port(port);
}

/* The number names nothing from now on. Answers the port whose last handle it was; null where it was not. */
NTW_INTERNAL struct port *forget_port(uint32_t number)
{
    struct port *port = waiting.ports[number];
    waiting.ports[number] = NULL;
    return port != NULL && --*handles_of_port(port) == 0 ? port : NULL;
}

