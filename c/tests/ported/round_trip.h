/* For zstd.c and xz.c: bytes that shrink by about a half, the same in each run. */
#include <stdio.h>
#include <stdlib.h>
#include <string.h>

enum { BYTES = 24 << 20 };

static unsigned char *bytes_to_pack(void)
{
    unsigned char *bytes = malloc(BYTES);
    unsigned state = 1;
    for (size_t i = 0; i < BYTES; i++) {
        state = state * 1103515245u + 12345u;
        bytes[i] = (state >> 16 & 3) != 0 && i >= 4096 ? bytes[i - 1 - (state >> 20)] : (unsigned char)(state >> 24);
    }
    return bytes;
}

/* Ends the program where a step fails. */
static void must(int holds, const char *what)
{
    if (!holds) {
        printf("%s failed\n", what);
        exit(1);
    }
}
