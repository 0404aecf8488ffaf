/* SPDX-License-Identifier: MIT OR Apache-2.0 */
/* ---- A text that is made under a lock: in memory of its own, since a stream has locks that who waits for that one may hold. */
#include "internal.h"

/* Adds what the format makes of the rest, as printf does. */
__attribute__((format(printf, 2, 3))) NTW_INTERNAL void ntw_add(struct report *to, const char *format, ...)
{
    va_list list;
    for (int round = 0; round < 2 && !to->failed; round++) {
        va_start(list, format);
        const int length = vsnprintf(to->room > 0 ? to->letters + to->length : NULL, to->room - to->length, format, list);
        va_end(list);
        if (length >= 0 && (size_t)length < to->room - to->length) {
            to->length += (size_t)length;
            return;
        }
        const size_t room = to->room * 2 + (size_t)(length > 0 ? length : 0) + 1;
        char *letters = length >= 0 ? realloc(to->letters, room) : NULL;
        to->failed = letters == NULL;
        if (letters != NULL) {
            to->letters = letters;
            to->room = room;
        }
    }
}

NTW_INTERNAL void add_text(struct report *to, const char *text)
{
    ntw_add(to, "%s", text);
}

NTW_INTERNAL void add_letter(struct report *to, char letter)
{
    ntw_add(to, "%c", letter);
}

/* What that function writes, as a text; null where memory is refused. Who asks for it frees it. */
NTW_INTERNAL char *text_written_by(void (*write)(struct report *to, const char *from), const char *from)
{
    struct report it = { NULL, 0, 0, false };
    write(&it, from);
    add_text(&it, "");
    if (!it.failed)
        return it.letters;
    free(it.letters);
    return NULL;
}
