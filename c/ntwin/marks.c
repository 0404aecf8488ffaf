/* SPDX-License-Identifier: MIT OR Apache-2.0 */
/* ---- Names and places in a report, which is made under the lock. A place in the program stands in it as a number between two marks until the lock
 * is given back (places.c): which file that is the loader tells, which has a lock of its own. */
#include "../win32/internal.h"
#include "../schedule/internal.h"

/* Writes a name, without what would spoil the line. */
NTW_INTERNAL void write_name_of(struct report *to, const char *name)
{
    for (; *name != 0; name++)
        add_letter(to, (unsigned char)*name < ' ' || *name == 127 ? '?' : *name);
}

NTW_INTERNAL void write_wide_name(struct report *to, const WCHAR *name)
{
    for (; *name != 0; name++)
        add_letter(to, *name >= ' ' && *name < 127 ? (char)*name : '?');
}

/* Writes a place as a number between two of these marks. */
NTW_INTERNAL void write_mark(struct report *to, char mark, uintptr_t place)
{
    ntw_add(to, "%c%zx%c", mark, (size_t)place, mark);
}

/* Writes a thread by its number and its name; where the program gave it none, by the routine that it began with. */
NTW_INTERNAL void write_thread(struct report *to, uint32_t number)
{
    const WCHAR *name = waiting.seats[number].life.description;
    ntw_add(to, "t%u", scheduled_number(number));
    if (name != NULL && *name != 0) {
        add_letter(to, ' ');
        write_wide_name(to, name);
    } else if (waiting.seats[number].start != NULL) {
        write_mark(to, MARK_OF_NAME, (uintptr_t)waiting.seats[number].start);
    } else if (waiting.seats[number].life.task == getpid() && !is_scheduled) {
        add_text(to, " main");
    }
}

/* The seat of the thread that runs and has this id; null where none has it. */
NTW_INTERNAL struct seat *seat_of_id(DWORD id)
{
    for (uint32_t i = 0; i < waiting.seated; i++)
        if (waiting.seats[i].life.id == id && !waiting.seats[i].has_left)
            return &waiting.seats[i];
    return NULL;
}

NTW_INTERNAL void write_thread_of_id(struct report *to, DWORD id)
{
    const struct seat *seat = seat_of_id(id);
    if (seat != NULL)
        write_thread(to, seat->number);
    else
        write_id(to, id);
}

NTW_INTERNAL void write_place(struct report *to, const char *before, const void *place)
{
    if (place == NULL)
        return;
    add_text(to, before);
    write_mark(to, MARK, (uintptr_t)place);
}
