/* SPDX-License-Identifier: MIT OR Apache-2.0 */
/* ---- Places in a report. While that is made, under the lock, each stands in it as a number between two marks; once the lock is given back they are
 * all looked up and written: in which function, file and line each is. */
#include "internal.h"

/* The mark that the text has next, or where it ends. */
static const char *next_mark(const char *text)
{
    return text + strcspn(text, (const char[]){ MARK, MARK_OF_NAME, MARK_OF_STACKS, MARK_OF_STACK, 0 });
}

/* The number at this mark. Answers where the text goes on. */
static const char *read_number(const char *mark, uintptr_t *number)
{
    char *end;
    *number = (uintptr_t)strtoull(mark + 1, &end, 16);
    return end + 1;
}

/* The same as an address: of the call, and not of what comes after; or where a function begins. */
static const char *read_mark(const char *mark, uintptr_t *address)
{
    const char *end = read_number(mark, address);
    *address -= *mark == MARK;
    return end;
}

/* Writes who called there, each as a place. */
static void write_callers(struct report *to, const struct stack *stack)
{
    uintptr_t callers[CALLERS_AT_MOST];
    const size_t count = find_callers(stack, callers);
    for (size_t i = 0; i < count; i++)
        write_place(to, i == 0 ? ", called from " : ", ", (const void *)callers[i]);
}

/* Writes the text with who called in the place of stacks, which are freed. */
NTW_INTERNAL void write_with_callers(struct report *to, const char *text)
{
    struct stack *stacks = NULL;
    uintptr_t number;
    for (const char *mark; *(mark = next_mark(text)) != 0;) {
        ntw_add(to, "%.*s", (int)(mark - text), text);
        text = read_number(mark, &number);
        if (*mark == MARK_OF_STACKS)
            stacks = (struct stack *)number;
        else if (*mark == MARK_OF_STACK)
            write_callers(to, &stacks[number]);
        else
            write_mark(to, *mark, number);
    }
    add_text(to, text);
    free(stacks);
}

/* Makes room for one place more. */
static bool has_room(struct places *places)
{
    if (places->count < places->room)
        return true;
    const size_t room = places->room * 2 + 16;
    struct place *of = realloc(places->of, room * sizeof *of);
    if (of == NULL)
        return false;
    places->of = of;
    places->room = room;
    return true;
}

/* Adds the place, where it is not there yet. Where memory is refused it is written as a number. */
static void add_place(struct places *places, uintptr_t address)
{
    const size_t at = first_place_from(places, address);
    if ((at < places->count && places->of[at].address == address) || !has_room(places))
        return;
    memmove(&places->of[at + 1], &places->of[at], (places->count - at) * sizeof *places->of);
    places->count++;
    places->of[at] = (struct place){ .address = address };
    dl_iterate_phdr(find_file, &places->of[at]);
}

static void add_places(struct places *places, const char *text)
{
    uintptr_t address;
    for (const char *mark = next_mark(text); *mark != 0; mark = next_mark(mark)) {
        mark = read_mark(mark, &address);
        add_place(places, address);
    }
}

/* The path of the file that this was loaded from. (The program's own file may have been taken away: it is there by the system's name for it. Another
 * process knows it by that, too, and by its path if it still has that.) */
static void find_path(const struct loaded *loaded, char path[PATH_MAX])
{
    struct stat one, other;
    if (loaded->name[0] != 0) {
        snprintf(path, PATH_MAX, "%s", loaded->name);
        return;
    }
    const ssize_t length = readlink("/proc/self/exe", path, PATH_MAX - 1);
    path[length > 0 ? length : 0] = 0;
    if (length <= 0 || stat(path, &one) != 0 || stat("/proc/self/exe", &other) != 0 || one.st_dev != other.st_dev || one.st_ino != other.st_ino)
        snprintf(path, PATH_MAX, "/proc/%ld/exe", (long)getpid());
}

/* What looks places up needs. (The caller may have a small stack.) */
struct look_up {
    struct loaded loaded;
    char path[PATH_MAX], command[PATH_MAX];
};

/* Looks the places up, file by file. */
static void look_up(struct places *places)
{
    struct look_up *it = malloc(sizeof *it);
    if (it == NULL)
        return;
    const bool asks = find_command(it->command);
    const uint64_t end = monotonic() + MOST_SECONDS * (uint64_t)MOMENTS_PER_SECOND;
    for (size_t i = 0; i < places->count; i++) {
        it->loaded.address = places->of[i].address;
        if (!places->of[i].is_loaded || (i > 0 && places->of[i - 1].is_loaded && places->of[i - 1].base == places->of[i].base)
            || dl_iterate_phdr(find_loaded, &it->loaded) == 0)
            continue;
        find_path(&it->loaded, it->path);
        if (read_functions(&it->loaded, it->path, places) && asks)
            ask_for_lines(it->command, it->path, it->loaded.base, places, end);
        ask_loader(&it->loaded, places);
    }
    free(it);
}

/* Writes a place: its function, and its file and line where they are known; else as addr2line takes it. */
static void write_found(struct report *to, const struct place *place)
{
    const size_t offset = place->address - place->base;
    if (place->function[0] != 0) {
        write_name_of(to, place->function);
        ntw_add(to, "+0x%zx (", offset - (size_t)place->begin);
    }
    if (place->line[0] != 0)
        write_name_of(to, place->line);
    else
        ntw_add(to, "%s+0x%zx", place->file, offset);
    add_text(to, place->function[0] != 0 ? ")" : "");
}

/* Writes what stands at a mark for this address. */
static void write_marked(struct report *to, const struct places *places, char mark, uintptr_t address)
{
    const size_t at = first_place_from(places, address);
    const struct place *place = at < places->count && places->of[at].address == address && places->of[at].is_loaded ? &places->of[at] : NULL;
    if (mark == MARK && place != NULL) {
        write_found(to, place);
    } else if (mark == MARK) {
        ntw_add(to, "0x%zx", (size_t)address);
    } else if (place != NULL && place->function[0] != 0 && place->begin == address - place->base) {
        add_letter(to, ' ');
        write_name_of(to, place->function);
    }
}

/* Writes the text with its places. */
NTW_INTERNAL void write_with_places(struct report *to, const char *text)
{
    const int error = errno;
    struct places places = { NULL, 0, 0 };
    uintptr_t address;
    add_places(&places, text);
    if (!is_scheduled) /* (Who runs a program by many schedules asks for the lines once.) */
        look_up(&places);
    for (const char *mark; *(mark = next_mark(text)) != 0;) {
        ntw_add(to, "%.*s", (int)(mark - text), text);
        text = read_mark(mark, &address);
        write_marked(to, &places, *mark, address);
    }
    add_text(to, text);
    free(places.of);
    errno = error;
}
