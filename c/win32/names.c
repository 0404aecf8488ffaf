/* SPDX-License-Identifier: MIT OR Apache-2.0 */
/* ---- Names in the process. A name stands for an object, of which a handle with all rights is kept that no program sees. It is gone with the last
 * handle that a program has to the object. */
#include "../ntwin/by_pointer.h"
#include "internal.h"

enum { NAME_LISTS = 256 };

NTW_INTERNAL bool has_name(struct given_name given)
{
    return given.narrow != NULL || given.wide != NULL || given.utf16 != NULL;
}

NTW_INTERNAL bool is_named(struct given_name given)
{
    return has_name(given) && (given.narrow != NULL ? *given.narrow != 0 : given.wide != NULL ? *given.wide != 0 : *given.utf16 != 0);
}

/* Reads a character of UTF-16 before `end`, which is null where a null ends the text, and goes past it. Half a pair stands for itself. */
NTW_INTERNAL uint32_t read_utf16(const uint16_t **at, const uint16_t *end)
{
    const uint32_t first = *(*at)++;
    if ((first & 0xFC00) != 0xD800 || *at == end || (**at & 0xFC00) != 0xDC00)
        return first;
    return 0x10000 + ((first & 0x3FF) << 10) + (*(*at)++ & 0x3FFu);
}

/* The next letter of a name, which it goes past. */
static WCHAR next_letter(struct given_name *given)
{
    if (given->narrow != NULL)
        return (WCHAR)(unsigned char)*given->narrow++;
    return given->wide != NULL ? *given->wide++ : (WCHAR)read_utf16(&given->utf16, NULL);
}

/* Reads a name. Answers 0, or why it is none. */
NTW_INTERNAL uint32_t read_name(struct given_name given, struct name *name)
{
    static const WCHAR local[] = L"Local\\", global[] = L"Global\\";
    size_t length = 0;
    WCHAR letter;
    while ((letter = next_letter(&given)) != 0) {
        if (length == MAX_PATH)
            return ERROR_FILENAME_EXCED_RANGE;
        name->text[length++] = letter;
    }
    name->text[length] = 0;
    if (wcsncmp(name->text, local, ARRAYSIZE(local) - 1) == 0)
        wmemmove(name->text, name->text + ARRAYSIZE(local) - 1, length - ARRAYSIZE(local) + 2);
    const WCHAR *rest = wcsncmp(name->text, global, ARRAYSIZE(global) - 1) == 0 ? name->text + ARRAYSIZE(global) - 1 : name->text;
    return *rest == 0 || wcschr(rest, L'\\') != NULL ? ERROR_PATH_NOT_FOUND : 0;
}

/* The list of a name. */
NTW_INTERNAL struct named **list_of_name(const WCHAR *name)
{
    static struct named *lists[NAME_LISTS];
    uint32_t hash = 2166136261u;
    for (; *name != 0; name++)
        hash = (hash ^ (uint32_t)*name) * 16777619u;
    return &lists[hash % NAME_LISTS];
}

/* The object of this name, under the lock; null where there is none. */
NTW_INTERNAL struct named *find_named(const WCHAR *name)
{
    struct named *at = *list_of_name(name);
    while (at != NULL && wcscmp(at->name, name) != 0)
        at = at->next;
    return at;
}

/* An object of this name that is not in the list yet; null where memory is refused. */
NTW_INTERNAL struct named *make_named(const struct name *name)
{
    const size_t length = wcslen(name->text) + 1;
    struct named *made = malloc(sizeof *made + length * sizeof *made->name);
    if (made != NULL) {
        made->handles = 0;
        wmemcpy(made->name, name->text, length);
    }
    return made;
}

/* The program has this handle too, under the lock. */
NTW_INTERNAL void note_named(struct named *named, uint32_t number)
{
    waiting.named[number] = named;
    named->handles++;
}

/* The program has this handle of a named object no longer, under the lock. */
NTW_INTERNAL void forget_named(struct seat *caller, uint32_t number)
{
    struct named *named = waiting.named[number];
    waiting.named[number] = NULL;
    if (--named->handles > 0)
        return;
    struct named **at = list_of_name(named->name);
    while (*at != named)
        at = &(*at)->next;
    *at = named->next;
    nt_close_handle(&waiting.dispatcher, caller->number, named->number, &caller->reply);
    free(named);
}

/* A handle more of a named object, with these rights, under the lock. Answers 0, or why not. */
NTW_INTERNAL uint32_t open_named(struct seat *seat, struct named *named, DWORD rights, struct nt_reply *reply)
{
    const uint32_t refused = nt_duplicate(&waiting.dispatcher, seat->number, named->number, rights, reply);
    if (refused == 0) {
        waiting.kinds[reply->number] = (uint8_t)named->kind;
        note_named(named, reply->number);
    }
    return refused;
}
