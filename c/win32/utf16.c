/* SPDX-License-Identifier: MIT OR Apache-2.0 */
/* ---- The calls with wide text for a program whose WCHARs have 16 bits (win/utf16.h): each as the call with WCHARs of 32, which it makes. */
#include "internal.h"

/* Writes the character at this place, or where `to` is null nothing; answers how many units it has. */
static int write_utf16(uint16_t *to, uint32_t point)
{
    const bool is_pair = point > 0xFFFF;
    if (to != NULL) {
        to[0] = (uint16_t)(is_pair ? 0xD7C0 + (point >> 10) : point);
        if (is_pair)
            to[1] = (uint16_t)(0xDC00 | (point & 0x3FF));
    }
    return is_pair ? 2 : 1;
}

/* Writes as many characters as there is room for, whole ones. Answers how many units they all have. */
static int64_t narrow_to_utf16(uint16_t *to, int64_t room, const WCHAR *wide, size_t characters)
{
    int64_t count = 0;
    for (size_t i = 0; i < characters; i++) {
        const int more = write_utf16(NULL, (uint32_t)wide[i]);
        if (count + more <= room)
            write_utf16(to + count, (uint32_t)wide[i]);
        count += more;
    }
    return count;
}

/* So many units as characters, which the caller frees; `characters` has how many. Null where memory is refused. */
static WCHAR *widened(const uint16_t *text, size_t units, size_t *characters)
{
    WCHAR *wide = malloc((units + 1) * sizeof *wide);
    *characters = 0;
    for (const uint16_t *at = text, *end = text + units; wide != NULL && at != end;)
        wide[(*characters)++] = (WCHAR)read_utf16(&at, end);
    return wide;
}

static size_t units_of(const uint16_t *text)
{
    size_t units = 0;
    while (text[units] != 0)
        units++;
    return units;
}

/* A text with the null that ends it; null where it is null, or with the last error set where memory is refused. */
static WCHAR *widened_whole(const uint16_t *text)
{
    size_t characters;
    WCHAR *wide = text != NULL ? widened(text, units_of(text) + 1, &characters) : NULL;
    if (text != NULL && wide == NULL)
        ntw_fail(ERROR_NOT_ENOUGH_MEMORY);
    return wide;
}

/* ---- Objects by their names. */

HANDLE ntwin_utf16_CreateEventExW(LPSECURITY_ATTRIBUTES attributes, const uint16_t *name, DWORD flags, DWORD access)
{
    (void)attributes;
    return create_event(UTF16(name), flags, access);
}

HANDLE ntwin_utf16_CreateEventW(LPSECURITY_ATTRIBUTES attributes, BOOL manual, BOOL set, const uint16_t *name)
{
    (void)attributes;
    return create_event(UTF16(name), event_flags(manual, set), EVENT_ALL_ACCESS);
}

HANDLE ntwin_utf16_CreateSemaphoreExW(LPSECURITY_ATTRIBUTES attributes, LONG initial, LONG maximum, const uint16_t *name, DWORD flags, DWORD access)
{
    (void)attributes;
    return create_semaphore(UTF16(name), initial, maximum, flags, access);
}

HANDLE ntwin_utf16_CreateSemaphoreW(LPSECURITY_ATTRIBUTES attributes, LONG initial, LONG maximum, const uint16_t *name)
{
    (void)attributes;
    return create_semaphore(UTF16(name), initial, maximum, 0, SEMAPHORE_ALL_ACCESS);
}

HANDLE ntwin_utf16_CreateMutexExW(LPSECURITY_ATTRIBUTES attributes, const uint16_t *name, DWORD flags, DWORD access)
{
    (void)attributes;
    return create_mutex(UTF16(name), flags, access);
}

HANDLE ntwin_utf16_CreateMutexW(LPSECURITY_ATTRIBUTES attributes, BOOL owned, const uint16_t *name)
{
    (void)attributes;
    return create_mutex(UTF16(name), owned ? CREATE_MUTEX_INITIAL_OWNER : 0, MUTEX_ALL_ACCESS);
}

HANDLE ntwin_utf16_CreateWaitableTimerExW(LPSECURITY_ATTRIBUTES attributes, const uint16_t *name, DWORD flags, DWORD access)
{
    (void)attributes;
    return create_timer(UTF16(name), flags, access);
}

HANDLE ntwin_utf16_CreateWaitableTimerW(LPSECURITY_ATTRIBUTES attributes, BOOL manual, const uint16_t *name)
{
    (void)attributes;
    return create_timer(UTF16(name), manual ? CREATE_WAITABLE_TIMER_MANUAL_RESET : 0, TIMER_ALL_ACCESS);
}

HANDLE ntwin_utf16_OpenEventW(DWORD access, BOOL inherit, const uint16_t *name)
{
    (void)inherit;
    return open_by_name(KIND_EVENT, UTF16(name), access);
}

HANDLE ntwin_utf16_OpenSemaphoreW(DWORD access, BOOL inherit, const uint16_t *name)
{
    (void)inherit;
    return open_by_name(KIND_SEMAPHORE, UTF16(name), access);
}

HANDLE ntwin_utf16_OpenMutexW(DWORD access, BOOL inherit, const uint16_t *name)
{
    (void)inherit;
    return open_by_name(KIND_MUTEX, UTF16(name), access);
}

HANDLE ntwin_utf16_OpenWaitableTimerW(DWORD access, BOOL inherit, const uint16_t *name)
{
    (void)inherit;
    return open_by_name(KIND_TIMER, UTF16(name), access);
}

/* ---- Text. */

int ntwin_utf16_MultiByteToWideChar(UINT page, DWORD flags, LPCSTR text, int length, uint16_t *utf16, int size)
{
    const bool is_invalid = size < 0 || (size > 0 && utf16 == NULL) || (const void *)text == (const void *)utf16;
    const int characters = is_invalid ? ntw_fail(ERROR_INVALID_PARAMETER) : MultiByteToWideChar(page, flags, text, length, NULL, 0);
    if (characters == 0)
        return 0;
    WCHAR *wide = malloc((size_t)characters * sizeof *wide);
    if (wide == NULL)
        return ntw_fail(ERROR_NOT_ENOUGH_MEMORY);
    MultiByteToWideChar(page, flags, text, length, wide, characters);
    const int64_t units = narrow_to_utf16(utf16, size, wide, (size_t)characters);
    free(wide);
    return counted(units, size);
}

int ntwin_utf16_WideCharToMultiByte(UINT page, DWORD flags, const uint16_t *utf16, int length, LPSTR text, int size, LPCSTR other, BOOL *used_other)
{
    size_t characters;
    if (utf16 == NULL || length == 0 || length < -1 || (const void *)text == (const void *)utf16)
        return ntw_fail(ERROR_INVALID_PARAMETER);
    WCHAR *wide = widened(utf16, length < 0 ? units_of(utf16) + 1 : (size_t)length, &characters);
    if (wide == NULL)
        return ntw_fail(ERROR_NOT_ENOUGH_MEMORY);
    const int bytes = WideCharToMultiByte(page, flags, wide, (int)characters, text, size, other, used_other);
    free(wide);
    return bytes;
}

DWORD ntwin_utf16_FormatMessageW(DWORD flags, LPCVOID source, DWORD error, DWORD language, uint16_t *buffer, DWORD size, va_list *arguments)
{
    (void)source;
    (void)language;
    (void)arguments;
    return format_message(flags, error, buffer, size, sizeof *buffer);
}

HRESULT ntwin_utf16_SetThreadDescription(HANDLE thread, const uint16_t *description)
{
    const DWORD error = own.last_error;
    WCHAR *wide = widened_whole(description);
    own.last_error = error;
    if (description != NULL && wide == NULL)
        return E_OUTOFMEMORY;
    const HRESULT answer = SetThreadDescription(thread, wide);
    free(wide);
    return answer;
}

HRESULT ntwin_utf16_GetThreadDescription(HANDLE thread, uint16_t **description)
{
    PWSTR wide;
    const HRESULT answer = GetThreadDescription(thread, &wide);
    if (FAILED(answer))
        return answer;
    const size_t characters = wcslen(wide) + 1;
    const int64_t units = narrow_to_utf16(NULL, 0, wide, characters);
    *description = malloc((size_t)units * sizeof **description);
    if (*description != NULL)
        narrow_to_utf16(*description, units, wide, characters);
    free(wide);
    return *description != NULL ? answer : E_OUTOFMEMORY;
}

void ntwin_utf16_OutputDebugStringW(const uint16_t *text)
{
    (void)text;
}

/* ---- Modules. */

HMODULE ntwin_utf16_LoadLibraryExW(const uint16_t *name, HANDLE file, DWORD flags)
{
    WCHAR *wide = widened_whole(name);
    HMODULE module = name == NULL || wide != NULL ? LoadLibraryExW(wide, file, flags) : NULL;
    free(wide);
    return module;
}

HMODULE ntwin_utf16_LoadLibraryW(const uint16_t *name)
{
    return ntwin_utf16_LoadLibraryExW(name, NULL, 0);
}

BOOL ntwin_utf16_GetModuleHandleExW(DWORD flags, const uint16_t *name, HMODULE *module)
{
    if (name == NULL || (flags & GET_MODULE_HANDLE_EX_FLAG_FROM_ADDRESS) != 0)
        return GetModuleHandleExA(flags, (LPCSTR)(const void *)name, module);
    WCHAR *wide = widened_whole(name);
    const BOOL is_found = wide != NULL && GetModuleHandleExW(flags, wide, module);
    free(wide);
    return is_found;
}

HMODULE ntwin_utf16_GetModuleHandleW(const uint16_t *name)
{
    HMODULE found;
    return ntwin_utf16_GetModuleHandleExW(GET_MODULE_HANDLE_EX_FLAG_UNCHANGED_REFCOUNT, name, &found) ? found : NULL;
}

DWORD ntwin_utf16_GetModuleFileNameW(HMODULE module, uint16_t *buffer, DWORD size)
{
    char path[PATH_MAX];
    uint16_t units[PATH_MAX];
    if (!read_path(module, path) || ntwin_utf16_MultiByteToWideChar(CP_UTF8, 0, path, -1, units, PATH_MAX) == 0)
        return 0;
    return give_text(buffer, size, units, units_of(units), sizeof *units);
}
