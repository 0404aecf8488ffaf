/* SPDX-License-Identifier: MIT OR Apache-2.0 */
/* ---- Modules: the libraries of the system, and one with the calls that are here, by whichever of Windows' names. */
#include "internal.h"
#include "../schedule/internal.h"
#include "../win/winternl.h"
#include "calls_by_name.h"

static const char module_here;

static bool is_here(const char *name)
{
    static const char *const names[] = { "kernel32", "kernelbase", "ntdll", "winmm", "api-ms-win-core-synch-l1-2-0" };
    size_t length = strlen(name);
    if (length > 4 && strcasecmp(name + length - 4, ".dll") == 0)
        length -= 4;
    for (size_t i = 0; i < ARRAYSIZE(names); i++)
        if (strlen(names[i]) == length && strncasecmp(name, names[i], length) == 0)
            return true;
    return false;
}

static FARPROC call_by_name(const char *name)
{
    size_t low = 0, high = ARRAYSIZE(calls);
    while (low < high) {
        const size_t middle = (low + high) / 2;
        const int order = strcmp(name, calls[middle].name);
        if (order == 0)
            return calls[middle].call;
        if (order < 0)
            high = middle;
        else
            low = middle + 1;
    }
    return NULL;
}

#define MODULE_HERE ((HMODULE)(uintptr_t)&module_here)

/* The program's place in the loader's list of what is in the process, and what is looked for there. */
struct search {
    const struct link_map *program;
    const void *wanted;
};

/* (The loader neither adds nor takes away a library while this is called.) */
static int look_for(struct dl_phdr_info *info, size_t size, void *at)
{
    enum { FOUND = 1, NOT_FOUND };
    const struct search *search = at;
    (void)info;
    (void)size;
    for (const struct link_map *map = search->program; map != NULL; map = map->l_next)
        if (map == search->wanted)
            return FOUND;
    return NOT_FOUND;
}

/* Whether this is the program, or a library that is in the process: what dlopen answers is its place in the list. */
static bool is_loaded(HMODULE module)
{
    void *program = dlopen(NULL, RTLD_LAZY);
    struct search search = { .program = program, .wanted = module };
    const bool is_there = module != NULL && dl_iterate_phdr(look_for, &search) == 1;
    dlclose(program);
    return is_there;
}

/* What dlopen has answered for the name. Null, with the last error set, where that is null. */
static HMODULE module_of(const char *name, void *library)
{
    if (library == NULL)
        ntw_fail(name != NULL && strchr(name, '/') != NULL && access(name, F_OK) == 0 ? ERROR_BAD_EXE_FORMAT : ERROR_MOD_NOT_FOUND);
    return library;
}

/* The module with this name, or the program, where it is in the process: `how` is of dlopen. */
static HMODULE module_named(const char *name, int how)
{
    if (name != NULL && is_here(name))
        return MODULE_HERE;
    return module_of(NULL, name == NULL || name[0] != 0 ? dlopen(name, RTLD_LAZY | RTLD_NOLOAD | how) : NULL);
}

/* The module in which this address is. */
static HMODULE module_at(const void *address, int how)
{
    Dl_info info;
    void *map = NULL;
    if (dladdr1(address, &info, &map, RTLD_DL_LINKMAP) == 0 || map == NULL)
        return module_of(NULL, NULL);
    const char *name = ((const struct link_map *)map)->l_name;
    return module_named(name[0] != 0 ? name : NULL, how);
}

/* A name in UTF-8. Null, with the last error set, where it is too long. */
static char *narrow_name(LPCWSTR name, char narrow[PATH_MAX])
{
    if (WideCharToMultiByte(CP_UTF8, 0, name, -1, narrow, PATH_MAX, NULL, NULL) > 0)
        return narrow;
    ntw_fail(ERROR_FILENAME_EXCED_RANGE);
    return NULL;
}

HMODULE LoadLibraryExA(LPCSTR name, HANDLE file, DWORD flags)
{
    const DWORD only_data = DONT_RESOLVE_DLL_REFERENCES | LOAD_LIBRARY_AS_DATAFILE | LOAD_LIBRARY_AS_IMAGE_RESOURCE
        | LOAD_LIBRARY_AS_DATAFILE_EXCLUSIVE;
    const DWORD where = LOAD_WITH_ALTERED_SEARCH_PATH | LOAD_IGNORE_CODE_AUTHZ_LEVEL | LOAD_LIBRARY_REQUIRE_SIGNED_TARGET
        | LOAD_LIBRARY_SEARCH_DLL_LOAD_DIR | LOAD_LIBRARY_SEARCH_APPLICATION_DIR | LOAD_LIBRARY_SEARCH_USER_DIRS
        | LOAD_LIBRARY_SEARCH_SYSTEM32 | LOAD_LIBRARY_SEARCH_DEFAULT_DIRS;
    if (name == NULL || file != NULL || (flags & ~(only_data | where)) != 0 || (flags & only_data) != 0) {
        ntw_fail((flags & only_data) != 0 ? ERROR_NOT_SUPPORTED : ERROR_INVALID_PARAMETER);
        return NULL;
    }
    if (is_here(name))
        return MODULE_HERE;
    return module_of(name, name[0] != 0 ? dlopen(name, RTLD_LAZY) : NULL);
}

HMODULE LoadLibraryExW(LPCWSTR name, HANDLE file, DWORD flags)
{
    char narrow[PATH_MAX];
    if (name != NULL && narrow_name(name, narrow) == NULL)
        return NULL;
    return LoadLibraryExA(name != NULL ? narrow : NULL, file, flags);
}

HMODULE LoadLibraryA(LPCSTR name)
{
    return LoadLibraryExA(name, NULL, 0);
}

HMODULE LoadLibraryW(LPCWSTR name)
{
    return LoadLibraryExW(name, NULL, 0);
}

BOOL FreeLibrary(HMODULE module)
{
    if (module == NULL)
        return ntw_fail(ERROR_INVALID_HANDLE);
    if (module == MODULE_HERE)
        return TRUE;
    if (!is_loaded(module))
        return ntw_fail(ERROR_MOD_NOT_FOUND);
    /* (It refuses a library that no call has loaded, and that stays.) */
    dlclose(module);
    return TRUE;
}

void FreeLibraryAndExitThread(HMODULE module, DWORD code)
{
    FreeLibrary(module);
    ExitThread(code);
}

BOOL GetModuleHandleExA(DWORD flags, LPCSTR name, HMODULE *module)
{
    const DWORD stays = flags & (GET_MODULE_HANDLE_EX_FLAG_PIN | GET_MODULE_HANDLE_EX_FLAG_UNCHANGED_REFCOUNT);
    if (module == NULL)
        return ntw_fail(ERROR_INVALID_PARAMETER);
    *module = NULL;
    if ((flags & ~(stays | GET_MODULE_HANDLE_EX_FLAG_FROM_ADDRESS)) != 0
        || stays == (GET_MODULE_HANDLE_EX_FLAG_PIN | GET_MODULE_HANDLE_EX_FLAG_UNCHANGED_REFCOUNT))
        return ntw_fail(ERROR_INVALID_PARAMETER);
    const int how = stays == GET_MODULE_HANDLE_EX_FLAG_PIN ? RTLD_NODELETE : 0;
    *module = name != NULL && (flags & GET_MODULE_HANDLE_EX_FLAG_FROM_ADDRESS) != 0 ? module_at(name, how) : module_named(name, how);
    if (stays == GET_MODULE_HANDLE_EX_FLAG_UNCHANGED_REFCOUNT && *module != NULL)
        FreeLibrary(*module);
    return *module != NULL;
}

BOOL GetModuleHandleExW(DWORD flags, LPCWSTR name, HMODULE *module)
{
    char narrow[PATH_MAX];
    if (name == NULL || (flags & GET_MODULE_HANDLE_EX_FLAG_FROM_ADDRESS) != 0)
        return GetModuleHandleExA(flags, (LPCSTR)name, module);
    return narrow_name(name, narrow) != NULL ? GetModuleHandleExA(flags, narrow, module) : FALSE;
}

HMODULE GetModuleHandleA(LPCSTR name)
{
    HMODULE found;
    return GetModuleHandleExA(GET_MODULE_HANDLE_EX_FLAG_UNCHANGED_REFCOUNT, name, &found) ? found : NULL;
}

HMODULE GetModuleHandleW(LPCWSTR name)
{
    HMODULE found;
    return GetModuleHandleExW(GET_MODULE_HANDLE_EX_FLAG_UNCHANGED_REFCOUNT, name, &found) ? found : NULL;
}

FARPROC GetProcAddress(HMODULE module, LPCSTR name)
{
    const bool is_number = (uintptr_t)name <= 0xFFFF;
    if (module != MODULE_HERE && !is_loaded(module)) {
        ntw_fail(ERROR_MOD_NOT_FOUND);
        return NULL;
    }
    FARPROC found = NULL;
    if (!is_number)
        found = module == MODULE_HERE ? call_by_name(name) : (FARPROC)(uintptr_t)dlsym(module, name);
    if (found == NULL)
        ntw_fail(is_number ? ERROR_INVALID_ORDINAL : ERROR_PROC_NOT_FOUND);
    return found;
}

/* The file of a module, by its whole path: what is linked into the program is there. */
NTW_INTERNAL bool read_path(HMODULE module, char path[PATH_MAX])
{
    Dl_info info;
    void *map = module;
    if (module == MODULE_HERE && dladdr1(&module_here, &info, &map, RTLD_DL_LINKMAP) == 0)
        map = NULL;
    if (module != MODULE_HERE && module != NULL && !is_loaded(module))
        return ntw_fail(ERROR_MOD_NOT_FOUND);
    const char *name = map != NULL ? ((const struct link_map *)map)->l_name : "";
    return realpath(name[0] != 0 ? name : "/proc/self/exe", path) != NULL || ntw_fail(ERROR_MOD_NOT_FOUND);
}

/* Gives a text, whose characters have this number of bytes, and what ends it, or as much as there is room for. Answers as GetModuleFileName. */
NTW_INTERNAL DWORD give_text(void *to, DWORD room, const void *text, size_t length, size_t bytes)
{
    const bool fits = length < room;
    const size_t given = (fits ? length : room - 1) * bytes;
    if (room > 0) {
        memcpy(to, text, given);
        memset((char *)to + given, 0, bytes);
    }
    own.last_error = fits ? ERROR_SUCCESS : ERROR_INSUFFICIENT_BUFFER;
    return fits ? (DWORD)length : room;
}

DWORD GetModuleFileNameA(HMODULE module, LPSTR buffer, DWORD size)
{
    char path[PATH_MAX];
    return read_path(module, path) ? give_text(buffer, size, path, strlen(path), sizeof *path) : 0;
}

DWORD GetModuleFileNameW(HMODULE module, LPWSTR buffer, DWORD size)
{
    char path[PATH_MAX];
    WCHAR wide[PATH_MAX];
    if (!read_path(module, path) || MultiByteToWideChar(CP_UTF8, 0, path, -1, wide, PATH_MAX) == 0)
        return 0;
    return give_text(buffer, size, wide, wcslen(wide), sizeof *wide);
}

BOOL DisableThreadLibraryCalls(HMODULE module)
{
    return module == MODULE_HERE || is_loaded(module) || ntw_fail(ERROR_MOD_NOT_FOUND);
}

/* ---- Waits of a thread with a queue of messages: there is none, so they are the waits without it. */

DWORD MsgWaitForMultipleObjectsEx(DWORD count, const HANDLE *objects, DWORD ms, DWORD mask, DWORD flags)
{
    const BOOL alertable = (flags & MWMO_ALERTABLE) != 0;
    (void)mask;
    if ((flags & ~(MWMO_WAITALL | MWMO_ALERTABLE | MWMO_INPUTAVAILABLE)) != 0 || count >= MAXIMUM_WAIT_OBJECTS
        || (count > 0 && objects == NULL)) {
        ntw_fail(ERROR_INVALID_PARAMETER);
        return WAIT_FAILED;
    }
    if (count > 0)
        return WaitForMultipleObjectsEx(count, objects, (flags & MWMO_WAITALL) != 0, ms, alertable);
    const DWORD status = SleepEx(ms, alertable);
    return status == 0 ? WAIT_TIMEOUT : status;
}

DWORD MsgWaitForMultipleObjects(DWORD count, const HANDLE *objects, BOOL all, DWORD ms, DWORD mask)
{
    return MsgWaitForMultipleObjectsEx(count, objects, ms, mask, all ? MWMO_WAITALL : 0);
}
