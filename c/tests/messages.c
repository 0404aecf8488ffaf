/* Texts of errors, modules with their calls, and the waits of a thread with a queue of messages: what each answers with its last error. */
#define _GNU_SOURCE
#include <windows.h>

#include "check.h"

#include <unistd.h>

enum { SYSTEM = FORMAT_MESSAGE_FROM_SYSTEM | FORMAT_MESSAGE_IGNORE_INSERTS };

/* The system's own texts. */
static const struct {
    DWORD error;
    const char *text;
} TEXTS[] = {
    { 0, "The operation completed successfully.\r\n" },
    { 2, "The system cannot find the file specified.\r\n" },
    { 5, "Access is denied.\r\n" },
    { 6, "The handle is invalid.\r\n" },
    { 8, "Not enough memory resources are available to process this command.\r\n" },
    { 31, "A device attached to the system is not functioning.\r\n" },
    { 50, "The request is not supported.\r\n" },
    { 87, "The parameter is incorrect.\r\n" },
    { 183, "Cannot create a file when that file already exists.\r\n" },
    { 193, "%1 is not a valid Win32 application.\r\n" },
    { 258, "The wait operation timed out.\r\n" },
    { 288, "Attempt to release mutex not owned by caller.\r\n" },
    { 298, "Too many posts were made to a semaphore.\r\n" },
    { 402, "The process is already in background processing mode.\r\n" },
    { 403, "The process is not in background processing mode.\r\n" },
    { 587, "An attempt was made to acquire a mutant such that its maximum count would have been exceeded.\r\n" },
    { 1450, "Insufficient system resources exist to complete the requested service.\r\n" },
    { 1460, "This operation returned because the timeout period expired.\r\n" },
};

static void texts(void)
{
    char buffer[200];
    WCHAR wide[200];
    LPSTR made = NULL;
    LPWSTR made_wide = NULL;
    for (size_t i = 0; i < ARRAYSIZE(TEXTS); i++) {
        const size_t length = strlen(TEXTS[i].text);
        ANSWERS(FormatMessageA(SYSTEM, NULL, TEXTS[i].error, 0, buffer, sizeof buffer, NULL), length, UNTOUCHED);
        IS(strcmp(buffer, TEXTS[i].text), 0);
        ANSWERS(FormatMessageW(SYSTEM, NULL, TEXTS[i].error, 0, wide, ARRAYSIZE(wide), NULL), length, UNTOUCHED);
        for (size_t k = 0; k <= length; k++)
            must(wide[k] == (WCHAR)TEXTS[i].text[k]);
    }
    ANSWERS(FormatMessage(SYSTEM, NULL, 5, 0, buffer, 20, NULL), 19, UNTOUCHED);
    ANSWERS(FormatMessage(SYSTEM, NULL, 5, 0, buffer, 19, NULL), 0, ERROR_INSUFFICIENT_BUFFER);
    ANSWERS(FormatMessageW(SYSTEM, NULL, 5, 0, wide, 19, NULL), 0, ERROR_INSUFFICIENT_BUFFER);
    ANSWERS(FormatMessage(SYSTEM | 255, NULL, 5, 0, buffer, 200, NULL), 18, UNTOUCHED);
    IS(strcmp(buffer, "Access is denied. "), 0);
    ANSWERS(FormatMessage(SYSTEM, NULL, 0x0BADBAD, 0, buffer, 200, NULL), 0, ERROR_MR_MID_NOT_FOUND);
    ANSWERS(FormatMessage(0, NULL, 5, 0, buffer, 200, NULL), 0, ERROR_INVALID_PARAMETER);
    ANSWERS(FormatMessage(SYSTEM | FORMAT_MESSAGE_ALLOCATE_BUFFER, NULL, 6, 0, (LPSTR)(void *)&made, 0, NULL), 24, UNTOUCHED);
    IS(strcmp(made, "The handle is invalid.\r\n"), 0);
    IS(LocalFree(made) == NULL, 1);
    ANSWERS(FormatMessageW(SYSTEM | FORMAT_MESSAGE_ALLOCATE_BUFFER, NULL, 6, 0, (LPWSTR)(void *)&made_wide, 0, NULL), 24, UNTOUCHED);
    IS(wcscmp(made_wide, L"The handle is invalid.\r\n"), 0);
    IS(LocalFree(made_wide) == NULL, 1);
    ANSWERS(FormatMessage(FORMAT_MESSAGE_FROM_STRING | FORMAT_MESSAGE_IGNORE_INSERTS, "as it is %1", 0, 0, buffer, 200, NULL), 11, UNTOUCHED);
    IS(strcmp(buffer, "as it is %1"), 0);
}

/* What stands for no insert means the same with or without inserts: %0 ends the text. */
static void escapes(void)
{
    enum { OWN = FORMAT_MESSAGE_FROM_STRING | FORMAT_MESSAGE_IGNORE_INSERTS };
    char buffer[200];
    ANSWERS(FormatMessage(OWN, "one%0 two", 0, 0, buffer, 200, NULL), 3, UNTOUCHED);
    IS(strcmp(buffer, "one"), 0);
    ANSWERS(FormatMessage(OWN, "%0", 0, 0, buffer, 200, NULL), 0, UNTOUCHED);
    ANSWERS(FormatMessage(OWN, "one%ntwo", 0, 0, buffer, 200, NULL), 8, UNTOUCHED);
    IS(strcmp(buffer, "one\r\ntwo"), 0);
    ANSWERS(FormatMessage(OWN, "one%ntwo", 0, 0, buffer, 8, NULL), 0, ERROR_INSUFFICIENT_BUFFER);
    ANSWERS(FormatMessage(OWN, "%r%t%b.", 0, 0, buffer, 200, NULL), 4, UNTOUCHED);
    IS(strcmp(buffer, "\r\t ."), 0);
    ANSWERS(FormatMessage(OWN, "%1!s! %99 %2", 0, 0, buffer, 200, NULL), 12, UNTOUCHED);
    IS(strcmp(buffer, "%1!s! %99 %2"), 0);
}

static void places_of_messages(void)
{
    const DWORD made = SYSTEM | FORMAT_MESSAGE_ALLOCATE_BUFFER;
    LPSTR text = (LPSTR)(uintptr_t)1;
    ANSWERS(FormatMessageA(made, NULL, 5, 0, NULL, 0, NULL), 0, ERROR_NOT_ENOUGH_MEMORY);
    ANSWERS(FormatMessageW(made, NULL, 5, 0, NULL, 0, NULL), 0, ERROR_NOT_ENOUGH_MEMORY);
    ANSWERS(FormatMessageA(SYSTEM, NULL, 5, 0, NULL, 0, NULL), 0, ERROR_INSUFFICIENT_BUFFER);
    ANSWERS(FormatMessageW(SYSTEM, NULL, 5, 0, NULL, 0, NULL), 0, ERROR_INSUFFICIENT_BUFFER);
    ANSWERS(FormatMessageA(made, NULL, 0x0BADBAD, 0, (LPSTR)(void *)&text, 0, NULL), 0, ERROR_MR_MID_NOT_FOUND);
    IS(text == NULL, 1);
    ANSWERS(FormatMessageW(FORMAT_MESSAGE_FROM_STRING | FORMAT_MESSAGE_IGNORE_INSERTS, L"own", 0, 0, NULL, 0, NULL), 0, ERROR_NOT_SUPPORTED);
}

typedef DWORD(WINAPI *get_error)(void);
typedef void(WINAPI *set_error)(DWORD);

static void modules(void)
{
    HMODULE here;
    SetLastError(UNTOUCHED);
    must((here = GetModuleHandle("kernel32.dll")) != NULL);
    IS(GetLastError(), UNTOUCHED);
    IS(GetModuleHandleA("KERNEL32") == here && GetModuleHandleW(L"ntdll.dll") == here, 1);
    ANSWERS(GetModuleHandle("user32.dll"), 0, ERROR_MOD_NOT_FOUND);
    ANSWERS(GetModuleHandleW(L"kernel"), 0, ERROR_MOD_NOT_FOUND);
    ((set_error)(void (*)(void))GetProcAddress(here, "SetLastError"))(77);
    IS(((get_error)(void (*)(void))GetProcAddress(here, "GetLastError"))(), 77);
    /* (The first, the last, and those that programs look for.) */
    const char *const found[] = { "AcquireSRWLockExclusive", "timeSetEvent", "timeGetTime", "InitializeConditionVariable", "SetThreadDescription",
                                  "GetTickCount64", "InitOnceExecuteOnce", "WaitOnAddress", "GetSystemTimePreciseAsFileTime" };
    for (size_t i = 0; i < ARRAYSIZE(found); i++)
        IS(GetProcAddress(here, found[i]) != NULL, 1);
    const char *const lacking[] = { "CreateFileA", "A", "zz", "", "timeGetTim", "timeGetTimes", "getlasterror" };
    for (size_t i = 0; i < ARRAYSIZE(lacking); i++)
        ANSWERS(GetProcAddress(here, lacking[i]), 0, ERROR_PROC_NOT_FOUND);
    ANSWERS(GetProcAddress(here, (LPCSTR)(uintptr_t)7), 0, ERROR_INVALID_ORDINAL);
    ANSWERS(GetProcAddress(NULL, "SetEvent"), 0, ERROR_MOD_NOT_FOUND);
    ANSWERS(LoadLibrary("ntdll"), here, UNTOUCHED);
    ANSWERS(FreeLibrary(here), TRUE, UNTOUCHED);
    ANSWERS(DisableThreadLibraryCalls(here), TRUE, UNTOUCHED);
}

/* A library that each system with this C library has, and that no program here is linked with. */
#define LIBRARY "libanl.so.1"

static DWORD WINAPI load_and_exit(LPVOID none)
{
    (void)none;
    FreeLibraryAndExitThread(LoadLibrary(LIBRARY), 7);
}

static void libraries(void)
{
    HMODULE library, math;
    DWORD code;
    ANSWERS(GetModuleHandle(LIBRARY), 0, ERROR_MOD_NOT_FOUND);
    ANSWERS((library = LoadLibraryA(LIBRARY)) != NULL, 1, UNTOUCHED);
    ANSWERS(LoadLibraryW(L"" LIBRARY), library, UNTOUCHED);
    ANSWERS(GetModuleHandle(LIBRARY), library, UNTOUCHED);
    ANSWERS(FreeLibrary(library), TRUE, UNTOUCHED);
    ANSWERS(GetModuleHandleW(L"" LIBRARY), library, UNTOUCHED);
    HANDLE thread = CreateThread(NULL, 0, load_and_exit, NULL, 0, NULL);
    must(WaitForSingleObject(thread, INFINITE) == WAIT_OBJECT_0 && GetExitCodeThread(thread, &code));
    IS(code, 7);
    CloseHandle(thread);
    ANSWERS(GetModuleHandle(LIBRARY), library, UNTOUCHED);
    ANSWERS(FreeLibrary(library), TRUE, UNTOUCHED);
    ANSWERS(GetModuleHandle(LIBRARY), 0, ERROR_MOD_NOT_FOUND);
    ANSWERS(FreeLibrary(library), FALSE, ERROR_MOD_NOT_FOUND);
    ANSWERS(DisableThreadLibraryCalls(library), FALSE, ERROR_MOD_NOT_FOUND);
    ANSWERS(FreeLibrary(NULL), FALSE, ERROR_INVALID_HANDLE);
    must((math = LoadLibraryEx("libm.so.6", NULL, LOAD_WITH_ALTERED_SEARCH_PATH)) != NULL);
    IS(((double (*)(double))(void (*)(void))GetProcAddress(math, "cos"))(0), 1);
    ANSWERS(GetProcAddress(math, "no_such_call"), 0, ERROR_PROC_NOT_FOUND);
    const struct {
        const char *name;
        HANDLE file;
        DWORD flags, error;
    } refused[] = {
        { NULL, NULL, 0, ERROR_INVALID_PARAMETER },
        { LIBRARY, thread, 0, ERROR_INVALID_PARAMETER },
        { LIBRARY, NULL, 0x80000000u, ERROR_INVALID_PARAMETER },
        { LIBRARY, NULL, LOAD_LIBRARY_AS_DATAFILE, ERROR_NOT_SUPPORTED },
        { LIBRARY, NULL, DONT_RESOLVE_DLL_REFERENCES, ERROR_NOT_SUPPORTED },
        { "", NULL, 0, ERROR_MOD_NOT_FOUND },
        { "no_such_library.so", NULL, 0, ERROR_MOD_NOT_FOUND },
        { "/no/such/library.so", NULL, 0, ERROR_MOD_NOT_FOUND },
        { "/proc/self/status", NULL, 0, ERROR_BAD_EXE_FORMAT },
    };
    for (size_t i = 0; i < ARRAYSIZE(refused); i++)
        ANSWERS(LoadLibraryExA(refused[i].name, refused[i].file, refused[i].flags), 0, refused[i].error);
    ANSWERS(LoadLibraryExW(NULL, NULL, 0), 0, ERROR_INVALID_PARAMETER);
    ANSWERS(LoadLibraryExW(L"/no/such/library.so", NULL, 0), 0, ERROR_MOD_NOT_FOUND);
}

int main(void);

/* Modules by their names, and by what is in them; and how long each stays. */
static void held_modules(void)
{
    const DWORD at = GET_MODULE_HANDLE_EX_FLAG_FROM_ADDRESS, stays = GET_MODULE_HANDLE_EX_FLAG_UNCHANGED_REFCOUNT;
    HMODULE math = GetModuleHandle("libm.so.6"), found = math, program = GetModuleHandle(NULL);
    const LPCSTR in_math = (LPCSTR)(uintptr_t)GetProcAddress(math, "cos"), in_program = (LPCSTR)(uintptr_t)&main;
    IS(program != NULL && program != math && program != GetModuleHandle("kernel32"), 1);
    ANSWERS(GetModuleHandleExA(at | stays, in_math, &found) && found == math, TRUE, UNTOUCHED);
    ANSWERS(GetModuleHandleExW(at | stays, (LPCWSTR)(const void *)in_program, &found) && found == program, TRUE, UNTOUCHED);
    ANSWERS(GetModuleHandleExW(0, NULL, &found) && found == program, TRUE, UNTOUCHED);
    ANSWERS(FreeLibrary(program), TRUE, UNTOUCHED);
    ANSWERS(GetModuleHandleEx(at | stays, (LPCSTR)&found, &found), FALSE, ERROR_MOD_NOT_FOUND);
    IS(found == NULL, 1);
    ANSWERS(GetModuleHandleEx(0, "libm.so.6", NULL), FALSE, ERROR_INVALID_PARAMETER);
    ANSWERS(GetModuleHandleEx(8, "libm.so.6", &found), FALSE, ERROR_INVALID_PARAMETER);
    ANSWERS(GetModuleHandleEx(stays | GET_MODULE_HANDLE_EX_FLAG_PIN, "libm.so.6", &found), FALSE, ERROR_INVALID_PARAMETER);
    must((found = LoadLibrary(LIBRARY)) != NULL);
    /* (By the next call the library is held once more.) */
    ANSWERS(GetModuleHandleEx(0, LIBRARY, &math) && math == found, TRUE, UNTOUCHED);
    IS(FreeLibrary(found) && GetModuleHandle(LIBRARY) == found, 1);
    ANSWERS(GetModuleHandleExW(GET_MODULE_HANDLE_EX_FLAG_PIN, L"" LIBRARY, &math) && math == found, TRUE, UNTOUCHED);
    IS(FreeLibrary(found) && FreeLibrary(found) && FreeLibrary(found), 1);
    ANSWERS(GetModuleHandle(LIBRARY), found, UNTOUCHED);
}

static void module_files(void)
{
    enum { ROOM = 4096 };
    char path[ROOM], real[ROOM] = "", library[ROOM];
    WCHAR wide[ROOM];
    must(readlink("/proc/self/exe", real, ROOM - 1) > 0);
    const DWORD length = (DWORD)strlen(real);
    ANSWERS(GetModuleFileName(NULL, path, ROOM), length, ERROR_SUCCESS);
    IS(strcmp(path, real), 0);
    ANSWERS(GetModuleFileNameW(GetModuleHandle(NULL), wide, ROOM), length, ERROR_SUCCESS);
    IS(wide[0] == '/' && wcslen(wide) == length, 1);
    ANSWERS(GetModuleFileNameA(NULL, path, 5), 5, ERROR_INSUFFICIENT_BUFFER);
    IS(strlen(path) == 4 && strncmp(path, real, 4) == 0, 1);
    ANSWERS(GetModuleFileNameW(NULL, wide, length), length, ERROR_INSUFFICIENT_BUFFER);
    IS(wcslen(wide), length - 1);
    ANSWERS(GetModuleFileNameA(NULL, path, 0), 0, ERROR_INSUFFICIENT_BUFFER);
    DWORD found = GetModuleFileNameA(GetModuleHandle("libm.so.6"), library, ROOM);
    IS(found == strlen(library) && library[0] == '/' && strstr(library, "libm") != NULL, 1);
    found = GetModuleFileNameA(GetModuleHandle("kernel32"), library, ROOM);
    IS(found == strlen(library) && library[0] == '/', 1);
    ANSWERS(GetModuleFileNameA((HMODULE)(uintptr_t)&length, path, ROOM), 0, ERROR_MOD_NOT_FOUND);
}

static void CALLBACK nothing(ULONG_PTR none)
{
    (void)none;
}

static void waits_with_messages(void)
{
    HANDLE events[2] = { CreateEvent(NULL, TRUE, FALSE, NULL), CreateEvent(NULL, TRUE, TRUE, NULL) }, many[64];
    for (int i = 0; i < 64; i++)
        many[i] = events[0];
    ANSWERS(MsgWaitForMultipleObjects(2, events, FALSE, 0, QS_ALLINPUT), WAIT_OBJECT_0 + 1, UNTOUCHED);
    ANSWERS(MsgWaitForMultipleObjects(2, events, TRUE, 0, QS_ALLINPUT), WAIT_TIMEOUT, UNTOUCHED);
    ANSWERS(MsgWaitForMultipleObjects(1, events, FALSE, 1, QS_ALLEVENTS), WAIT_TIMEOUT, UNTOUCHED);
    ANSWERS(MsgWaitForMultipleObjects(0, NULL, FALSE, 1, QS_ALLINPUT), WAIT_TIMEOUT, UNTOUCHED);
    ANSWERS(MsgWaitForMultipleObjects(64, many, FALSE, 0, QS_ALLINPUT), WAIT_FAILED, ERROR_INVALID_PARAMETER);
    ANSWERS(MsgWaitForMultipleObjects(1, NULL, FALSE, 0, QS_ALLINPUT), WAIT_FAILED, ERROR_INVALID_PARAMETER);
    ANSWERS(MsgWaitForMultipleObjectsEx(0, NULL, 0, QS_ALLINPUT, 8), WAIT_FAILED, ERROR_INVALID_PARAMETER);
    ANSWERS(QueueUserAPC(nothing, GetCurrentThread(), 0), TRUE, UNTOUCHED);
    ANSWERS(MsgWaitForMultipleObjectsEx(1, events, 0, QS_ALLINPUT, 0), WAIT_TIMEOUT, UNTOUCHED);
    ANSWERS(MsgWaitForMultipleObjectsEx(1, events, INFINITE, QS_ALLINPUT, MWMO_ALERTABLE), WAIT_IO_COMPLETION, UNTOUCHED);
    ANSWERS(QueueUserAPC(nothing, GetCurrentThread(), 0), TRUE, UNTOUCHED);
    ANSWERS(MsgWaitForMultipleObjectsEx(0, NULL, INFINITE, QS_ALLINPUT, MWMO_ALERTABLE), WAIT_IO_COMPLETION, UNTOUCHED);
    SetEvent(events[0]);
    ANSWERS(MsgWaitForMultipleObjectsEx(2, events, INFINITE, QS_ALLINPUT, MWMO_WAITALL), WAIT_OBJECT_0, UNTOUCHED);
}

int main(void)
{
    texts();
    escapes();
    places_of_messages();
    modules();
    libraries();
    held_modules();
    module_files();
    waits_with_messages();
    return counted();
}
