/* Compiled with -fshort-wchar: the calls with wide text take WCHARs of 16 bits, a pair for what needs more, and name what the others name. */
#include <windows.h>

#include "check.h"

#define NAMES_EVENT(call) \
    do { \
        HANDLE same = (call); \
        IS(same != NULL, 1); \
        IS(WaitForSingleObject(same, 0), WAIT_OBJECT_0); \
        CloseHandle(same); \
    } while (0)

static int is_same(LPCWSTR one, LPCWSTR other)
{
    while (*one != 0 && *one == *other) {
        one++;
        other++;
    }
    return *one == *other;
}

/* (Its last unit stands right before memory that is no text.) */
static struct {
    WCHAR name[5];
    WCHAR beyond[3];
} MADE = { { 'm', 'a', 'd', 'e', 0 }, { 'x', 'x', 0 } };

static void names(void)
{
    HANDLE event = CreateEventA(NULL, TRUE, TRUE, "made");
    must(event != NULL && sizeof(WCHAR) == 2);
    NAMES_EVENT(OpenEventW(EVENT_ALL_ACCESS, FALSE, MADE.name));
    NAMES_EVENT(OpenEventW(EVENT_ALL_ACCESS, FALSE, L"Local\\made"));
    NAMES_EVENT(CreateEventW(NULL, FALSE, FALSE, MADE.name));
    NAMES_EVENT(CreateEventExW(NULL, MADE.name, 0, EVENT_ALL_ACCESS));
    ANSWERS(OpenEventW(EVENT_ALL_ACCESS, FALSE, L"mad"), NULL, ERROR_FILE_NOT_FOUND);
    ANSWERS(OpenEventW(EVENT_ALL_ACCESS, FALSE, L""), NULL, ERROR_INVALID_HANDLE);
    ANSWERS(OpenEventW(EVENT_ALL_ACCESS, FALSE, NULL), NULL, ERROR_INVALID_PARAMETER);
    ANSWERS(CreateMutexW(NULL, FALSE, MADE.name), NULL, ERROR_INVALID_HANDLE);
    ANSWERS(OpenMutexW(SYNCHRONIZE, FALSE, MADE.name), NULL, ERROR_INVALID_HANDLE);
    ANSWERS(OpenSemaphoreW(SYNCHRONIZE, FALSE, MADE.name), NULL, ERROR_INVALID_HANDLE);
    ANSWERS(OpenWaitableTimerW(SYNCHRONIZE, FALSE, MADE.name), NULL, ERROR_INVALID_HANDLE);
    CloseHandle(event);
}

#define IS_MADE(create, open) \
    do { \
        HANDLE made = (create), same = made != NULL ? (open) : NULL; \
        IS(made != NULL && same != NULL, 1); \
        CloseHandle(made); \
        CloseHandle(same); \
    } while (0)

static void other_kinds(void)
{
    IS_MADE(CreateSemaphoreW(NULL, 0, 1, L"semaphore"), OpenSemaphoreA(SYNCHRONIZE, FALSE, "semaphore"));
    IS_MADE(CreateSemaphoreExW(NULL, 0, 1, L"semaphore", 0, SYNCHRONIZE), OpenSemaphoreW(SYNCHRONIZE, FALSE, L"semaphore"));
    IS_MADE(CreateMutexW(NULL, FALSE, L"mutex"), OpenMutexA(SYNCHRONIZE, FALSE, "mutex"));
    IS_MADE(CreateMutexExW(NULL, L"mutex", 0, SYNCHRONIZE), OpenMutexW(SYNCHRONIZE, FALSE, L"mutex"));
    IS_MADE(CreateWaitableTimerW(NULL, FALSE, L"timer"), OpenWaitableTimerA(SYNCHRONIZE, FALSE, "timer"));
    IS_MADE(CreateWaitableTimerExW(NULL, L"timer", 0, SYNCHRONIZE), OpenWaitableTimerW(SYNCHRONIZE, FALSE, L"timer"));
}

static void texts(void)
{
    static const char clef[] = "a\xF0\x9D\x84\x9Ez";
    static const WCHAR clef_in_pairs[] = { 'a', 0xD834, 0xDD1E, 'z', 0 };
    WCHAR wide[8] = { 0 };
    char narrow[8];
    IS(MultiByteToWideChar(CP_UTF8, 0, clef, -1, NULL, 0), 5);
    IS(MultiByteToWideChar(CP_UTF8, 0, clef, -1, wide, 5), 5);
    IS(is_same(wide, clef_in_pairs), 1);
    ANSWERS(MultiByteToWideChar(CP_UTF8, 0, clef, -1, wide, 4), 0, ERROR_INSUFFICIENT_BUFFER);
    ANSWERS(MultiByteToWideChar(CP_UTF8, 0, clef, -1, wide, -1), 0, ERROR_INVALID_PARAMETER);
    ANSWERS(MultiByteToWideChar(CP_UTF8, MB_ERR_INVALID_CHARS, "\xFF", -1, wide, 5), 0, ERROR_NO_UNICODE_TRANSLATION);
    IS(WideCharToMultiByte(CP_UTF8, 0, clef_in_pairs, -1, narrow, sizeof narrow, NULL, NULL), 7);
    IS(strcmp(narrow, clef), 0);
    IS(WideCharToMultiByte(CP_UTF8, 0, clef_in_pairs, 3, NULL, 0, NULL, NULL), 5);
    /* Half a pair is no character. */
    IS(WideCharToMultiByte(CP_UTF8, 0, clef_in_pairs, 2, narrow, sizeof narrow, NULL, NULL), 4);
    IS(memcmp(narrow, "a\xEF\xBF\xBD", 4), 0);
    ANSWERS(WideCharToMultiByte(CP_UTF8, WC_ERR_INVALID_CHARS, clef_in_pairs, 2, narrow, 8, NULL, NULL), 0, ERROR_NO_UNICODE_TRANSLATION);
}

static void messages(void)
{
    WCHAR wide[20], *made = NULL;
    const DWORD system = FORMAT_MESSAGE_FROM_SYSTEM | FORMAT_MESSAGE_IGNORE_INSERTS;
    IS(FormatMessageW(system, NULL, ERROR_ACCESS_DENIED, 0, wide, 20, NULL), 19);
    IS(is_same(wide, L"Access is denied.\r\n"), 1);
    ANSWERS(FormatMessageW(system, NULL, ERROR_ACCESS_DENIED, 0, wide, 19, NULL), 0, ERROR_INSUFFICIENT_BUFFER);
    IS(FormatMessageW(system | FORMAT_MESSAGE_ALLOCATE_BUFFER, NULL, ERROR_ACCESS_DENIED, 0, (LPWSTR)(void *)&made, 0, NULL), 19);
    IS(is_same(made, L"Access is denied.\r\n"), 1);
    LocalFree(made);
}

static void threads_and_modules(void)
{
    static const WCHAR described[] = { 'c', 'l', 'e', 'f', ' ', 0xD834, 0xDD1E, 0 };
    PWSTR description;
    WCHAR path[300];
    HMODULE module;
    char narrow[300], narrow_path[300];
    must(SUCCEEDED(SetThreadDescription(GetCurrentThread(), described)));
    must(SUCCEEDED(GetThreadDescription(GetCurrentThread(), &description)));
    IS(is_same(description, described), 1);
    LocalFree(description);
    IS(GetModuleHandleW(L"kernel32.dll") == GetModuleHandleA("kernel32"), 1);
    IS(GetModuleHandleExW(0, L"kernel32.dll", &module) && module == GetModuleHandleA("kernel32"), 1);
    IS(LoadLibraryW(L"ntdll") == GetModuleHandleA("ntdll"), 1);
    ANSWERS(LoadLibraryExW(L"no such library", NULL, 0), NULL, ERROR_MOD_NOT_FOUND);
    const DWORD length = GetModuleFileNameW(NULL, path, ARRAYSIZE(path));
    IS(length > 0 && length == GetModuleFileNameA(NULL, narrow_path, sizeof narrow_path), 1);
    must(WideCharToMultiByte(CP_UTF8, 0, path, -1, narrow, sizeof narrow, NULL, NULL) > 0);
    IS(strcmp(narrow, narrow_path), 0);
    OutputDebugStringW(L"nobody reads this");
}

static void versions(void)
{
    static struct {
        OSVERSIONINFOEXW version;
        int beyond;
    } found = { .beyond = 7 };
    found.version.dwOSVersionInfoSize = sizeof found.version;
    IS(GetVersionExW((LPOSVERSIONINFOW)(void *)&found.version), TRUE);
    IS(found.version.dwMajorVersion, 10);
    IS(found.version.wProductType, VER_NT_WORKSTATION);
    IS(RtlGetVersion((PRTL_OSVERSIONINFOW)(void *)&found.version), 0);
    found.version.dwOSVersionInfoSize = 1;
    IS(RtlGetVersion((PRTL_OSVERSIONINFOW)(void *)&found.version), 0);
    IS(found.version.dwOSVersionInfoSize, 1);
    IS(found.beyond, 7);
    ANSWERS(GetVersionExW((LPOSVERSIONINFOW)(void *)&found.version), FALSE, ERROR_INSUFFICIENT_BUFFER);
}

int main(void)
{
    names();
    other_kinds();
    texts();
    messages();
    threads_and_modules();
    versions();
    return counted();
}
