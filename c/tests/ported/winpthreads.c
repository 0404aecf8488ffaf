/* What winpthreads asks of the system that is not here: contexts, for which it is answered that there are none; and its
 * hook for a thread's end, which Windows calls. */
#include <stdarg.h>
#include <string.h>

extern PIMAGE_TLS_CALLBACK __xl_f;
static DWORD slot;

static VOID CALLBACK end_thread(PVOID begun)
{
    if (begun != NULL)
        __xl_f(NULL, DLL_THREAD_DETACH, NULL);
}

__attribute__((constructor)) static void begin(void)
{
    slot = FlsAlloc(end_thread);
    __xl_f(NULL, DLL_PROCESS_ATTACH, NULL);
}

/* (Each thread that winpthreads makes begins with this call of the C runtime.) */
void _fpreset(void)
{
    FlsSetValue(slot, &slot);
}

BOOL GetThreadContext(HANDLE thread, CONTEXT *context)
{
    return FALSE;
}

BOOL SetThreadContext(HANDLE thread, const CONTEXT *context)
{
    return FALSE;
}

HRESULT StringCchCopyNA(char *to, size_t size, const char *from, size_t length)
{
    snprintf(to, size, "%.*s", (int)length, from);
    return S_OK;
}

HRESULT StringCchPrintfA(char *to, size_t size, const char *format, ...)
{
    va_list arguments;
    va_start(arguments, format);
    vsnprintf(to, size, format, arguments);
    va_end(arguments);
    return S_OK;
}
