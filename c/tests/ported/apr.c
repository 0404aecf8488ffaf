/* What APR's tests of threads ask of the rest of APR: a beginning without sockets, the clock, late calls, errors by number, a pipe. With its own
 * frame of tests, for those of threads alone. */
#include <stdio.h>
#include <unistd.h>

#include "apr_arch_misc.h"
#include "apr_arch_threadproc.h"
#include "apr_file_io.h"
#include "apr_general.h"
#include "apr_strings.h"
#include "apr_time.h"

apr_oslevel_e apr_os_level = APR_WIN_10;
extern DWORD tls_apr_thread;

apr_status_t apr_initialize(void)
{
    tls_apr_thread = TlsAlloc();
    return apr_pool_initialize();
}

void apr_terminate(void)
{
    apr_pool_terminate();
    TlsFree(tls_apr_thread);
}

apr_time_t apr_time_now(void)
{
    const apr_int64_t from_1601_to_1970 = 11644473600000000;
    FILETIME now;
    GetSystemTimeAsFileTime(&now);
    return (apr_int64_t)((ULONGLONG)now.dwHighDateTime << 32 | now.dwLowDateTime) / 10 - from_1601_to_1970;
}

void apr_sleep(apr_interval_time_t us)
{
    Sleep((DWORD)(us / 1000));
}

char *apr_strerror(apr_status_t status, char *text, apr_size_t room)
{
    apr_snprintf(text, room, "error %d", status);
    return text;
}

/* (What it asks for is kernel32's.) */
FARPROC apr_load_dll_func(apr_dlltoken_e module, char *name, int ordinal)
{
    (void)module, (void)ordinal;
    return GetProcAddress(GetModuleHandleA("kernel32"), name);
}

struct apr_file_t {
    int number;
};

apr_status_t apr_file_pipe_create(apr_file_t **in, apr_file_t **out, apr_pool_t *pool)
{
    int ends[2];
    if (pipe(ends) != 0)
        return APR_EGENERAL;
    *in = apr_palloc(pool, sizeof **in);
    *out = apr_palloc(pool, sizeof **out);
    (*in)->number = ends[0];
    (*out)->number = ends[1];
    return APR_SUCCESS;
}

apr_status_t apr_file_read_full(apr_file_t *file, void *to, apr_size_t size, apr_size_t *count)
{
    *count = (apr_size_t)read(file->number, to, size);
    return *count == size ? APR_SUCCESS : APR_EGENERAL;
}

apr_status_t apr_file_write_full(apr_file_t *file, const void *from, apr_size_t size, apr_size_t *count)
{
    *count = (apr_size_t)write(file->number, from, size);
    return *count == size ? APR_SUCCESS : APR_EGENERAL;
}

apr_status_t apr_file_close(apr_file_t *file)
{
    return close(file->number) == 0 ? APR_SUCCESS : APR_EGENERAL;
}

#define APR_TEST_INCLUDES /* (the list of its own) */
#include "abts.h"
#include "testutil.h"

static const struct testlist {
    abts_suite *(*func)(abts_suite *suite);
} alltests[] = { { testatomic }, { testcond }, { testlock }, { testsleep }, { testthread } };

#include "abts.c"
