/* A frame for GLib's tests of threads in place of its own, which asks for files and for texts of many languages; and of the rest of GLib its clock,
 * and texts as the C library has them. A test that wants a process of its own has one: the program begins once more, with the test's name. */
#define _GNU_SOURCE
#include <glib.h>
#include <windows.h>

#include <spawn.h>
#include <stdio.h>
#include <stdlib.h>
#include <string.h>
#include <sys/wait.h>
#include <unistd.h>

void g_thread_win32_init(void);

static const GTestConfig config = { .test_initialized = TRUE, .test_quick = TRUE, .test_quiet = TRUE };
const GTestConfig *const g_test_config_vars = &config;
gboolean g_mem_gc_friendly;

enum { MOST = 64 };

static struct test {
    const char *name;
    GTestFunc run;
    GTestDataFunc run_with;
    gconstpointer data;
} tests[MOST], *running;
static int count, ended;
static const char *only; /* the test that this process is for; null where it is for all */

__attribute__((noreturn)) static void fail(const char *file, int line, const char *why)
{
    fprintf(stderr, "%s:%d: %s: %s\n", file, line, running != NULL ? running->name : "", why);
    abort();
}

#undef g_test_init
void g_test_init(int *words, char ***at, ...)
{
    only = *words > 1 ? (*at)[1] : NULL;
}

__attribute__((constructor)) static void begin(void)
{
    g_thread_win32_init();
}

void g_test_add_func(const char *name, GTestFunc run)
{
    tests[count++] = (struct test){ .name = name, .run = run };
}

void g_test_add_data_func(const char *name, gconstpointer data, GTestDataFunc run)
{
    tests[count++] = (struct test){ .name = name, .run_with = run, .data = data };
}

int g_test_run(void)
{
    for (running = tests; running < tests + count; running++)
        if (only == NULL || strcmp(only, running->name) == 0)
            running->run != NULL ? running->run() : running->run_with(running->data);
    return 0;
}

gboolean g_test_subprocess(void)
{
    return only != NULL;
}

void g_test_trap_subprocess(const char *name, guint64 us, GTestSubprocessFlags flags)
{
    char program[] = "/proc/self/exe", *words[] = { program, (char *)running->name, NULL };
    pid_t child;
    (void)name, (void)us, (void)flags;
    if (posix_spawn(&child, program, NULL, NULL, words, environ) != 0 || waitpid(child, &ended, 0) != child)
        fail(__FILE__, __LINE__, "no process for it");
}

void g_test_trap_assertions(const char *domain, const char *file, int line, const char *function, guint64 what, const char *pattern)
{
    (void)domain, (void)function, (void)pattern;
    if (what != 0 || ended != 0)
        fail(file, line, "it failed in a process of its own");
}

void g_test_summary(const char *text)
{
    (void)text;
}

void g_test_message(const char *format, ...)
{
    (void)format;
}

void g_test_bug(const char *address)
{
    (void)address;
}

void g_test_skip(const char *why)
{
    printf("%s: not tried: %s\n", running->name, why);
}

void g_test_maximized_result(double result, const char *format, ...)
{
    (void)result, (void)format;
}

void g_assertion_message(const char *domain, const char *file, int line, const char *function, const char *text)
{
    (void)domain, (void)function;
    fail(file, line, text);
}

void g_assertion_message_expr(const char *domain, const char *file, int line, const char *function, const char *expression)
{
    (void)domain, (void)function;
    fail(file, line, expression != NULL ? expression : "not to be reached");
}

void g_assertion_message_cmpnum(const char *domain, const char *file, int line, const char *function, const char *expression, long double a,
                                const char *how, long double b, char kind)
{
    (void)domain, (void)function, (void)kind;
    fprintf(stderr, "%Lg %s %Lg\n", a, how, b);
    fail(file, line, expression);
}

void g_assertion_message_cmpstr(const char *domain, const char *file, int line, const char *function, const char *expression, const char *a,
                                const char *how, const char *b)
{
    (void)domain, (void)function;
    fprintf(stderr, "%s %s %s\n", a, how, b);
    fail(file, line, expression);
}

void g_assertion_message_error(const char *domain, const char *file, int line, const char *function, const char *expression,
                               const GError *error, GQuark of, int code)
{
    (void)domain, (void)function, (void)error, (void)of, (void)code;
    fail(file, line, expression);
}

void g_return_if_fail_warning(const char *domain, const char *function, const char *expression)
{
    (void)domain;
    fail(function, 0, expression);
}

void g_log(const char *domain, GLogLevelFlags level, const char *format, ...)
{
    va_list values;
    (void)domain;
    va_start(values, format);
    vfprintf(stderr, format, values);
    va_end(values);
    if ((level & (G_LOG_LEVEL_ERROR | G_LOG_LEVEL_CRITICAL | G_LOG_LEVEL_WARNING)) != 0)
        fail(__FILE__, __LINE__, "it warned");
}

void g_printerr(const char *format, ...)
{
    va_list values;
    va_start(values, format);
    vfprintf(stderr, format, values);
    va_end(values);
}

gint64 g_get_monotonic_time(void)
{
    LARGE_INTEGER now, second;
    QueryPerformanceCounter(&now);
    QueryPerformanceFrequency(&second);
    return now.QuadPart / (second.QuadPart / G_USEC_PER_SEC);
}

gint64 g_get_real_time(void)
{
    FILETIME now;
    GetSystemTimeAsFileTime(&now);
    return (gint64)((guint64)now.dwHighDateTime << 32 | now.dwLowDateTime) / 10 - 11644473600000000;
}

void g_get_current_time(GTimeVal *at)
{
    const gint64 now = g_get_real_time();
    at->tv_sec = now / G_USEC_PER_SEC;
    at->tv_usec = now % G_USEC_PER_SEC;
}

char *g_strdup(const char *text)
{
    return text != NULL ? strdup(text) : NULL;
}

char *g_strdup_printf(const char *format, ...)
{
    char *text = NULL;
    va_list values;
    va_start(values, format);
    if (vasprintf(&text, format, values) < 0)
        abort();
    va_end(values);
    return text;
}

gint g_snprintf(gchar *to, gulong room, const gchar *format, ...)
{
    va_list values;
    va_start(values, format);
    const int length = vsnprintf(to, room, format, values);
    va_end(values);
    return length;
}

/* (For a call with wide text, which a thread's name is.) */
gunichar2 *g_utf8_to_utf16(const char *text, glong length, glong *read, glong *written, GError **error)
{
    const int room = MultiByteToWideChar(CP_UTF8, 0, text, -1, NULL, 0);
    WCHAR *wide = malloc((size_t)room * sizeof *wide);
    (void)length, (void)read, (void)written, (void)error;
    MultiByteToWideChar(CP_UTF8, 0, text, -1, wide, room);
    return (gunichar2 *)wide;
}

int g_strcmp0(const char *a, const char *b)
{
    return a == NULL || b == NULL ? (a != NULL) - (b != NULL) : strcmp(a, b);
}

gpointer g_memdup2(gconstpointer from, gsize size)
{
    return from != NULL ? memcpy(malloc(size), from, size) : NULL;
}

const char *g_get_prgname(void)
{
    return "test";
}

/* (No variable of the environment is set.) */
const char *g_getenv(const char *name)
{
    (void)name;
    return NULL;
}

DWORD GetEnvironmentVariableW(LPCWSTR name, LPWSTR value, DWORD room)
{
    const DWORD not_found = 203; /* ERROR_ENVVAR_NOT_FOUND */
    (void)name, (void)value, (void)room;
    SetLastError(not_found);
    return 0;
}
