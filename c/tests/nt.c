/* What nt.h has beside the proved calls (nt.c): names, dispatchers with their room, and nt_wait as the library has it. The names are those of
 * Microsoft's pages, and of the numbers in nt.h. */
#include "../nt.h"
#include "check.h"

#include <string.h>

/* The library's own, as who has no header calls it. */
uint32_t library_wait(struct nt *nt, uint32_t who, const uint32_t *handles, size_t count, bool all, uint32_t ms, bool alertable,
                      struct nt_reply *reply) __asm__("nt_wait");

#define IS_TEXT(expression, wanted) \
    do { \
        const char *const found = expression; \
        IS(found != NULL && strcmp(found, wanted) == 0, true); \
    } while (0)

static void names_of_errors(void)
{
    static const struct {
        uint32_t number;
        const char *name;
    } rows[] = {
        { 5, "ERROR_ACCESS_DENIED" },
        { 6, "ERROR_INVALID_HANDLE" },
        { 8, "ERROR_NOT_ENOUGH_MEMORY" },
        { 31, "ERROR_GEN_FAILURE" },
        { 87, "ERROR_INVALID_PARAMETER" },
        { 259, "ERROR_NO_MORE_ITEMS" },
        { 288, "ERROR_NOT_OWNER" },
        { 298, "ERROR_TOO_MANY_POSTS" },
        { 0x20000001, "NT_ERROR_THREAD_WAITING" },
        { 0x20000002, "NT_ERROR_THREAD_ENDED" },
        { 0x20000003, "NT_ERROR_UNKNOWN_THREAD" },
        { 0x20000004, "NT_ERROR_RECURSION_LIMIT" },
        { 0x20000005, "NT_ERROR_MOMENT_BACK" },
        { 0x20000007, "NT_ERROR_HANDLE_LIMIT" },
    };
    for (size_t i = 0; i < sizeof rows / sizeof *rows; i++)
        IS_TEXT(nt_error_name(rows[i].number), rows[i].name);
    IS(nt_error_name(0), NULL);
    IS(nt_error_name(7), NULL);
    IS(nt_error_name(0x20000000), NULL);
    IS(nt_error_name(0x20000006), NULL);
    IS(nt_error_name(UINT32_MAX), NULL);
}

static void names_of_statuses(void)
{
    char wanted[32];
    IS_TEXT(nt_status_name(0), "WAIT_OBJECT_0");
    IS_TEXT(nt_status_name(0x80), "WAIT_ABANDONED_0");
    for (uint32_t i = 1; i < 64; i++) {
        snprintf(wanted, sizeof wanted, "WAIT_OBJECT_0+%u", i);
        IS_TEXT(nt_status_name(i), wanted);
        snprintf(wanted, sizeof wanted, "WAIT_ABANDONED_0+%u", i);
        IS_TEXT(nt_status_name(0x80 + i), wanted);
    }
    IS_TEXT(nt_status_name(0xC0), "WAIT_IO_COMPLETION");
    IS_TEXT(nt_status_name(0x102), "WAIT_TIMEOUT");
    IS(nt_status_name(64), NULL);
    IS(nt_status_name(0x7F), NULL);
    IS(nt_status_name(0xC1), NULL);
    IS(nt_status_name(0x101), NULL);
    IS(nt_status_name(UINT32_MAX), NULL);
}

/* One that `made` opens, for as many threads as it may have; none, and one more, it refuses. */
static void room_of_its_own(struct nt *(*made)(uint32_t), uint32_t most)
{
    uint32_t threads = 0;
    IS(made(0), NULL);
    IS(made(most + 1), NULL);
    struct nt *const nt = made(most), *const other = made(1);
    must(nt != NULL && other != NULL);
    IS((uintptr_t)nt->room % 16, 0);
    IS(nt_threads(nt, &threads), 0);
    IS(threads, most);
    IS(nt_threads(other, &threads), 0);
    IS(threads, 1);
    /* A point to come back to, in the room of another. */
    nt_close(other);
    IS(other->live, false);
    IS(nt_copy(nt, other), 0);
    IS(nt_threads(other, &threads), 0);
    IS(threads, most);
    nt_free(nt);
    nt_close(other);
    nt_free(other);
    nt_free(NULL);
}

/* Numbers are given again by the lasting one alone. */
static void lasting_gives_again(void)
{
    struct nt_reply reply;
    for (int lasts = 0; lasts < 2; lasts++) {
        struct nt *const nt = lasts ? nt_new_lasting(1) : nt_new(1);
        must(nt != NULL);
        IS(nt_create_event(nt, 0, 0, &reply), 0);
        IS(reply.number, 1);
        IS(nt_close_handle(nt, 0, 1, &reply), 0);
        IS(nt_create_event(nt, 0, 0, &reply), 0);
        IS(reply.number, lasts ? 1 : 2);
        nt_free(nt);
    }
}

/* The same as the header's: each list that is refused there is refused here. */
static void wait_of_the_library(void)
{
    struct nt *const nt = nt_new(2);
    struct nt_reply reply;
    uint32_t handles[65] = { 2 };
    must(nt != NULL);
    IS(nt_create_event(nt, 0, NT_EVENT_INITIAL_SET, &reply), 0);
    IS(library_wait(nt, 0, NULL, 1, false, 0, false, &reply), NT_ERROR_INVALID_PARAMETER);
    IS(library_wait(nt, 0, handles, 0, false, 0, false, &reply), NT_ERROR_INVALID_PARAMETER);
    IS(library_wait(nt, 0, handles, 65, false, 0, false, &reply), NT_ERROR_INVALID_PARAMETER);
    IS(library_wait(nt, 0, handles, 1, false, 0, false, &reply), 0);
    IS(reply.kind, NT_STATUS);
    IS(reply.number, NT_WAIT_OBJECT_0);
    IS(library_wait(nt, 0, handles, 1, false, NT_INFINITE, true, &reply), 0);
    IS(reply.kind, NT_PENDED);
    struct nt_pending_wait wait;
    IS(nt_waits_for(nt, 0, &wait), 0);
    IS(wait.count, 1);
    IS(wait.all, false);
    IS(wait.alertable, true);
    IS(wait.timed, false);
    handles[1] = 0;
    IS(library_wait(nt, 1, handles, 2, true, 5, false, &reply), 0);
    IS(nt_waits_for(nt, 1, &wait), 0);
    IS(wait.count, 2);
    IS(wait.all, true);
    IS(wait.alertable, false);
    IS(wait.deadline, 50000);
    nt_free(nt);
}

int main(void)
{
    IS_TEXT(nt_version(), NT_VERSION);
    names_of_errors();
    names_of_statuses();
    room_of_its_own(nt_new, 256);
    room_of_its_own(nt_new_lasting, 4096);
    lasting_gives_again();
    wait_of_the_library();
    return counted();
}
