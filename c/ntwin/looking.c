/* SPDX-License-Identifier: MIT OR Apache-2.0 */
/* ---- What tells why threads wait: the program, by ntwin_why, and what the environment asks for, before main.
 *
 * NTWIN_WHY=signal   at SIGQUIT, on standard error
 * NTWIN_WHY=knot     so, too, and at each call that ties a knot
 * NTWIN_WHY=abort    the same, and then abort()
 * NTWIN_JOURNAL=FILE the run as a script
 * NTWIN_SCHEDULE=..  a scheduler decides who runs (schedule/asked.c), and NTWIN_WHY asks for nothing */
#include "../win32/internal.h"
#include "../schedule/internal.h"

/* Writes why threads wait, under the lock, with places as numbers. */
static void write_why(struct report *to, const char *none)
{
    (void)none;
    pthread_mutex_lock(&telling);
    look_at_sleepers();
    write_all(to);
    pthread_mutex_unlock(&telling);
}

NTW_INTERNAL char *text_of_knot(void)
{
    return text_written_by(write_why, NULL);
}

/* What that function makes of this text, in the place of it. */
static char *written_anew(void (*write)(struct report *to, const char *from), char *text)
{
    char *anew = text != NULL ? text_written_by(write, text) : NULL;
    free(text);
    return anew;
}

/* The same text with callers and places (places.c), in the place of this one. */
static char *with_places(char *marked)
{
    return written_anew(write_with_places, written_anew(write_with_callers, marked));
}

NTW_INTERNAL char *text_of_why(void)
{
    const bool refused = take_lock_beside_calls();
    char *marked = text_written_by(write_why, NULL);
    give_lock_beside_calls(refused);
    return with_places(marked);
}

static const char no_memory[] = "ntwin: out of memory: not told why threads wait\n";
static const char not_here[] = "ntwin: this child was forked beside other threads, which are not here\n";

void ntwin_why(FILE *to)
{
    char *text = process.is_forked ? NULL : text_of_why();
    fputs(text != NULL ? text : process.is_forked ? not_here : no_memory, to);
    free(text);
}

/* (It is written to memory first: who holds the stream may wait for what is held meanwhile.) */
void ntwin_write_waits(FILE *to)
{
    char *text = text_written_by(write_waits, NULL);
    fputs(text != NULL ? text : no_memory, to);
    free(text);
}

static bool had_no_error; /* standard error was closed as the program began: written before main */

/* Whether there is a standard error. (Where it was closed as the program began, the program has a file of its own by that number, if any; so it does
 * where a program that it becomes is not to have that.) */
static bool has_error(void)
{
    const int flags = fcntl(STDERR_FILENO, F_GETFD);
    return !had_no_error && flags >= 0 && (flags & FD_CLOEXEC) == 0;
}

/* Writes to standard error, where there is one. (Not through its stream: who waits may hold that.) */
NTW_INTERNAL void ntw_say(const char *text)
{
    const int error = errno;
    struct quiet quiet;
    if (!has_error()) {
        errno = error;
        return;
    }
    begin_quiet(&quiet);
    for (size_t left = strlen(text); left > 0;) {
        const ssize_t written = write(STDERR_FILENO, text, left);
        if (written < 0 && errno != EINTR)
            break;
        if (written > 0) {
            text += written;
            left -= (size_t)written;
        }
    }
    end_quiet(&quiet);
    errno = error;
}

/* Says this text, and frees it. */
static void say_text(char *text)
{
    ntw_say(text != NULL ? text : no_memory);
    free(text);
}

static bool aborts; /* written before main */

NTW_INTERNAL void tell_knot(struct seat *caller, char *text)
{
    caller->tells = false;
    if (by_schedule())
        end_with_knot(with_places(text));
    say_text(with_places(text));
    if (aborts)
        abort();
}

/* ---- Names. */

static void call_thread(HANDLE thread, const char *name)
{
    WCHAR wide[LONGEST_NAME + 1];
    size_t length = 0;
    for (; length < LONGEST_NAME && name[length] != 0; length++)
        wide[length] = (unsigned char)name[length];
    wide[length] = 0;
    if (SetThreadDescription(thread, wide) == E_OUTOFMEMORY)
        ntw_fail(ERROR_NOT_ENOUGH_MEMORY);
}

void ntwin_name(HANDLE handle, const char *name)
{
    struct nt_opened opened;
    struct seat *seat = ntw_begin();
    if (seat == NULL)
        return;
    const uint32_t number = number_of(seat, handle), refused = nt_opened(&waiting.dispatcher, number, &opened);
    if (refused == 0 && opened.object >= waiting.places) {
        char *copy = strndup(name, LONGEST_NAME);
        if (copy != NULL) {
            free(waiting.called[opened.object]);
            waiting.called[opened.object] = copy;
            write_name(number, copy);
        }
        end_look(seat, copy != NULL ? 0 : ERROR_NOT_ENOUGH_MEMORY);
        return;
    }
    end_look(seat, refused);
    if (refused == 0)
        call_thread(handle, name);
}

/* ---- The thread that takes SIGQUIT. It tells within its turn, which a fork waits for, and the end of the process: for a second at the most, since
 * who forks or ends may have interrupted what it waits for. */

static struct {
    pthread_mutex_t turn;
    sigset_t quit;
    bool has_blocked;   /* SIGQUIT is blocked for it, and was not before */
} telling_thread = { .turn = PTHREAD_MUTEX_INITIALIZER };

static bool take_turn_at_last(void)
{
    const struct timespec pause = { .tv_nsec = 1000000 };
    for (int i = 0; i < 1000; i++) {
        if (pthread_mutex_trylock(&telling_thread.turn) == 0)
            return true;
        nanosleep(&pause, NULL);
    }
    return false;
}

NTW_INTERNAL void rest_from_telling(void)
{
    own.has_turn = take_turn_at_last();
}

NTW_INTERNAL void go_on_telling(void)
{
    if (own.has_turn)
        pthread_mutex_unlock(&telling_thread.turn);
    own.has_turn = false;
}

/* Whether the first thread has left, and no thread is there but the caller. (The first one's number stays as long as the process.) */
static bool is_last_thread(void)
{
    char text[512];
    const int file = open("/proc/self/stat", O_RDONLY | O_CLOEXEC);
    const ssize_t length = file >= 0 ? read(file, text, sizeof text - 1) : -1;
    if (file >= 0)
        close(file);
    text[length > 0 ? length : 0] = 0;
    const char *state = strrchr(text, ')');
    struct stat tasks;
    return state != NULL && strncmp(state, ") Z", 3) == 0 && stat("/proc/self/task", &tasks) == 0 && tasks.st_nlink == 4;
}

/* It ends the process where it is left alone, as the last other thread would have without it: it looks for that each second. */
static void *tell_at_signal(void *unused)
{
    const struct timespec second = { .tv_sec = 1 };
    (void)unused;
    for (;;) {
        if (sigtimedwait(&telling_thread.quit, NULL, &second) > 0) {
            pthread_mutex_lock(&telling_thread.turn);
            say_text(text_of_why());
            pthread_mutex_unlock(&telling_thread.turn);
        } else if (errno == EAGAIN && is_last_thread()) {
            exit(0);
        }
    }
    return NULL;
}

/* ---- Before main. */

/* SIGQUIT is blocked in all threads from now on, and taken by one of its own, which takes no other. */
static void begin_telling(void)
{
    pthread_t thread;
    sigset_t all, before;
    sigemptyset(&telling_thread.quit);
    sigaddset(&telling_thread.quit, SIGQUIT);
    sigfillset(&all);
    pthread_sigmask(SIG_SETMASK, &all, &before);
    const int refused = pthread_create(&thread, NULL, tell_at_signal, NULL);
    if (refused == 0) {
        pthread_detach(thread);
        telling_thread.has_blocked = sigismember(&before, SIGQUIT) == 0;
        sigaddset(&before, SIGQUIT);
    } else {
        ntw_say("ntwin: NTWIN_WHY: no thread could be made for SIGQUIT\n");
    }
    pthread_sigmask(SIG_SETMASK, &before, NULL);
}

static void begin_looking(const char *why, const char *path)
{
    if (why != NULL) {
        aborts = strcmp(why, "abort") == 0;
        tells_knots = aborts || strcmp(why, "knot") == 0;
        if (tells_knots || strcmp(why, "signal") == 0) {
            keep_path();
            begin_noting();
            begin_telling();
        } else {
            ntw_say("ntwin: NTWIN_WHY is none of signal, knot, abort\n");
        }
    }
    const int refused = path != NULL ? open_journal(path) : 0;
    if (refused != 0) {
        char line[256];
        snprintf(line, sizeof line, "ntwin: NTWIN_JOURNAL: no journal is written: %s\n", strerror(refused));
        ntw_say(line);
    }
    if (noted != NULL || tells_knots || journal.text != NULL)
        made_by = looked_calls;
}

/* In a child that was forked: its parent goes on with the journal, and the thread that takes SIGQUIT is not here. */
NTW_INTERNAL void stop_looking(void)
{
    journal.text = NULL;
    own.has_turn = false;
    pthread_mutex_init(&telling_thread.turn, NULL);
    pthread_mutex_init(&telling, NULL);
    if (telling_thread.has_blocked)
        pthread_sigmask(SIG_UNBLOCK, &telling_thread.quit, NULL);
    telling_thread.has_blocked = false;
}

/* After all else: what was asked for by SIGQUIT is written to its end, and the journal's file ends where it does. */
__attribute__((destructor(101))) static void end_looking(void)
{
    bool refused;
    if (take_turn_at_last())
        pthread_mutex_unlock(&telling_thread.turn);
    if (journal.text == NULL || !take_lock_at_last(&refused))
        return;
    if (journal.text != NULL)
        close_journal();
    give_lock_beside_calls(refused);
}

__attribute__((constructor(101))) static void read_environment(void)
{
    const char *asked = secure_getenv("NTWIN_SCHEDULE");
    /* (A program begins with no error, though nothing is open there.) */
    const int error = errno;
    had_no_error = fcntl(STDERR_FILENO, F_GETFD) < 0;
    errno = error;
    if (asked != NULL && *asked != 0)
        begin_schedule(asked);
    const char *why = is_scheduled ? NULL : secure_getenv("NTWIN_WHY"), *path = secure_getenv("NTWIN_JOURNAL");
    if ((why != NULL && *why != 0) || (path != NULL && *path != 0))
        begin_looking(why != NULL && *why != 0 ? why : NULL, path != NULL && *path != 0 ? path : NULL);
}
