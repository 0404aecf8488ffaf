/* SPDX-License-Identifier: MIT OR Apache-2.0 */
/* ---- The journal of a run: each call of the dispatcher, each tick and each name, as a line of a script (docs/SCRIPTS.md). It is a file that is
 * mapped, so a line stays there however the process ends. What is not written yet are blank lines. All of this is under the lock. */
#include "internal.h"

NTW_INTERNAL struct journal journal;

/* ---- The caller is not ended by a signal where it writes what nobody reads, or more than a file may hold. */

NTW_INTERNAL void begin_quiet(struct quiet *it)
{
    sigemptyset(&it->signals);
    sigaddset(&it->signals, SIGPIPE);
    sigaddset(&it->signals, SIGXFSZ);
    sigpending(&it->pended);
    pthread_sigmask(SIG_BLOCK, &it->signals, &it->before);
}

/* A signal that came of it is taken. */
NTW_INTERNAL void end_quiet(struct quiet *it)
{
    const struct timespec now = { 0, 0 };
    if (sigismember(&it->pended, SIGPIPE))
        sigdelset(&it->signals, SIGPIPE);
    if (sigismember(&it->pended, SIGXFSZ))
        sigdelset(&it->signals, SIGXFSZ);
    while (sigtimedwait(&it->signals, NULL, &now) > 0)
        continue;
    pthread_sigmask(SIG_SETMASK, &it->before, NULL);
}

/* The same file by a number beyond those of the standard streams. (A program may begin with one of them closed, and writes there all the same.) */
NTW_INTERNAL int beyond_streams(int file)
{
    if (file < 0 || file > STDERR_FILENO)
        return file;
    const int beyond = fcntl(file, F_DUPFD_CLOEXEC, STDERR_FILENO + 1), error = errno;
    close(file);
    errno = error;
    return beyond;
}

/* ---- Lines. Each begins as a comment, and has its first letter once it is whole: so one that is broken off is no call. */

NTW_INLINE char *put_text(char *at, const char *text)
{
    const size_t length = strlen(text);
    memcpy(at, text, length);
    return at + length;
}

NTW_INLINE char *put_number(char *at, uint64_t number)
{
    char digits[20];
    int count = 0;
    do
        digits[count++] = (char)('0' + number % 10);
    while ((number /= 10) != 0);
    while (count > 0)
        *at++ = digits[--count];
    return at;
}

NTW_INLINE char *put_signed(char *at, int64_t number)
{
    if (number < 0)
        *at++ = '-';
    return put_number(at, number < 0 ? 0 - (uint64_t)number : (uint64_t)number);
}

/* The line that was begun ends here, and begins with this letter. */
NTW_INLINE void end_line(char *at, char first)
{
    char *line = journal.text + journal.length;
    *at++ = '\n';
    journal.length = (size_t)(at - journal.text);
    __atomic_store_n(line, first, __ATOMIC_RELEASE);
}

static bool has_its_file(void)
{
    struct stat it;
    return fstat(journal.file, &it) == 0 && it.st_dev == journal.device && it.st_ino == journal.node;
}

/* The journal ends, and its file is no longer than it. */
NTW_INTERNAL void close_journal(void)
{
    const int error = errno;
    munmap(journal.text, journal.room);
    journal.text = NULL;
    if (has_its_file() && (ftruncate(journal.file, (off_t)journal.length) != 0 || close(journal.file) != 0))
        journal.file = -1; /* (Zeros stay at its end.) */
    errno = error;
}

/* The journal ends before the run does, and says why. */
static void end_journal(const char *why)
{
    if (journal.text == NULL)
        return;
    char *at = journal.text + journal.length;
    *at++ = ';';
    end_line(put_text(put_text(at, " the journal ends here: "), why), ';');
    close_journal();
}

/* Numbers ran out, under the lock, of these: in a journal each names one of them alone. So the journal ends, and from now on numbers are given again.
 * Answers whether that is new: not where they were given again before, or memory is refused for it. */
NTW_INTERNAL bool give_numbers_again(const char *why)
{
    if (!waiting.gives_once)
        return false;
    end_journal(why);
    waiting.gives_once = nt_give_again(&waiting.dispatcher) != 0;
    return !waiting.gives_once;
}

/* Fills what was mapped at last with blank lines. */
static void fill_journal(char *text)
{
    memset(text, ' ', JOURNAL_STEP);
    for (size_t i = BLANK_LINE; i <= JOURNAL_STEP; i += BLANK_LINE)
        text[i - 1] = '\n';
}

/* Makes the file longer. Answers whether it could: else the journal ends. (The room is the file's before it is mapped: to write to a page that a full
 * disk has not would end the process.) */
__attribute__((noinline, cold)) static bool grow_journal(void)
{
    const int error = errno;
    const size_t room = journal.room + JOURNAL_STEP;
    struct quiet quiet;
    char *text = MAP_FAILED;
    int refused;
    begin_quiet(&quiet);
    do
        refused = has_its_file() ? posix_fallocate(journal.file, (off_t)journal.room, JOURNAL_STEP) : EBADF;
    while (refused == EINTR);
    end_quiet(&quiet);
    if (refused == 0)
        text = journal.room == 0 ? mmap(NULL, room, PROT_READ | PROT_WRITE, MAP_SHARED, journal.file, 0)
                                 : mremap(journal.text, journal.room, room, MREMAP_MAYMOVE);
    errno = error;
    if (text == MAP_FAILED) {
        end_journal("the file could not grow");
        return false;
    }
    fill_journal(text + journal.room);
    journal.text = text;
    journal.room = room;
    return true;
}

/* Where a line goes on after its first letter; null where there is no journal. */
NTW_INLINE char *begin_line(void)
{
    if (journal.text == NULL || (journal.room - journal.length < 2 * LONGEST_LINE && !grow_journal()))
        return NULL;
    char *at = journal.text + journal.length;
    __atomic_store_n(at, ';', __ATOMIC_RELAXED);
    atomic_signal_fence(memory_order_seq_cst);
    return at + 1;
}

/* Begins the line of a call of this thread. A call for which memory was refused is none in another run, and so it is a comment. */
NTW_INLINE char *begin_call(uint32_t refused, uint32_t who, const char *word)
{
    char *at = begin_line();
    if (at == NULL)
        return NULL;
    if (refused == NT_ERROR_NOT_ENOUGH_MEMORY)
        at = put_text(at, " no memory for: t");
    at = put_number(at, who);
    *at++ = ' ';
    return put_text(at, word);
}

NTW_INLINE void end_call(uint32_t refused, char *at)
{
    end_line(at, refused == NT_ERROR_NOT_ENOUGH_MEMORY ? ';' : 't');
}

/* How a wait waits, and for what. */
NTW_INLINE char *put_wait(char *at, uint32_t ms, bool alertable, const uint32_t *handles, size_t count)
{
    *at++ = ' ';
    at = ms == NT_INFINITE ? put_text(at, WORD_INF) : put_number(at, ms);
    at = put_text(at, alertable ? " " WORD_ALERTABLE : " " WORD_PLAIN);
    for (size_t i = 0; i < count; i++) {
        *at++ = ' ';
        at = put_number(at, handles[i]);
    }
    return at;
}

/* What this number names has a name, which is no longer than the longest: a comment says so. */
NTW_INTERNAL void write_name(uint32_t number, const char *name)
{
    char *at = begin_line();
    if (at == NULL)
        return;
    *at++ = ' ';
    *at++ = number < NT_MAXIMUM_THREADS ? 't' : 'h';
    at = put_text(put_number(at, number), " is ");
    for (; *name != 0; name++)
        *at++ = (unsigned char)*name < ' ' ? '?' : *name;
    end_line(at, ';');
}

/* So has this thread. */
NTW_INTERNAL void write_description(uint32_t number, const WCHAR *description)
{
    char name[LONGEST_NAME + 1];
    size_t length = 0;
    for (; length < LONGEST_NAME && description[length] != 0; length++)
        name[length] = description[length] < 127 ? (char)description[length] : '?';
    name[length] = 0;
    write_name(number, name);
}

/* Empties the file, which is ours alone from now on: to cut what another process has mapped would end that. */
static bool takes_file(void)
{
    struct stat it;
    if (flock(journal.file, LOCK_EX | LOCK_NB) != 0 || ftruncate(journal.file, 0) != 0 || fstat(journal.file, &it) != 0)
        return false;
    journal.device = it.st_dev;
    journal.node = it.st_ino;
    return true;
}

/* Begins a journal in this file, before the first call. Answers 0, or the system's error. */
NTW_INTERNAL int open_journal(const char *path)
{
    journal.file = beyond_streams(open(path, O_RDWR | O_CREAT | O_CLOEXEC, 0666));
    if (journal.file < 0)
        return errno;
    int error = takes_file() ? posix_fallocate(journal.file, 0, JOURNAL_STEP) : errno;
    char *text = error == 0 ? mmap(NULL, JOURNAL_STEP, PROT_READ | PROT_WRITE, MAP_SHARED, journal.file, 0) : NULL;
    if (text == MAP_FAILED)
        error = errno;
    if (error != 0) {
        close(journal.file);
        return error == EWOULDBLOCK ? EBUSY : error;
    }
    fill_journal(text);
    journal.text = text;
    journal.room = JOURNAL_STEP;
    end_line(put_text(begin_line(), "hreads 256"), 't');
    return 0;
}
