/* SPDX-License-Identifier: MIT OR Apache-2.0 */
/* ---- What comes by descriptors. Who waits for that sleeps until it has come, or its deadline has; others go on meanwhile. Where nobody can go on
 * and nothing is due, the run waits for what comes from outside (`awaits_outside`). */
#include "posix.h"

/* The descriptors that a call waits for. (So many are looked at; who asks for more waits by the system.) */
struct polled {
    struct pollfd *files;
    nfds_t count;
};

NTW_INTERNAL bool has_input(const void *at)
{
    const struct polled *it = at;
    return real.poll(it->files, it->count, 0) != 0;
}

/* Sleeps until one is ready, or this moment has come. (Of several who wait for one another may have taken what came.) */
static void wait_for_files(const char *call, struct pollfd *files, nfds_t count, uint64_t until, const void *place)
{
    const struct polled polled = { files, count };
    const struct blocked blocked = { call, &polled, place, has_input };
    const int error = errno;
    while (!has_input(&polled) && until > schedule.now)
        sleep_in(&blocked, until);
    errno = error;
}

NTW_INTERNAL int hooked_poll(struct pollfd *files, nfds_t count, int ms)
{
    if (!comes_from_program())
        return real.poll(files, count, ms);
    const uint64_t until = ms < 0 ? NEVER : schedule.now + (uint64_t)ms * (MOMENTS_PER_SECOND / 1000);
    if (ms != 0)
        wait_for_files("poll", files, count, until, __builtin_return_address(0));
    return real.poll(files, count, 0);
}

/* Writes down which descriptors a select looks at. Answers how many those are. */
static nfds_t files_of(struct pollfd *files, int count, const fd_set *reads, const fd_set *writes, const fd_set *others)
{
    nfds_t found = 0;
    for (int i = 0; i < count && i < FD_SETSIZE; i++) {
        const int events = (reads != NULL && FD_ISSET(i, reads) ? POLLIN : 0) | (writes != NULL && FD_ISSET(i, writes) ? POLLOUT : 0)
            | (others != NULL && FD_ISSET(i, others) ? POLLPRI : 0);
        if (events != 0)
            files[found++] = (struct pollfd){ i, (short)events, 0 };
    }
    return found;
}

NTW_INTERNAL int hooked_select(int count, fd_set *reads, fd_set *writes, fd_set *others, struct timeval *time)
{
    struct pollfd files[FD_SETSIZE];
    if (count < 0 || count > FD_SETSIZE || (time != NULL && (time->tv_sec < 0 || time->tv_usec < 0)) || !comes_from_program())
        return real.select(count, reads, writes, others, time);
    struct timeval none = { 0, 0 };
    const uint64_t seconds = time == NULL ? NEVER : moment_in(&(struct timespec){ .tv_sec = time->tv_sec });
    const uint64_t until = seconds == NEVER ? NEVER : seconds + (uint64_t)time->tv_usec * 10;
    wait_for_files("select", files, files_of(files, count, reads, writes, others), until, __builtin_return_address(0));
    return real.select(count, reads, writes, others, &none);
}

/* Before a call that may wait for input of one descriptor. */
static void wait_for_input(const char *call, int file, const void *place)
{
    struct pollfd one = { file, POLLIN, 0 };
    const int flags = fcntl(file, F_GETFL);
    if (flags >= 0 && (flags & O_NONBLOCK) == 0)
        wait_for_files(call, &one, 1, NEVER, place);
}

NTW_INTERNAL ssize_t hooked_read(int file, void *to, size_t room)
{
    if (comes_from_program())
        wait_for_input("read", file, __builtin_return_address(0));
    return real.read(file, to, room);
}

NTW_INTERNAL ssize_t hooked_recv(int file, void *to, size_t room, int flags)
{
    if (comes_from_program() && (flags & MSG_DONTWAIT) == 0)
        wait_for_input("recv", file, __builtin_return_address(0));
    return real.recv(file, to, room, flags);
}

NTW_INTERNAL int hooked_accept(int file, __SOCKADDR_ARG address, socklen_t *length)
{
    if (comes_from_program())
        wait_for_input("accept", file, __builtin_return_address(0));
    return real.accept(file, address, length);
}

/* Whether the program handles alarms, or did: that may set an event, and let a thread go on. (Of one that has rung nobody sees whether it is yet to be
 * handled; and a handler that is for one alarm alone is none from then on.) */
static bool handles_alarms(void)
{
    static bool does;
    struct sigaction now;
    does |= sigaction(SIGALRM, NULL, &now) == 0 && now.sa_handler != SIG_DFL && now.sa_handler != SIG_IGN;
    return does;
}

/* Nobody can go on, and nothing is due. Waits half as long as a run may be without a step, where threads wait for input, or an alarm may ring: by the
 * system's clock. Answers whether one can go on. */
NTW_INTERNAL bool awaits_outside(void)
{
    const struct timespec pause = { .tv_nsec = 1000000 };
    const uint64_t began = real_moment();
    bool waits = true;
    while (waits && (double)(real_moment() - began) < schedule.most_seconds * MOMENTS_PER_SECOND / 2) {
        waits = handles_alarms();
        for (uint32_t i = 0; i < schedule.threads_count; i++) {
            const struct blocked *blocked = schedule.threads[i]->blocked;
            if (can_go_on(i))
                return true;
            if (schedule.threads[i]->state != IS_SLEEPING || blocked == NULL || blocked->has_come != has_input)
                continue;
            if (has_input(blocked->object))
                return true;
            waits = true;
        }
        if (waits)
            real.nanosleep(&pause, NULL);
    }
    return false;
}
