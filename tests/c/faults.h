/* poll, recv, send and the clock as the loop of docs/HOST.md meets them in host.c: interrupted, cut short, failing, and a clock of our own. */
#ifndef FAULTS_H
#define FAULTS_H

#include <errno.h>
#include <poll.h>
#include <stdint.h>
#include <sys/socket.h>
#include <time.h>

static struct {
    int interrupt;               /* every other call fails with EINTR, or EAGAIN in turn where it moves bytes */
    int wakes;                   /* so many polls say 'ready' where nothing is there */
    size_t most_in, most_out;    /* the most bytes that recv and send move; 0: any */
    int poll_error, recv_error;  /* the number that it fails with; 0: it does not */
    int own_clock;               /* the clock stands but for a poll that finds nothing: the time that it would wait is over at once */
    int64_t ms;                  /* what that clock shows */
    long polls, recvs, sends;    /* calls, counted where every other one fails */
    long signals;                /* polls that a signal interrupted */
} faults;

static int fails(int error)
{
    errno = error;
    return error != 0;
}

static int interrupts(long *calls)
{
    *calls += faults.interrupt;
    return fails(*calls % 2 == 0 ? 0 : *calls % 4 == 1 ? EINTR : EAGAIN);
}

static int faulty_poll(struct pollfd *p, nfds_t n, int timeout)
{
    int got;
    if (fails(faults.poll_error) || (interrupts(&faults.polls) && fails(EINTR)))
        return -1;
    if (faults.wakes > 0)
        return faults.wakes--;
    got = poll(p, n, faults.own_clock && timeout > 0 ? 0 : timeout);
    if (got == 0 && faults.own_clock)
        faults.ms += timeout;
    faults.signals += got < 0 && errno == EINTR;
    return got;
}

static size_t cut(size_t n, size_t most)
{
    return most != 0 && most < n ? most : n;
}

static ssize_t faulty_recv(int fd, void *to, size_t n, int flags)
{
    return fails(faults.recv_error) || interrupts(&faults.recvs) ? -1 : recv(fd, to, cut(n, faults.most_in), flags);
}

static ssize_t faulty_send(int fd, const void *from, size_t n, int flags)
{
    return interrupts(&faults.sends) ? -1 : send(fd, from, cut(n, faults.most_out), flags);
}

static int faulty_clock(clockid_t id, struct timespec *t)
{
    t->tv_sec = (time_t)(faults.ms / 1000);
    t->tv_nsec = (long)(faults.ms % 1000 * 1000000);
    return faults.own_clock ? 0 : clock_gettime(id, t);
}

#define poll faulty_poll
#define recv faulty_recv
#define send faulty_send
#define clock_gettime faulty_clock

#endif
