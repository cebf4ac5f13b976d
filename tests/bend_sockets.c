// A library for LD_PRELOAD: a server of one thread whose calls of the system do one thing wrong, which BEND names.
//
// mixes: one send in forty writes to the socket that was written before. twice: what was held, since the socket had no room, is
// sent twice. loses: what the socket had no room for is taken, and is lost. forgets: of one connection in ten, nothing is told after the
// first time that it was ready. closes: the write half is shut once the socket has no room, before what is held has left.
#define _GNU_SOURCE
#include <dlfcn.h>
#include <errno.h>
#include <stdlib.h>
#include <string.h>
#include <sys/epoll.h>
#include <sys/socket.h>
#include <unistd.h>

enum { MOST = 65536, MIXED = 40, FORGOTTEN = 10 };

static char is_held[MOST], is_forgotten[MOST], was_told[MOST];
static int last = -1, sends, adds;

static int bends(const char *how)
{
    const char *name = getenv("BEND");
    return name && strcmp(name, how) == 0;
}

static int has_no_room(ssize_t took, size_t size)
{
    return took >= 0 ? (size_t)took < size : errno == EAGAIN;
}

static ssize_t pass(int socket, const void *bytes, size_t size, int flags)
{
    static ssize_t (*next)(int, const void *, size_t, int);
    if (!next)
        next = (ssize_t (*)(int, const void *, size_t, int))dlsym(RTLD_NEXT, "send");
    return next(socket, bytes, size, flags);
}

ssize_t send(int socket, const void *bytes, size_t size, int flags)
{
    int other = last;
    last = socket;
    if (bends("mixes") && other >= 0 && other != socket && ++sends % MIXED == 0)
        return pass(other, bytes, size, flags);
    ssize_t took = pass(socket, bytes, size, flags);
    int is_full = has_no_room(took, size), error = errno;
    if (socket >= MOST)
        return took;
    if (bends("twice") && is_held[socket] && took > 0)
        pass(socket, bytes, took, flags);
    if (bends("closes") && is_full)
        shutdown(socket, SHUT_WR);
    is_held[socket] = is_full;
    errno = error;
    return bends("loses") && is_full ? (ssize_t)size : took;
}

int close(int descriptor)
{
    static int (*next)(int);
    if (!next)
        next = (int (*)(int))dlsym(RTLD_NEXT, "close");
    if (descriptor == last)
        last = -1;
    if (descriptor >= 0 && descriptor < MOST)
        is_held[descriptor] = 0;
    return next(descriptor);
}

int epoll_ctl(int poll, int what, int socket, struct epoll_event *event)
{
    static int (*next)(int, int, int, struct epoll_event *);
    if (!next)
        next = (int (*)(int, int, int, struct epoll_event *))dlsym(RTLD_NEXT, "epoll_ctl");
    if (what == EPOLL_CTL_ADD && event->data.u64 < MOST) {
        was_told[event->data.u64] = 0;
        is_forgotten[event->data.u64] = bends("forgets") && ++adds % FORGOTTEN == 0;
    }
    return next(poll, what, socket, event);
}

int epoll_wait(int poll, struct epoll_event *events, int most, int patience)
{
    static int (*next)(int, struct epoll_event *, int, int);
    if (!next)
        next = (int (*)(int, struct epoll_event *, int, int))dlsym(RTLD_NEXT, "epoll_wait");
    int found = next(poll, events, most, patience), kept = 0;
    for (int at = 0; at < found; at++) {
        unsigned long token = events[at].data.u64;
        if (token < MOST && is_forgotten[token] && was_told[token])
            continue;
        if (token < MOST)
            was_told[token] = 1;
        events[kept++] = events[at];
    }
    return found < 0 ? found : kept;
}
