// A library for LD_PRELOAD: some calls of a kind fail, as a system does at a bad moment.
//
// FAIL_CALL names the call: socket, accept, setsockopt (where it turns TCP_NODELAY on), getsockname, pthread_create, epoll_create1,
// epoll_wait, epoll_ctl, eventfd, recv, send, shutdown, close (which closes all the same), or clock_gettime. FAIL_ERROR is the number
// of its error, FAIL_TIMES how many calls fail, 1 where it is not there, and FAIL_AFTER behind how many, 0 where it is not there. Where
// FAIL_WHILE names a file, calls fail only as long as it is there. Where FAIL_MOST is there, a send takes at most so many bytes.
#define _GNU_SOURCE
#include <dlfcn.h>
#include <errno.h>
#include <netinet/in.h>
#include <netinet/tcp.h>
#include <pthread.h>
#include <stdlib.h>
#include <string.h>
#include <sys/epoll.h>
#include <sys/socket.h>
#include <sys/syscall.h>
#include <time.h>
#include <unistd.h>

static long made, passed;

static int fails(const char *call)
{
    const char *name = getenv("FAIL_CALL"), *times = getenv("FAIL_TIMES"), *error = getenv("FAIL_ERROR");
    const char *after = getenv("FAIL_AFTER"), *during = getenv("FAIL_WHILE");
    if (!name || !error || strcmp(name, call) != 0)
        return 0;
    if (during && access(during, F_OK) != 0)
        return 0;
    if (after && passed < atol(after)) {
        passed++;
        return 0;
    }
    if (made >= (times ? atol(times) : 1))
        return 0;
    made++;
    errno = atoi(error);
    return 1;
}

int socket(int domain, int type, int protocol)
{
    static int (*next)(int, int, int);
    if (!next)
        next = (int (*)(int, int, int))dlsym(RTLD_NEXT, "socket");
    return fails("socket") ? -1 : next(domain, type, protocol);
}

int accept4(int listener, struct sockaddr *address, socklen_t *size, int flags)
{
    static int (*next)(int, struct sockaddr *, socklen_t *, int);
    if (!next)
        next = (int (*)(int, struct sockaddr *, socklen_t *, int))dlsym(RTLD_NEXT, "accept4");
    return fails("accept") ? -1 : next(listener, address, size, flags);
}

int accept(int listener, struct sockaddr *address, socklen_t *size)
{
    static int (*next)(int, struct sockaddr *, socklen_t *);
    if (!next)
        next = (int (*)(int, struct sockaddr *, socklen_t *))dlsym(RTLD_NEXT, "accept");
    return fails("accept") ? -1 : next(listener, address, size);
}

int setsockopt(int socket, int level, int name, const void *value, socklen_t size)
{
    static int (*next)(int, int, int, const void *, socklen_t);
    if (!next)
        next = (int (*)(int, int, int, const void *, socklen_t))dlsym(RTLD_NEXT, "setsockopt");
    int asks = level == IPPROTO_TCP && name == TCP_NODELAY && size >= sizeof(int) && *(const int *)value != 0;
    return asks && fails("setsockopt") ? -1 : next(socket, level, name, value, size);
}

int getsockname(int socket, struct sockaddr *address, socklen_t *size)
{
    static int (*next)(int, struct sockaddr *, socklen_t *);
    if (!next)
        next = (int (*)(int, struct sockaddr *, socklen_t *))dlsym(RTLD_NEXT, "getsockname");
    return fails("getsockname") ? -1 : next(socket, address, size);
}

int pthread_create(pthread_t *thread, const pthread_attr_t *how, void *(*does)(void *), void *with)
{
    static int (*next)(pthread_t *, const pthread_attr_t *, void *(*)(void *), void *);
    if (!next)
        next = (int (*)(pthread_t *, const pthread_attr_t *, void *(*)(void *), void *))dlsym(RTLD_NEXT, "pthread_create");
    return fails("pthread_create") ? errno : next(thread, how, does, with);
}

int epoll_create1(int flags)
{
    static int (*next)(int);
    if (!next)
        next = (int (*)(int))dlsym(RTLD_NEXT, "epoll_create1");
    return fails("epoll_create1") ? -1 : next(flags);
}

int eventfd(unsigned int count, int flags)
{
    static int (*next)(unsigned int, int);
    if (!next)
        next = (int (*)(unsigned int, int))dlsym(RTLD_NEXT, "eventfd");
    return fails("eventfd") ? -1 : next(count, flags);
}

int epoll_wait(int poll, struct epoll_event *events, int most, int patience)
{
    static int (*next)(int, struct epoll_event *, int, int);
    if (!next)
        next = (int (*)(int, struct epoll_event *, int, int))dlsym(RTLD_NEXT, "epoll_wait");
    return fails("epoll_wait") ? -1 : next(poll, events, most, patience);
}

int epoll_ctl(int poll, int what, int file, struct epoll_event *event)
{
    static int (*next)(int, int, int, struct epoll_event *);
    if (!next)
        next = (int (*)(int, int, int, struct epoll_event *))dlsym(RTLD_NEXT, "epoll_ctl");
    return fails("epoll_ctl") ? -1 : next(poll, what, file, event);
}

ssize_t recv(int socket, void *room, size_t size, int flags)
{
    static ssize_t (*next)(int, void *, size_t, int);
    if (!next)
        next = (ssize_t (*)(int, void *, size_t, int))dlsym(RTLD_NEXT, "recv");
    return fails("recv") ? -1 : next(socket, room, size, flags);
}

ssize_t send(int socket, const void *bytes, size_t size, int flags)
{
    static ssize_t (*next)(int, const void *, size_t, int);
    if (!next)
        next = (ssize_t (*)(int, const void *, size_t, int))dlsym(RTLD_NEXT, "send");
    const char *most = getenv("FAIL_MOST");
    size_t many = most && (size_t)atol(most) < size ? (size_t)atol(most) : size;
    return fails("send") ? -1 : next(socket, bytes, many, flags);
}

int shutdown(int socket, int how)
{
    static int (*next)(int, int);
    if (!next)
        next = (int (*)(int, int))dlsym(RTLD_NEXT, "shutdown");
    return fails("shutdown") ? -1 : next(socket, how);
}

int close(int file)
{
    static int (*next)(int);
    if (!next)
        next = (int (*)(int))dlsym(RTLD_NEXT, "close");
    int closed = next(file);
    return fails("close") ? -1 : closed;
}

int clock_gettime(clockid_t clock, struct timespec *time)
{
    // By the system's own call: an allocator may ask for the time, and looking for the next one allocates.
    return fails("clock_gettime") ? -1 : (int)syscall(SYS_clock_gettime, clock, time);
}
