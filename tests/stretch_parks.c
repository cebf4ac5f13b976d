// A library for LD_PRELOAD: a thread of a server with workers that waits for the other half of its exchange, at most for some
// milliseconds, waits for half a minute where nobody wakes it. So a wake-up that is left out is seen, however busy the machine is.
//
// STRETCH names whose waits these are. tasks: those of each thread that never reads a socket. connections: of each thread that does,
// from a read that found something to the next time that it is woken. ends: the same, from a read that found the end. A thread of a task
// goes on from a wait only once one of a connection waits so, or after a second. Before each such wait a byte is written to the file that
// STRETCH_TOLD names. A wait is the call of a parker of the toolchain: a futex that has the value 2.
#define _GNU_SOURCE
#include <dlfcn.h>
#include <errno.h>
#include <fcntl.h>
#include <linux/futex.h>
#include <stdarg.h>
#include <stdlib.h>
#include <string.h>
#include <sys/socket.h>
#include <sys/syscall.h>
#include <time.h>
#include <unistd.h>

enum { PARKED = 2, LONGEST = 5000000, HALF_A_MINUTE = 30, LOOKS = 1000, MILLISECOND = 1000 };

static __thread int reads, is_due;
static int waiting;

static int stretches(const char *whom)
{
    const char *name = getenv("STRETCH");
    return name && strcmp(name, whom) == 0;
}

static void tell(void)
{
    const char *path = getenv("STRETCH_TOLD");
    int file = path ? open(path, O_WRONLY | O_CREAT | O_APPEND, 0600) : -1;
    if (file < 0)
        return;
    if (write(file, "w", 1) != 1)
        abort();
    close(file);
}

ssize_t recv(int socket, void *room, size_t size, int flags)
{
    static ssize_t (*next)(int, void *, size_t, int);
    if (!next)
        next = (ssize_t (*)(int, void *, size_t, int))dlsym(RTLD_NEXT, "recv");
    ssize_t found = next(socket, room, size, flags);
    reads = 1;
    is_due = is_due || found == 0 || (found > 0 && stretches("connections")) || (found < 0 && errno != EAGAIN);
    return found;
}

long syscall(long number, ...)
{
    static long (*next)(long, ...);
    va_list rest;
    long given[6];
    if (!next)
        next = (long (*)(long, ...))dlsym(RTLD_NEXT, "syscall");
    va_start(rest, number);
    for (int at = 0; at < 6; at++)
        given[at] = va_arg(rest, long);
    va_end(rest);
    int parks = number == SYS_futex && (given[1] & FUTEX_CMD_MASK) == FUTEX_WAIT && given[2] == PARKED;
    const struct timespec *longest = (const struct timespec *)given[3];
    struct timespec stretched = {HALF_A_MINUTE, 0};
    int is_short = parks && longest && longest->tv_sec == 0 && longest->tv_nsec <= LONGEST;
    int is_stretched = is_short && (reads ? is_due && !stretches("tasks") : stretches("tasks"));
    if (is_stretched) {
        given[3] = (long)&stretched;
        tell();
        __atomic_add_fetch(&waiting, 1, __ATOMIC_SEQ_CST);
    }
    long done = next(number, given[0], given[1], given[2], given[3], given[4], given[5]);
    int error = errno;
    if (is_stretched)
        __atomic_sub_fetch(&waiting, 1, __ATOMIC_SEQ_CST);
    if (parks && reads && (done == 0 || error != ETIMEDOUT))
        is_due = 0;
    for (int look = 0; look < LOOKS && parks && !reads && !stretches("tasks") && !__atomic_load_n(&waiting, __ATOMIC_SEQ_CST); look++)
        usleep(MILLISECOND);
    errno = error;
    return done;
}
