// WebSocket echoes of many clients at the same time, over the loopback address: how many a second, and how long one takes.
//
// Usage: sessions PORT CLIENTS SIZE SECONDS
// Each client sends a binary message of SIZE bytes, and the next one as soon as it has the echo of it. The messages of the first
// half second are not counted. It prints: echoes a second, and the 50th and 99th part of a hundred of what one took, in
// microseconds.
#define _GNU_SOURCE
#include <arpa/inet.h>
#include <errno.h>
#include <netinet/tcp.h>
#include <stdio.h>
#include <stdlib.h>
#include <string.h>
#include <sys/epoll.h>
#include <time.h>
#include <unistd.h>

enum { MOST = 1 << 20, COUNTED = 1 << 22 };
static char message[MOST + 16], piece[MOST + 16];
static size_t size, wanted;
struct client {
    int line;
    size_t sent, got;
    double began;
};
static double took[COUNTED];
static size_t many;

static void fail(const char *what)
{
    perror(what);
    exit(1);
}

static double now(void)
{
    struct timespec at;
    clock_gettime(CLOCK_MONOTONIC, &at);
    return at.tv_sec * 1e6 + at.tv_nsec / 1e3;
}

// A masked binary frame (RFC 6455, section 5.2), and how long its echo is, which has no mask.
static void make_message(size_t count)
{
    int further = count < 126 ? 0 : count < 1 << 16 ? 2 : 8;
    message[size++] = (char)0x82;
    message[size++] = (char)(0x80 | (further == 0 ? count : further == 2 ? 126 : 127));
    for (int at = further - 1; at >= 0; at--)
        message[size++] = (char)(count >> 8 * at);
    memset(message + size, 0, 4);
    size += 4;
    memset(message + size, 'a', count);
    size += count;
    wanted = size - 4;
}

static int opened(const struct sockaddr_in *to)
{
    static const char asks[] = "GET / HTTP/1.1\r\nHost: a\r\nUpgrade: websocket\r\nConnection: Upgrade\r\n"
                               "Sec-WebSocket-Key: dGhlIHNhbXBsZSBub25jZQ==\r\nSec-WebSocket-Version: 13\r\n\r\n";
    int on = 1, line = socket(AF_INET, SOCK_STREAM, 0);
    size_t got = 0;
    if (connect(line, (const struct sockaddr *)to, sizeof *to) != 0)
        fail("connect");
    setsockopt(line, IPPROTO_TCP, TCP_NODELAY, &on, sizeof on);
    if (send(line, asks, sizeof asks - 1, 0) != sizeof asks - 1)
        fail("send");
    while (!memmem(piece, got, "\r\n\r\n", 4)) {
        ssize_t more = read(line, piece + got, MOST - got);
        if (more <= 0)
            fail("the handshake");
        got += more;
    }
    return line;
}

// Sends as much of the message as the socket takes.
static void send_on(struct client *it)
{
    while (it->sent < size) {
        ssize_t more = send(it->line, message + it->sent, size - it->sent, MSG_DONTWAIT);
        if (more < 0 && errno == EAGAIN)
            return;
        if (more <= 0)
            fail("send");
        it->sent += more;
    }
}

static void begin(struct client *it)
{
    it->sent = it->got = 0;
    it->began = now();
    send_on(it);
}

// Reads what is there, and begins again once the echo is whole.
static void read_on(struct client *it, double counted_from)
{
    ssize_t more = recv(it->line, piece, wanted - it->got, MSG_DONTWAIT);
    if (more < 0 && errno == EAGAIN)
        return;
    if (more <= 0)
        fail("the server closed, read");
    it->got += more;
    if (it->got < wanted)
        return;
    if (it->began >= counted_from && many < COUNTED)
        took[many++] = now() - it->began;
    begin(it);
}

static int rising(const void *one, const void *other)
{
    double a = *(const double *)one, b = *(const double *)other;
    return (a > b) - (a < b);
}

int main(int argc, char **argv)
{
    if (argc != 5 || atoi(argv[2]) < 1 || atoi(argv[3]) < 0 || atoi(argv[3]) > MOST)
        return 2;
    int count = atoi(argv[2]), events = epoll_create1(0);
    struct sockaddr_in to = {.sin_family = AF_INET, .sin_port = htons(atoi(argv[1])), .sin_addr.s_addr = htonl(INADDR_LOOPBACK)};
    struct client *clients = calloc(count, sizeof *clients);
    make_message(atoi(argv[3]));
    for (int at = 0; at < count; at++) {
        struct epoll_event how = {.events = EPOLLIN, .data.ptr = &clients[at]};
        clients[at].line = opened(&to);
        epoll_ctl(events, EPOLL_CTL_ADD, clients[at].line, &how);
    }
    for (int at = 0; at < count; at++)
        begin(&clients[at]);
    double from = now() + 5e5, end = from + atof(argv[4]) * 1e6;
    while (now() < end) {
        struct epoll_event ready[256];
        int found = epoll_wait(events, ready, 256, 100);
        for (int at = 0; at < found; at++) {
            struct client *it = ready[at].data.ptr;
            send_on(it);
            read_on(it, from);
        }
    }
    if (many == 0)
        return 1;
    qsort(took, many, sizeof *took, rising);
    printf("%.0f %.1f %.1f\n", many / (now() - from) * 1e6, took[many / 2], took[many * 99 / 100]);
    return 0;
}
