// Round trips over a connection of the loopback address: how many a second, and how long one takes.
//
// Usage: trips PORT WHAT COUNT, where WHAT is
//   hello[:N]            a GET on a connection that is kept; with a number, so many at once, again once all are answered
//   connect              a GET on a connection of its own, which the server closes
//   echo[:SIZE[:PIECE]]  a POST of so many bytes (65,536), by its length, or in chunks of so many bytes
//   ws[:SIZE]            a WebSocket message of so many bytes (1,024)
// It prints: round trips a second, and the 50th, 99th and last part of a hundred of what one took, in microseconds.
// The first round trip shows how long an answer is, and is not counted. One in chunks, whose cuts may differ, is read to its end.
#define _GNU_SOURCE
#include <arpa/inet.h>
#include <netinet/tcp.h>
#include <poll.h>
#include <stdio.h>
#include <stdlib.h>
#include <string.h>
#include <time.h>
#include <unistd.h>

// What is longer than AT_ONCE is sent while the answer is read, since the server begins to answer before it has all.
enum { MOST = 1 << 22, AT_ONCE = (1 << 16) + 1024 };
static char asks[MOST], answer[MOST];
// How much is asked, how much of the answer is there, and how long it is once that is known: 0 is up to its last chunk.
static size_t size, got, wanted;
static int is_known;
static struct sockaddr_in to = {.sin_family = AF_INET};

static void fail(const char *what)
{
    perror(what);
    exit(1);
}

static double now(void)
{
    struct timespec at;
    clock_gettime(CLOCK_MONOTONIC, &at);
    return at.tv_sec * 1e6 + at.tv_nsec / 1e3;
}

static int connected(void)
{
    int on = 1, line = socket(AF_INET, SOCK_STREAM, 0);
    if (connect(line, (struct sockaddr *)&to, sizeof to) != 0)
        fail("connect");
    setsockopt(line, IPPROTO_TCP, TCP_NODELAY, &on, sizeof on);
    return line;
}

static void read_on(int line)
{
    ssize_t more = read(line, answer + got, MOST - 1 - got);
    if (more <= 0)
        fail(more ? "read" : "the server closed, read");
    got += more;
}

// Whether the answer is there to its end. Its head says how long it is, unless that is known.
static int is_whole(void)
{
    const char *end = memmem(answer, got, "\r\n\r\n", 4), *length;
    if (!is_known && !end)
        return 0;
    if (!is_known) {
        answer[got] = 0;
        length = strcasestr(answer, "content-length: ");
        wanted = length && length < end ? end + 4 - answer + atoi(length + 16) : 0;
        is_known = 1;
    }
    return wanted ? got >= wanted : got > 7 && memcmp(answer + got - 7, "\r\n0\r\n\r\n", 7) == 0;
}

// Asks, and reads the answer.
static void trip(int line)
{
    got = 0;
    for (size_t sent = 0; sent < size;) {
        struct pollfd at = {line, POLLIN | POLLOUT, POLLOUT};
        if (size > AT_ONCE && poll(&at, 1, -1) < 1)
            fail("poll");
        if (at.revents & POLLIN)
            read_on(line);
        if (!(at.revents & POLLOUT))
            continue;
        ssize_t more = send(line, asks + sent, size - sent, size > AT_ONCE ? MSG_DONTWAIT : 0);
        if (more <= 0)
            fail("send");
        sent += more;
    }
    while (!is_whole())
        read_on(line);
}

// A round trip over a connection of its own.
static void trip_alone(void)
{
    int line = connected();
    trip(line);
    if (read(line, answer, 1) != 0)
        fail("it is not closed");
    close(line);
}

static void add(const char *text) { size += sprintf(asks + size, "%s", text); }

static void add_letters(size_t count)
{
    memset(asks + size, 'a', count);
    size += count;
}

static void make_post(size_t body, size_t piece)
{
    add("POST / HTTP/1.1\r\nHost: a\r\n");
    size += piece ? sprintf(asks + size, "Transfer-Encoding: chunked\r\n\r\n") : sprintf(asks + size, "Content-Length: %zu\r\n\r\n", body);
    for (size_t left = body, part; piece && left; left -= part) {
        part = left < piece ? left : piece;
        size += sprintf(asks + size, "%zx\r\n", part);
        add_letters(part);
        add("\r\n");
    }
    piece ? add("0\r\n\r\n") : add_letters(body);
}

// A handshake, and then a binary frame, masked by zeros.
static void make_message(int line, size_t count)
{
    add("GET / HTTP/1.1\r\nHost: a\r\nUpgrade: websocket\r\nConnection: Upgrade\r\n"
        "Sec-WebSocket-Key: dGhlIHNhbXBsZSBub25jZQ==\r\nSec-WebSocket-Version: 13\r\n\r\n");
    send(line, asks, size, 0);
    while (!memmem(answer, got, "\r\n\r\n", 4))
        read_on(line);
    int further = count < 126 ? 0 : count < 1 << 16 ? 2 : 8;
    size = 2;
    asks[0] = (char)0x82;
    asks[1] = (char)(0x80 | (further == 0 ? count : further == 2 ? 126 : 127));
    for (int at = further - 1; at >= 0; at--)
        asks[size++] = (char)(count >> 8 * at);
    memset(asks + size, 0, 4);
    size += 4;
    add_letters(count);
    wanted = size - 4;
    is_known = 1;
}

static int rising(const void *one, const void *other)
{
    double a = *(const double *)one, b = *(const double *)other;
    return (a > b) - (a < b);
}

int main(int argc, char **argv)
{
    char what[8] = "";
    int first = 0, second = 0;
    if (argc != 4 || sscanf(argv[2], "%7[a-z]:%d:%d", what, &first, &second) < 1)
        return 2;
    int count = atoi(argv[3]), is_alone = strcmp(what, "connect") == 0;
    to.sin_port = htons(atoi(argv[1]));
    to.sin_addr.s_addr = htonl(INADDR_LOOPBACK);
    int line = is_alone ? -1 : connected();
    if (strcmp(what, "ws") == 0)
        make_message(line, first ? first : 1024);
    else if (strcmp(what, "echo") == 0)
        make_post(first ? first : 65536, second);
    else
        add(is_alone ? "GET / HTTP/1.1\r\nHost: a\r\nConnection: close\r\n\r\n" : "GET / HTTP/1.1\r\nHost: a\r\n\r\n");
    is_alone ? trip_alone() : trip(line);
    if (strcmp(what, "hello") == 0 && first > 1) {
        // All answers are as long as the first.
        wanted = got * first;
        for (size_t one = size, copies = 1; copies < (size_t)first; copies++, size += one)
            memcpy(asks + size, asks, one);
    }
    double *took = malloc(count * sizeof *took), began = now();
    for (int at = 0; at < count; at++) {
        double from = now();
        is_alone ? trip_alone() : trip(line);
        took[at] = now() - from;
    }
    double all = now() - began;
    qsort(took, count, sizeof *took, rising);
    printf("%.0f %.1f %.1f %.1f\n", count / all * 1e6, took[count / 2], took[count * 99 / 100], took[count - 1]);
    return 0;
}
