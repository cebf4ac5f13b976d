// A server of one connection at a time that makes the calls of the system which `seats` of side_by_side.sh makes, and almost
// nothing else: what a program with these calls takes at the least.
//
// Usage: floor PORT COPIES
// It waits by epoll, reads 4,096 bytes, and after a read that filled its room up to 65,536; it answers a GET with a greeting and a
// POST, which has a length, with its body, in one write, as all that came together. The bytes of a body are copied so many times,
// 4,096 at a time.
#define _GNU_SOURCE
#include <arpa/inet.h>
#include <stdio.h>
#include <stdlib.h>
#include <string.h>
#include <sys/epoll.h>
#include <unistd.h>

enum { MOST = 1 << 22, FIRST = 4096, AHEAD = 1 << 16 };
static char text[MOST], copy[2][FIRST], answer[MOST];

static void fail(const char *what)
{
    perror(what);
    exit(1);
}

// Answers the requests that are whole, and returns how many bytes they have.
static size_t answer_all(int line, size_t got, int copies)
{
    size_t at = 256, size = 0;
    const char *end;
    while (at < got && (end = memmem(text + at, got - at, "\r\n\r\n", 4))) {
        const char *length = memmem(text + at, end - text - at, "Content-Length: ", 16), *body = end + 4;
        size_t many = length ? strtoul(length + 16, NULL, 10) : 0;
        if ((size_t)(text + got - body) < many)
            break;
        for (size_t part = 0; part < many; part += FIRST)
            for (int one = 0; one < copies; one++)
                memcpy(copy[one % 2], one ? copy[(one + 1) % 2] : body + part, many - part < FIRST ? many - part : FIRST);
        size += sprintf(answer + size, "HTTP/1.1 200 OK\r\ncontent-type: text/plain\r\ncontent-length: %zu\r\n\r\n%s", many ? many : 6, many ? "" : "hello\n");
        if (many && at == 256 && got == (size_t)(body + many - text)) {
            // The head goes before the body, so that both leave in one write, and no byte is copied for it.
            char *front = (char *)body - size;
            memcpy(front, answer, size);
            if (send(line, front, size + many, 0) < 0)
                fail("send");
            return got;
        }
        at = body + many - text;
    }
    if (size && send(line, answer, size, 0) < 0)
        fail("send");
    return at;
}

static void serve(int line, int copies)
{
    int waits = epoll_create1(0);
    struct epoll_event event = {.events = EPOLLIN | EPOLLET};
    epoll_ctl(waits, EPOLL_CTL_ADD, line, &event);
    for (size_t got = 256, used;;) {
        epoll_wait(waits, &event, 1, -1);
        for (size_t room = FIRST, more; room; room = more == room ? AHEAD : 0) {
            ssize_t read = recv(line, text + got, room, MSG_DONTWAIT);
            if (read == 0) {
                close(waits);
                return;
            }
            more = read < 0 ? 0 : (size_t)read;
            got += more;
        }
        used = got > 256 ? answer_all(line, got, copies) : 0;
        if (used == got)
            got = 256;
    }
}

int main(int argc, char **argv)
{
    if (argc != 3)
        return 2;
    int on = 1, listens = socket(AF_INET, SOCK_STREAM, 0);
    struct sockaddr_in at = {.sin_family = AF_INET, .sin_port = htons(atoi(argv[1])), .sin_addr.s_addr = htonl(INADDR_LOOPBACK)};
    setsockopt(listens, SOL_SOCKET, SO_REUSEADDR, &on, sizeof on);
    if (bind(listens, (struct sockaddr *)&at, sizeof at) != 0 || listen(listens, 128) != 0)
        fail("listen");
    for (;;) {
        int line = accept(listens, NULL, NULL);
        if (line < 0)
            fail("accept");
        serve(line, atoi(argv[2]));
        close(line);
    }
}
