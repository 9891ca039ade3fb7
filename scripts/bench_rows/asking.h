/* A client's end of a connection to the server on this machine, one request after another. */
#include <arpa/inet.h>
#include <errno.h>
#include <netinet/in.h>
#include <netinet/tcp.h>
#include <stdint.h>
#include <stdio.h>
#include <stdlib.h>
#include <string.h>
#include <sys/socket.h>
#include <time.h>
#include <unistd.h>

enum { ROOM = 1 << 17 };

static struct sockaddr_in address = {.sin_family = AF_INET};

static void fail(const char *why, const char *what)
{
    fprintf(stderr, "%s: %s: %s\n", program_invocation_short_name, why, what);
    _exit(2);
}

static uint64_t now(void)
{
    struct timespec time;
    clock_gettime(CLOCK_MONOTONIC, &time);
    return (uint64_t)time.tv_sec * 1000000000 + (uint64_t)time.tv_nsec;
}

/* The bytes of an answer by its head, or 0 where the head isn't whole. */
static size_t length_of(const char *room)
{
    const char *end = strstr(room, "\r\n\r\n"), *field = strcasestr(room, "content-length:");
    if (!end)
        return 0;
    if (!field || field > end)
        fail("an answer without a length", room);
    return (size_t)(end + 4 - room) + strtoul(field + strlen("content-length:"), NULL, 10);
}

/* Asks, and takes the whole answer, which has to be a 200. */
static void ask(int link, const char *method, const char *target)
{
    char room[ROOM];
    size_t held = 0, length = 0;
    int size = snprintf(room, sizeof room, "%s %s HTTP/1.1\r\nHost: bench\r\nContent-Length: 0\r\n\r\n",
        method, target);
    if (send(link, room, (size_t)size, MSG_NOSIGNAL) != size)
        fail("nothing can be sent", target);
    while (!length || held < length) {
        ssize_t count = recv(link, room + held, ROOM - 1 - held, 0);
        if (count <= 0)
            fail("the connection ended", target);
        held += (size_t)count;
        room[held] = 0;
        length = length_of(room);
    }
    if (strncmp(room, "HTTP/1.1 200 ", 13))
        fail(target, room);
}

static int connected(void)
{
    int link = socket(AF_INET, SOCK_STREAM, 0), one = 1;
    if (link < 0 || connect(link, (struct sockaddr *)&address, sizeof address))
        fail("no connection", "127.0.0.1");
    setsockopt(link, IPPROTO_TCP, TCP_NODELAY, &one, sizeof one);
    return link;
}

/* Says which port the server has. */
static void serve_at(const char *port)
{
    address.sin_addr.s_addr = htonl(INADDR_LOOPBACK);
    address.sin_port = htons((uint16_t)atoi(port));
}
