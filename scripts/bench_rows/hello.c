/* Answers each request head on a connection by the bytes of a file: one write for what lies in the
   buffer, before the next read. One connection at a time. Writes its port to standard output. */
#include <arpa/inet.h>
#include <netinet/in.h>
#include <netinet/tcp.h>
#include <stdio.h>
#include <stdlib.h>
#include <string.h>
#include <sys/socket.h>
#include <unistd.h>

enum { ROOM = 65536, MOST_AT_ONCE = 256 };

static const char END[] = "\r\n\r\n";

static size_t read_answers(const char *path, char **answers)
{
    FILE *file = fopen(path, "rb");
    if (!file || fseek(file, 0, SEEK_END))
        exit(2);
    size_t length = (size_t)ftell(file);
    rewind(file);
    *answers = malloc(length * MOST_AT_ONCE);
    if (!*answers || fread(*answers, 1, length, file) != length)
        exit(2);
    for (int i = 1; i < MOST_AT_ONCE; i++)
        memcpy(*answers + (size_t)i * length, *answers, length);
    fclose(file);
    return length;
}

static int write_all(int link, const char *data, size_t length)
{
    while (length > 0) {
        ssize_t count = send(link, data, length, MSG_NOSIGNAL);
        if (count <= 0)
            return 0;
        data += count;
        length -= (size_t)count;
    }
    return 1;
}

/* Drops the heads that are whole, and tells how many they were. */
static int take_heads(char *room, size_t *held)
{
    int heads = 0;
    char *at = room, *stop = room + *held, *end;
    while (heads < MOST_AT_ONCE && (end = memmem(at, (size_t)(stop - at), END, 4))) {
        at = end + 4;
        heads++;
    }
    *held = (size_t)(stop - at);
    memmove(room, at, *held);
    return heads;
}

static void serve(int link, const char *answers, size_t length)
{
    char room[ROOM];
    size_t held = 0;
    ssize_t count;
    while ((count = recv(link, room + held, ROOM - held, 0)) > 0) {
        held += (size_t)count;
        int heads = take_heads(room, &held);
        if (heads && !write_all(link, answers, (size_t)heads * length))
            return;
    }
}

int main(int argc, char **argv)
{
    char *answers;
    size_t length = argc == 2 ? read_answers(argv[1], &answers) : 0;
    struct sockaddr_in address = {.sin_family = AF_INET};
    socklen_t size = sizeof address;
    int listener = socket(AF_INET, SOCK_STREAM, 0), one = 1;
    address.sin_addr.s_addr = htonl(INADDR_LOOPBACK);
    if (!length || bind(listener, (struct sockaddr *)&address, size) || listen(listener, 16)
        || getsockname(listener, (struct sockaddr *)&address, &size))
        return 2;
    printf("%d\n", ntohs(address.sin_port));
    fflush(stdout);
    for (;;) {
        int link = accept(listener, NULL, NULL);
        if (link < 0)
            return 2;
        setsockopt(link, IPPROTO_TCP, TCP_NODELAY, &one, sizeof one);
        serve(link, answers, length);
        close(link);
    }
}
