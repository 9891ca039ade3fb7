/* Appends records to a file until a time is up, as a journal does: each its bytes, a sync, its gate, a sync. Writes the
   nanoseconds of all, and then those of each, a line each. */
#include <fcntl.h>
#include <stdint.h>
#include <stdio.h>
#include <stdlib.h>
#include <time.h>
#include <unistd.h>

enum { HEADER = 17, MOST = 100000 };

static uint64_t now(void)
{
    struct timespec time;
    clock_gettime(CLOCK_MONOTONIC, &time);
    return (uint64_t)time.tv_sec * 1000000000 + (uint64_t)time.tv_nsec;
}

static int append(int file, off_t gate, const char *record, size_t length)
{
    return pwrite(file, record, length, gate) == (ssize_t)length && !fdatasync(file)
        && pwrite(file, "\1", 1, gate - 1) == 1 && !fdatasync(file);
}

int main(int argc, char **argv)
{
    if (argc != 4)
        return 1;
    size_t length = strtoul(argv[2], NULL, 10), count = 0;
    uint64_t *times = calloc(MOST + 1, sizeof *times), wanted = strtoul(argv[3], NULL, 10) * 1000000;
    char *record = calloc(1, length);
    int file = open(argv[1], O_RDWR | O_CREAT, 0666);
    off_t end = file < 0 ? -1 : lseek(file, 0, SEEK_END);
    if (!times || !record || end < 0 || (end == 0 && pwrite(file, record, HEADER, 0) != HEADER))
        return 2;
    off_t gate = end ? end : HEADER;
    uint64_t begun = times[0] = now();
    while (count < MOST && times[count] - begun < wanted) {
        if (!append(file, gate, record, length))
            return 2;
        gate += (off_t)length;
        times[++count] = now();
    }
    printf("%llu\n", (unsigned long long)(times[count] - begun));
    for (size_t i = 0; i < count; i++)
        printf("%llu\n", (unsigned long long)(times[i + 1] - times[i]));
    return fflush(stdout) ? 2 : 0;
}
