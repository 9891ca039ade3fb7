/* Reads one target over a connection that is kept, again and again until a time is up. Writes the nanoseconds of all, and
   then those of each read, a line each. */
#include "asking.h"

enum { MOST_READS = 1 << 20 };

int main(int argc, char **argv)
{
    if (argc != 4)
        return 1;
    serve_at(argv[1]);
    uint64_t wanted = strtoul(argv[3], NULL, 10) * 1000000, *times = calloc(MOST_READS, sizeof *times);
    if (!times)
        fail("no memory", argv[2]);
    int link = connected();
    size_t reads = 0;
    uint64_t begun = now(), end = begun;
    while (end - begun < wanted && reads < MOST_READS) {
        uint64_t asked = now();
        ask(link, "GET", argv[2]);
        end = now();
        times[reads++] = end - asked;
    }
    close(link);
    printf("%llu\n", (unsigned long long)(end - begun));
    for (size_t i = 0; i < reads; i++)
        printf("%llu\n", (unsigned long long)times[i]);
    return fflush(stdout) ? 2 : 0;
}
