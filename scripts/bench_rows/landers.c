/* Lands drafts over several connections at once, each a thread of its own, until a time is up or one of them has no
   draft left. Standard input gives the ids, a line each, first those of the first connection and as many for each.
   Writes the nanoseconds of all, and then those of each landing, a line each. */
#include "asking.h"
#include <pthread.h>
#include <stdatomic.h>

enum { MOST_CLIENTS = 256, ID = 64, LINE = 65 };

struct client {
    pthread_t thread;
    const char *ids;
    uint64_t *times, begun, end;
    size_t landed;
};

static const char *bookmark;
static size_t drafts;
static uint64_t wanted;
static pthread_barrier_t gate;
static atomic_int over;

static void *land(void *word)
{
    struct client *client = word;
    char target[512];
    int link = connected();
    snprintf(target, sizeof target, "/bookmark/%s", bookmark);
    ask(link, "GET", target);
    pthread_barrier_wait(&gate);
    client->begun = client->end = now();
    for (; client->end - client->begun < wanted && !over; client->landed++) {
        const char *id = client->ids + client->landed * LINE;
        snprintf(target, sizeof target, "/land/%s/%.*s", bookmark, ID, id);
        uint64_t asked = now();
        ask(link, "POST", target);
        client->end = now();
        client->times[client->landed] = client->end - asked;
        if (client->landed + 1 == drafts)
            over = 1;
    }
    close(link);
    return NULL;
}

/* The ids that stand in standard input, and how many they are. */
static char *read_ids(size_t *count)
{
    size_t held = 0, room = 1 << 24;
    char *ids = malloc(room);
    if (!ids)
        fail("no memory", bookmark);
    while (held < room) {
        size_t more = fread(ids + held, 1, room - held, stdin);
        if (!more)
            break;
        held += more;
    }
    *count = held / LINE;
    return ids;
}

static void tell(const struct client *clients, int count)
{
    uint64_t begun = clients[0].begun, end = clients[0].end;
    for (int i = 1; i < count; i++) {
        begun = clients[i].begun < begun ? clients[i].begun : begun;
        end = clients[i].end > end ? clients[i].end : end;
    }
    printf("%llu\n", (unsigned long long)(end - begun));
    for (int i = 0; i < count; i++)
        for (size_t j = 0; j < clients[i].landed; j++)
            printf("%llu\n", (unsigned long long)clients[i].times[j]);
}

int main(int argc, char **argv)
{
    static struct client clients[MOST_CLIENTS];
    if (argc != 5)
        return 1;
    bookmark = argv[2];
    int count = atoi(argv[3]);
    char *ids = read_ids(&drafts);
    serve_at(argv[1]);
    wanted = strtoul(argv[4], NULL, 10) * 1000000;
    if (count < 1 || count > MOST_CLIENTS || !(drafts /= (size_t)count))
        fail("too many clients, or too few drafts", argv[3]);
    pthread_barrier_init(&gate, NULL, (unsigned)count);
    for (int i = 0; i < count; i++) {
        clients[i].ids = ids + (size_t)i * drafts * LINE;
        clients[i].times = calloc(drafts, sizeof *clients[i].times);
        if (!clients[i].times || pthread_create(&clients[i].thread, NULL, land, &clients[i]))
            fail("no memory", bookmark);
    }
    for (int i = 0; i < count; i++)
        pthread_join(clients[i].thread, NULL);
    tell(clients, count);
    return fflush(stdout) ? 2 : 0;
}
