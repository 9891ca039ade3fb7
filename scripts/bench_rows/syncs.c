/* Preloaded into a program: counts its syncs, and sleeps before each. The file that BENCH_SYNCS names holds two
   numbers of 64 bits: the nanoseconds of the sleep, below 0 where a sync is to do nothing, and the count. */
#include <dlfcn.h>
#include <fcntl.h>
#include <stdatomic.h>
#include <stdint.h>
#include <stdlib.h>
#include <sys/mman.h>
#include <time.h>
#include <unistd.h>

enum { A_SECOND = 1000000000 };

struct syncs {
    _Atomic int64_t pause;
    _Atomic uint64_t count;
};

typedef int sync_call(int);

static struct syncs *syncs;
static sync_call *real_fsync, *real_fdatasync;

__attribute__((constructor)) static void begin(void)
{
    const char *path = getenv("BENCH_SYNCS");
    int file = path ? open(path, O_RDWR | O_CLOEXEC) : -1;
    void *room = mmap(NULL, sizeof *syncs, PROT_READ | PROT_WRITE, MAP_SHARED, file, 0);
    real_fsync = (sync_call *)dlsym(RTLD_NEXT, "fsync");
    real_fdatasync = (sync_call *)dlsym(RTLD_NEXT, "fdatasync");
    if (file < 0 || room == MAP_FAILED || !real_fsync || !real_fdatasync)
        _exit(2);
    close(file);
    syncs = room;
}

static int paused(sync_call *real, int file)
{
    int64_t pause = atomic_load(&syncs->pause);
    struct timespec left = {pause / A_SECOND, pause % A_SECOND};
    atomic_fetch_add(&syncs->count, 1);
    if (pause < 0)
        return 0;
    while (pause > 0 && nanosleep(&left, &left))
        ;
    return real(file);
}

int fsync(int file)
{
    return paused(real_fsync, file);
}

int fdatasync(int file)
{
    return paused(real_fdatasync, file);
}
