/* Stands before the C library's fdatasync: adds up in the file SYNC_TIMES, which has room for four numbers of 8 bytes, how many syncs a
   program made, the nanoseconds inside them and those between them, and keeps when the last one ended. Where SYNC_SLEEP is set a sync
   is a sleep of so many nanoseconds, and no sync. It stands before pwrite too. Where NO_ROOM is set, and what is written ends with more
   zeros than any record, it writes the first 16 of them alone: so a program has no room ahead, and each record makes its file longer. */
#define _GNU_SOURCE
#include <fcntl.h>
#include <stdint.h>
#include <stdlib.h>
#include <sys/mman.h>
#include <sys/prctl.h>
#include <sys/syscall.h>
#include <time.h>
#include <unistd.h>

struct times { uint64_t syncs, inside, between, last; };

/* A record's own zeros at its end are fewer. */
enum { SHORTEST = 256 };

static struct times *times;
static struct timespec sleeps;
static int is_sleep, is_without_room;

static uint64_t now(void) {
    struct timespec time;
    clock_gettime(CLOCK_MONOTONIC, &time);
    return time.tv_sec * 1000000000ull + time.tv_nsec;
}

__attribute__((constructor)) static void begin(void) {
    const char *path = getenv("SYNC_TIMES"), *sleep = getenv("SYNC_SLEEP");
    is_without_room = getenv("NO_ROOM") != 0;
    int file = path ? open(path, O_RDWR) : -1;
    if (file >= 0) {
        void *map = mmap(0, sizeof *times, PROT_READ | PROT_WRITE, MAP_SHARED, file, 0);
        if (map != MAP_FAILED) times = map;
        close(file);
    }
    if (sleep) {
        long length = atol(sleep);
        is_sleep = 1;
        sleeps.tv_sec = length / 1000000000;
        sleeps.tv_nsec = length % 1000000000;
    }
}

int fdatasync(int file) {
    int done = 0;
    uint64_t start = now(), end;
    if (is_sleep) {
        prctl(PR_SET_TIMERSLACK, 1);
        nanosleep(&sleeps, 0);
    } else {
        done = syscall(SYS_fdatasync, file);
    }
    end = now();
    if (times) {
        if (times->last) times->between += start - times->last;
        times->inside += end - start;
        times->last = end;
        times->syncs++;
    }
    return done;
}

ssize_t pwrite(int file, const void *bytes, size_t size, off_t at) {
    const unsigned char *these = bytes;
    size_t kept = size;
    ssize_t done;
    if (is_without_room) {
        while (kept > 0 && these[kept - 1] == 0) kept--;
        kept = kept + SHORTEST < size ? kept + 16 : size;
    }
    done = syscall(SYS_pwrite64, file, bytes, kept, at);
    return done == (ssize_t)kept ? (ssize_t)size : done;
}
