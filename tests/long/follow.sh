#!/bin/sh
# A second office that follows, on the built program over two folders: what is shipped and followed after three entries, and how
# each fault ends; a stop at each disk call of following; `ship` and `follow` killed at random moments, 100 times each or as often as
# the argument says, after which following again ends whole; and a journal of version 1, which stays one. The kills are of
# the program alone: what the system had taken of a write outlives it, so they show nothing of a power cut. The stops at disk calls
# need cc, and are skipped without it. It takes some minutes. Not part of the merge gate.
top=$(cd "$(dirname "$0")/../.." && pwd)
. "$top/tests/lib/program.sh"
books=${BOOKS:-$(built books)}
scratch=$(mktemp -d) || exit 1
trap 'rm -rf "$scratch"' EXIT
cp "$top/examples/rivertown/chart.toml" "$scratch/chart.toml"
cp "$top/examples/older/quarter.journal" "$scratch/older.journal"
cat > "$scratch/stop.c" <<'C'
/* Ends the program in front of the N-th call that moves the disk's bytes: a write at a place of fund.journal, a cut or a sync. */
#define _GNU_SOURCE
#include <dlfcn.h>
#include <stdlib.h>
#include <string.h>
#include <sys/types.h>
#include <unistd.h>

static long left = -1;

static int is_journal(int fd) {
    char link[64], path[4096];
    ssize_t size;
    strcpy(link, "/proc/self/fd/");
    char digits[16];
    int n = 0, rest = fd;
    do digits[n++] = '0' + rest % 10; while (rest /= 10);
    char *end = link + strlen(link);
    while (n) *end++ = digits[--n];
    *end = 0;
    size = readlink(link, path, sizeof path - 1);
    if (size < 12) return 0;
    path[size] = 0;
    return strcmp(path + size - 12, "fund.journal") == 0;
}

static void count(int fd) {
    if (left == -1) left = atol(getenv("STOP_AT"));
    if (is_journal(fd) && --left == 0) _exit(99);
}

#define CALL(type, name, params, args) type name params { \
    static type (*real) params; \
    if (!real) real = (type (*) params) dlsym(RTLD_NEXT, #name); \
    count(fd); return real args; }

CALL(ssize_t, write, (int fd, const void *bytes, size_t size), (fd, bytes, size))
CALL(ssize_t, pwrite, (int fd, const void *bytes, size_t size, off_t at), (fd, bytes, size, at))
CALL(ssize_t, pwrite64, (int fd, const void *bytes, size_t size, off64_t at), (fd, bytes, size, at))
CALL(int, fsync, (int fd), (fd))
CALL(int, fdatasync, (int fd), (fd))
CALL(int, ftruncate, (int fd, off_t size), (fd, size))
C
stop=
if command -v cc > /dev/null && cc -O1 -shared -fPIC -o "$scratch/stop.so" "$scratch/stop.c" -ldl; then
    stop=$scratch/stop.so
else
    echo "follow: skipped: no stops at disk calls, since there is no cc"
fi
cd "$scratch" && PYTHONPATH=$top/bench:$top/tests/lib PYTHONDONTWRITEBYTECODE=1 timeout 3600 python3 "$top/tests/lib/following.py" \
    "$program" "$books" "$top/examples/operate/ship.sh" "${1:-100}" "$stop"
