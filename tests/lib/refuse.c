/* Counts the growths of a program in the file REFUSE_COUNT, and refuses those from REFUSE_FIRST to REFUSE_LAST. */
#include <errno.h>
#include <fcntl.h>
#include <stdatomic.h>
#include <stdlib.h>
#include <sys/mman.h>

void *__libc_malloc(size_t size);
void *__libc_calloc(size_t count, size_t size);
void *__libc_realloc(void *block, size_t size);

/* How many growths were asked for, and how many of them were refused. */
struct counts { atomic_ulong asked, refused; };

static struct counts uncounted;
static struct counts *counts = &uncounted;
static unsigned long first, last;

__attribute__((constructor)) static void begin(void) {
    int file = open(getenv("REFUSE_COUNT"), O_RDWR);
    void *shared = mmap(0, sizeof *counts, PROT_READ | PROT_WRITE, MAP_SHARED, file, 0);
    if (shared == MAP_FAILED)
        abort();
    first = strtoul(getenv("REFUSE_FIRST"), 0, 10);
    last = strtoul(getenv("REFUSE_LAST"), 0, 10);
    counts = shared;
}

static int is_refused(void) {
    unsigned long number = atomic_fetch_add(&counts->asked, 1) + 1;
    if (number < first || number > last)
        return 0;
    atomic_fetch_add(&counts->refused, 1);
    errno = ENOMEM;
    return 1;
}

void *malloc(size_t size) { return is_refused() ? 0 : __libc_malloc(size); }
void *calloc(size_t count, size_t size) { return is_refused() ? 0 : __libc_calloc(count, size); }
void *realloc(void *block, size_t size) { return is_refused() ? 0 : __libc_realloc(block, size); }
