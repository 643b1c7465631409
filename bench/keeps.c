/* How long a file takes so many syncs that keeps its length: each behind a write of 60 bytes over zeros that were written before.

       keeps FILE SYNCS        prints the seconds */
#include <fcntl.h>
#include <stdio.h>
#include <stdlib.h>
#include <time.h>
#include <unistd.h>

enum { SIZE = 1 << 20, PIECE = 60 };

int main(int count, char **words) {
    static char zeros[SIZE];
    char piece[PIECE];
    struct timespec start, end;
    int file = open(words[1], O_RDWR | O_CREAT, 0600);
    if (count != 3 || file < 0 || write(file, zeros, SIZE) != SIZE || fsync(file)) return 1;
    for (int at = 0; at < PIECE; at++) piece[at] = 'x';
    clock_gettime(CLOCK_MONOTONIC, &start);
    for (long sync = 0, syncs = atol(words[2]); sync < syncs; sync++) {
        if (pwrite(file, piece, PIECE, sync * PIECE % (SIZE - PIECE)) != PIECE || fdatasync(file)) return 1;
    }
    clock_gettime(CLOCK_MONOTONIC, &end);
    printf("%.9f\n", end.tv_sec - start.tv_sec + (end.tv_nsec - start.tv_nsec) / 1e9);
    return 0;
}
