/* The limit of a disk: writes the pieces that a program wrote into a store, from memory, and syncs where it did.
 *
 *     limit PIECES PATH     each line of PIECES is a place and a length, or `sync` (bench/dry.c)
 *
 * It prints how many seconds that took. The file of PATH is there, as large as the store was. */
#define _GNU_SOURCE
#include <fcntl.h>
#include <stdint.h>
#include <stdio.h>
#include <stdlib.h>
#include <string.h>
#include <time.h>
#include <unistd.h>

enum { MOST = 1 << 20, LONGEST = 1 << 26 };

static struct { uint64_t at, count; } pieces[MOST];

int main(int argc, char **argv) {
    char line[64];
    size_t made = 0;
    FILE *text = argc == 3 ? fopen(argv[1], "r") : NULL;
    int file = argc == 3 ? open(argv[2], O_RDWR) : -1;
    uint8_t *bytes = malloc(LONGEST);
    if (!text || file < 0 || !bytes) return 2;
    for (; made < MOST && fgets(line, sizeof line, text); made++) {
        unsigned long long at = 0, count = 0;
        if (strncmp(line, "sync", 4) && (sscanf(line, "%llu %llu", &at, &count) != 2 || count > LONGEST)) return 2;
        pieces[made].at = at;
        pieces[made].count = count;
    }
    memset(bytes, 0x5a, LONGEST);
    struct timespec began, ended;
    clock_gettime(CLOCK_MONOTONIC, &began);
    for (size_t it = 0; it < made; it++) {
        if (!pieces[it].count) {
            if (fdatasync(file)) return 1;
        } else if (pwrite(file, bytes, pieces[it].count, pieces[it].at) != (ssize_t)pieces[it].count) {
            return 1;
        }
    }
    clock_gettime(CLOCK_MONOTONIC, &ended);
    printf("%.6f\n", ended.tv_sec - began.tv_sec + (ended.tv_nsec - began.tv_nsec) / 1e9);
    return 0;
}
