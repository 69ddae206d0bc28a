/* The export of a full store of GREY frames as a plain program: a read of a frame's head, one of each piece of its pixels, and a write of
   each piece, with no more checks than it needs. It neither reads ahead nor gathers what it writes, as `loop_cli export` does.

       export STORE OUT
       export copy FROM TO

   The second one copies a file as plainly as reads and writes can, a piece at a time: what an export could cost at best. */
#define _GNU_SOURCE
#include <fcntl.h>
#include <stdint.h>
#include <stdio.h>
#include <stdlib.h>
#include <string.h>
#include <unistd.h>

enum { PIECE = 65536, HEAD = 32 };

static void have(int well) {
    if (!well) {
        perror("export");
        exit(1);
    }
}

static void fetch(int file, void *bytes, size_t size, off_t at) { have(pread(file, bytes, size, at) == (ssize_t)size); }
static void give(int file, const void *bytes, size_t size) { have(write(file, bytes, size) == (ssize_t)size); }
static uint32_t get32(const uint8_t *at) { uint32_t value; memcpy(&value, at, 4); return value; }
static uint64_t get64(const uint8_t *at) { uint64_t value; memcpy(&value, at, 8); return value; }

static int copy(const char *from, const char *to) {
    static uint8_t piece[PIECE];
    int in = open(from, O_RDONLY), out = open(to, O_WRONLY | O_CREAT | O_TRUNC, 0666);
    have(in >= 0 && out >= 0);
    ssize_t size;
    while ((size = read(in, piece, sizeof piece)) > 0) give(out, piece, (size_t)size);
    have(size == 0);
    return 0;
}

int main(int count, char **words) {
    if (count == 4 && strcmp(words[1], "copy") == 0) return copy(words[2], words[3]);
    static uint8_t front[512], piece[PIECE], head[HEAD];
    have(count == 3);
    int store = open(words[1], O_RDWR), out = open(words[2], O_WRONLY | O_CREAT | O_TRUNC, 0666);
    have(store >= 0 && out >= 0);
    fetch(store, front, sizeof front, 0);
    uint32_t w = get32(front + 12), h = get32(front + 16), s = get32(front + 32), f = get32(front + 36), size = get32(front + 40);
    char header[128];
    int length = snprintf(header, sizeof header, "YUV4MPEG2 W%u H%u F%u:%u Ip A0:0 Cmono\n", w, h, get32(front + 24), get32(front + 28));
    give(out, header, (size_t)length);
    uint64_t slot = HEAD + (uint64_t)size, segment = 512 + f * slot, told = 0;
    for (uint64_t number = 0; number < (uint64_t)s * f; number++) {
        off_t at = (off_t)(2560 + number / f * segment + 512 + number % f * slot);
        give(out, "FRAME\n", 6);
        for (uint32_t from = 0; from < size; from += PIECE) {
            size_t part = size - from < PIECE ? size - from : PIECE;
            fetch(store, head, HEAD, at);
            have(get64(head) == number && get32(head + 24) == size);
            fetch(store, piece, part, at + HEAD + from);
            give(out, piece, part);
        }
        told++;
    }
    printf("exported %llu\n", (unsigned long long)told);
    return 0;
}
