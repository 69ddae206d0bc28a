/* The work of a script `format W H GREY 25:1 S F` and `store K`, some rounds of it, as a plain program: the same bytes into an image in
   memory, in the same order of writes, and the same lines printed. It keeps no record of its writes and checks nothing.

       plain W H S F K ROUNDS SYNCS

   GREY is the only pixel format, so a frame has W * H bytes. With SYNCS 1 it counts the syncs that a disk would get. */
#include <stdint.h>
#include <stdio.h>
#include <stdlib.h>
#include <string.h>

static uint64_t syncs;
static int counts;

static void put32(uint8_t *at, uint32_t value) { memcpy(at, &value, 4); }
static void put64(uint8_t *at, uint64_t value) { memcpy(at, &value, 8); }
static void write_at(uint8_t *image, uint64_t at, const void *bytes, size_t size) { memcpy(image + at, bytes, size); }
static void sync_image(void) {
    if (counts)
        __atomic_fetch_add(&syncs, 1, __ATOMIC_SEQ_CST);
}

static void format(uint8_t *image, uint32_t w, uint32_t h, uint32_t s, uint32_t f, uint32_t size, uint64_t segment) {
    static uint8_t front[2560], header[512];
    static const uint8_t open = 0xA5;
    memcpy(front + 1, "LOOPREC", 7);
    put32(front + 8, 1);
    put32(front + 12, w);
    put32(front + 16, h);
    memcpy(front + 20, "GREY", 4);
    put32(front + 24, 25);
    put32(front + 28, 1);
    put32(front + 32, s);
    put32(front + 36, f);
    put32(front + 40, size);
    write_at(image, 1, front + 1, 2559);
    for (uint32_t j = 0; j < s; j++)
        write_at(image, 2560 + j * segment, header, 512);
    sync_image();
    write_at(image, 0, &open, 1);
    sync_image();
}

static void store(uint8_t *image, uint8_t *slot, uint32_t s, uint32_t f, uint32_t size, uint64_t segment, uint64_t n) {
    static const uint8_t open = 0xA5, closed = 0;
    uint64_t block = n / f, first = n % f, at = 2560 + block % s * segment;
    if (first == 0) {
        static uint8_t header[512];
        if (block >= s) {
            write_at(image, at, &closed, 1);
            sync_image();
        }
        put64(header + 8, block);
        write_at(image, at + 1, header + 1, 511);
        sync_image();
        write_at(image, at, &open, 1);
        sync_image();
    }
    put64(slot, n);
    put32(slot + 8, (uint32_t)n);
    put32(slot + 12, 0x2000);
    put64(slot + 16, n * 40000);
    put32(slot + 24, size);
    put32(slot + 28, 0);
    uint8_t value = (uint8_t)n;
    for (uint32_t i = 0; i < size; i++)
        slot[32 + i] = value++;
    write_at(image, at + 512 + first * (32 + (uint64_t)size), slot, 32 + (size_t)size);
    sync_image();
    write_at(image, at + 256 + first, &open, 1);
    sync_image();
}

int main(int argc, char **argv) {
    if (argc != 8)
        return 2;
    uint32_t w = strtoul(argv[1], 0, 10), h = strtoul(argv[2], 0, 10), s = strtoul(argv[3], 0, 10), f = strtoul(argv[4], 0, 10);
    uint64_t k = strtoull(argv[5], 0, 10), rounds = strtoull(argv[6], 0, 10);
    counts = atoi(argv[7]);
    uint32_t size = w * h;
    uint64_t segment = 512 + f * (32 + (uint64_t)size), disk = 2560 + s * segment;
    for (uint64_t round = 0; round < rounds; round++) {
        uint8_t *image = malloc(disk), *slot = malloc(32 + (size_t)size);
        if (!image || !slot)
            return 1;
        /* Else malloc and memset become calloc, and the pages are first touched by the stores. */
        __asm__ volatile("" : "+r"(image) : : "memory");
        memset(image, 0, disk);
        format(image, w, h, s, f, size, segment);
        puts("formatted");
        for (uint64_t n = 0; n < k; n++)
            store(image, slot, s, f, size, segment, n);
        if (k)
            printf("stored 0..%llu\n", (unsigned long long)(k - 1));
        else
            puts("stored none");
        /* What was written is looked at, so that no write is left out. */
        __asm__ volatile("" : : "r"(image) : "memory");
        free(slot);
        free(image);
    }
    if (counts)
        fprintf(stderr, "%llu syncs\n", (unsigned long long)syncs);
    return 0;
}
