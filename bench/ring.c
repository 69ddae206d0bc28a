/* The device calls of `bench_programs` as a plain program, with the same places and sizes and in the same order. It checks nothing, and a
   disk in memory keeps no record of its writes: a write is a copy, a sync does nothing.

       ring append W H S F GROUP GROUPS ROUNDS
       ring open PATH ROUNDS

   GREY is the only pixel format, so a frame has W * H bytes. */
#define _GNU_SOURCE
#include <fcntl.h>
#include <stdint.h>
#include <stdio.h>
#include <stdlib.h>
#include <string.h>
#include <sys/file.h>
#include <sys/stat.h>
#include <unistd.h>

static const uint8_t open_gates[8] = {0xA5, 0xA5, 0xA5, 0xA5, 0xA5, 0xA5, 0xA5, 0xA5};
static const uint8_t closed_gate = 0;

static void put32(uint8_t *at, uint32_t value) { memcpy(at, &value, 4); }
static void put64(uint8_t *at, uint64_t value) { memcpy(at, &value, 8); }
static uint32_t get32(const uint8_t *at) { uint32_t value; memcpy(&value, at, 4); return value; }
static uint64_t get64(const uint8_t *at) { uint64_t value; memcpy(&value, at, 8); return value; }
static void write_at(uint8_t *image, uint64_t at, const void *bytes, size_t size) { memcpy(image + at, bytes, size); }
/* What was written has to be there now, so that no write is left out or put off. */
static void sync_image(void) { __asm__ volatile("" : : : "memory"); }

static void format(uint8_t *image, uint32_t w, uint32_t h, uint32_t s, uint32_t f, uint32_t size, uint64_t segment) {
    static uint8_t front[2560], header[512];
    memcpy(front + 1, "LOOPREC", 7);
    put32(front + 8, 1);
    put32(front + 12, w);
    put32(front + 16, h);
    memcpy(front + 20, "GREY", 4);
    put32(front + 24, 1);
    put32(front + 28, 1);
    put32(front + 32, s);
    put32(front + 36, f);
    put32(front + 40, size);
    write_at(image, 1, front + 1, 2559);
    for (uint32_t j = 0; j < s; j++)
        write_at(image, 2560 + j * segment, header, 512);
    sync_image();
    write_at(image, 0, open_gates, 1);
    sync_image();
}

static void append(uint8_t *image, uint8_t *slots, const uint8_t *frames, uint32_t count, uint64_t next, uint32_t s, uint32_t f, uint32_t size, uint64_t segment) {
    uint64_t block = next / f, first = next % f, at = 2560 + block % s * segment;
    if (first == 0) {
        static uint8_t header[512];
        if (block >= s) {
            write_at(image, at, &closed_gate, 1);
            sync_image();
        }
        put64(header + 8, block);
        write_at(image, at + 1, header + 1, 511);
        sync_image();
        write_at(image, at, open_gates, 1);
        sync_image();
    }
    for (uint32_t i = 0; i < count; i++) {
        uint8_t *slot = slots + i * (32 + (size_t)size);
        put64(slot, next + i);
        put32(slot + 8, 0);
        put32(slot + 12, 0x2000);
        put64(slot + 16, 0);
        put32(slot + 24, size);
        put32(slot + 28, 0);
        memcpy(slot + 32, frames + i * (size_t)size, size);
    }
    write_at(image, at + 512 + first * (32 + (uint64_t)size), slots, count * (32 + (size_t)size));
    sync_image();
    write_at(image, at + 256 + first, open_gates, count);
    sync_image();
}

static int append_all(char **argv) {
    uint32_t w = atoi(argv[2]), h = atoi(argv[3]), s = atoi(argv[4]), f = atoi(argv[5]), count = atoi(argv[6]);
    uint64_t groups = atoi(argv[7]), rounds = atoi(argv[8]);
    uint32_t size = w * h;
    uint64_t segment = 512 + f * (32 + (uint64_t)size), disk = 2560 + s * segment;
    uint8_t *frames = malloc(count * (size_t)size);
    if (!frames || count > 8)
        return 1;
    /* Pages that were never written would all be the system's one page of zeros, and stay in the cache. */
    memset(frames, 1, count * (size_t)size);
    for (uint64_t round = 0; round < rounds; round++) {
        uint8_t *image = malloc(disk), *slots = malloc(8 * (32 + (size_t)size));
        if (!image || !slots)
            return 1;
        /* Else malloc and memset become calloc. */
        __asm__ volatile("" : "+r"(image) : : "memory");
        memset(image, 0, disk);
        format(image, w, h, s, f, size, segment);
        for (uint64_t n = 0; n < groups; n++)
            append(image, slots, frames, count, n * count, s, f, size, segment);
        __asm__ volatile("" : : "r"(image) : "memory");
        free(slots);
        free(image);
    }
    printf("appended %llu\n", (unsigned long long)(groups * count * rounds));
    return 0;
}

static int open_file(const char *path, uint64_t *next) {
    uint8_t superblock[512], header[512], head[32], table[2048];
    struct stat data;
    int file = open(path, O_RDWR | O_CLOEXEC);
    if (file < 0 || fstat(file, &data) || flock(file, LOCK_EX | LOCK_NB) || fdatasync(file) || pread(file, superblock, 512, 0) != 512)
        return 1;
    uint32_t s = get32(superblock + 32), f = get32(superblock + 36), size = get32(superblock + 40);
    uint64_t segment = 512 + f * (32 + (uint64_t)size), blocks[64];
    for (uint32_t j = 0; j < s; j++) {
        if (pread(file, header, 512, 2560 + j * segment) != 512)
            return 1;
        blocks[j] = get64(header + 8);
    }
    /* Each segment is full, and they hold the blocks in their order. */
    for (uint32_t j = 0; j < s; j++)
        for (uint32_t i = 0; i < f; i++)
            if (pread(file, head, 32, 2560 + j * segment + 512 + i * (32 + (uint64_t)size)) != 32 || get64(head) != blocks[j] * f + i)
                return 1;
    if (pread(file, table, 2048, 512) != 2048)
        return 1;
    *next = (blocks[s - 1] + 1) * f;
    close(file);
    return 0;
}

int main(int argc, char **argv) {
    if (argc == 9 && !strcmp(argv[1], "append"))
        return append_all(argv);
    if (argc != 4 || strcmp(argv[1], "open"))
        return 2;
    uint64_t next = 0;
    for (int round = atoi(argv[3]); round > 0; round--)
        if (open_file(argv[2], &next))
            return 1;
    printf("opened, next %llu\n", (unsigned long long)next);
    return 0;
}
