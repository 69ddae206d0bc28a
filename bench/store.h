/* A store in a file, for the plain programs: it is opened and appended to with the system's calls of `loop_store`, with the same places
   and sizes and in the same order. It checks nothing. The store has no clips, and the blocks from 0 on, each full but the last. */
#define _GNU_SOURCE
#include <fcntl.h>
#include <stdint.h>
#include <stdio.h>
#include <stdlib.h>
#include <string.h>
#include <sys/file.h>
#include <sys/stat.h>
#include <unistd.h>

static uint8_t *memory(size_t size) {
    uint8_t *bytes = malloc(size);
    if (!bytes)
        exit(1);
    return bytes;
}

static const uint8_t open_gates[8] = {0xA5, 0xA5, 0xA5, 0xA5, 0xA5, 0xA5, 0xA5, 0xA5};
static const uint8_t closed_gate = 0;

struct store {
    int file;
    uint32_t segments, slots, size;
    uint64_t segment, next;
};

struct frame {
    uint32_t sequence;
    uint8_t *bytes;
};

static void put32(uint8_t *at, uint32_t value) { memcpy(at, &value, 4); }
static void put64(uint8_t *at, uint64_t value) { memcpy(at, &value, 8); }
static uint32_t get32(const uint8_t *at) { uint32_t value; memcpy(&value, at, 4); return value; }
static uint64_t get64(const uint8_t *at) { uint64_t value; memcpy(&value, at, 8); return value; }

static void read_at(const struct store *s, uint64_t at, void *bytes, size_t size) {
    if (pread(s->file, bytes, size, at) != (ssize_t)size)
        exit(1);
}

static void write_at(const struct store *s, uint64_t at, const void *bytes, size_t size) {
    if (pwrite(s->file, bytes, size, at) != (ssize_t)size)
        exit(1);
}

static void sync_file(const struct store *s) {
    if (fdatasync(s->file))
        exit(1);
}

/* The store is opened with the calls of `Store::open`: superblock, headers, heads, clips, and the gates behind the last block's frames. */
static void open_store(struct store *s, const char *path) {
    uint8_t superblock[512], header[512], head[32], table[2048];
    struct stat data;
    s->file = open(path, O_RDWR | O_CLOEXEC);
    if (s->file < 0 || fstat(s->file, &data) || flock(s->file, LOCK_EX | LOCK_NB) || fstat(s->file, &data))
        exit(1);
    sync_file(s);
    read_at(s, 0, superblock, 512);
    s->segments = get32(superblock + 32);
    s->slots = get32(superblock + 36);
    s->size = get32(superblock + 40);
    s->segment = 512 + s->slots * (32 + (uint64_t)s->size);
    s->next = 0;
    uint32_t held[64];
    for (uint32_t j = 0; j < s->segments; j++) {
        read_at(s, 2560 + j * s->segment, header, 512);
        for (held[j] = 0; held[j] < s->slots && header[256 + held[j]] == 0xA5; held[j]++)
            ;
        uint64_t next = get64(header + 8) * s->slots + held[j];
        if (header[0] == 0xA5 && next > s->next)
            s->next = next;
    }
    for (uint32_t j = 0; j < s->segments; j++)
        for (uint32_t i = 0; i < held[j]; i++)
            read_at(s, 2560 + j * s->segment + 512 + i * (32 + (uint64_t)s->size), head, 32);
    read_at(s, 512, table, 2048);
    uint32_t last = s->segments - 1;
    if (held[last] + 1 < s->slots)
        read_at(s, 2560 + last * s->segment + 256 + held[last] + 1, header, s->slots - held[last] - 1);
}

/* The slots of a group, one after the other. */
static void put_group(const struct store *s, uint8_t *slots, const struct frame *frames, uint32_t count) {
    for (uint32_t i = 0; i < count; i++) {
        uint8_t *slot = slots + i * (32 + (size_t)s->size);
        put64(slot, s->next + i);
        put32(slot + 8, frames[i].sequence);
        put32(slot + 12, 0x2000);
        put64(slot + 16, 0);
        put32(slot + 24, s->size);
        put32(slot + 28, 0);
        memcpy(slot + 32, frames[i].bytes, s->size);
    }
}

static void append(struct store *s, uint8_t *slots, const struct frame *frames, uint32_t count) {
    uint64_t block = s->next / s->slots, first = s->next % s->slots, at = 2560 + block % s->segments * s->segment;
    if (first == 0) {
        static uint8_t header[512];
        if (block >= s->segments) {
            write_at(s, at, &closed_gate, 1);
            sync_file(s);
        }
        put64(header + 8, block);
        write_at(s, at + 1, header + 1, 511);
        sync_file(s);
        write_at(s, at, open_gates, 1);
        sync_file(s);
    }
    put_group(s, slots, frames, count);
    write_at(s, at + 512 + first * (32 + (uint64_t)s->size), slots, count * (32 + (size_t)s->size));
    sync_file(s);
    write_at(s, at + 256 + first, open_gates, count);
    sync_file(s);
    s->next += count;
}
