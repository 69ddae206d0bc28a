/* Stands between a program and the kernel, and notes each frame that a V4L2 device gives it: number,
   flags, bytes, the driver's time, both of the system's clocks then, and the CRC of each part. It is
   loaded by LD_PRELOAD; WITNESS names its notes, and WITNESS_RAW what the frames' bytes are written
   to, a file for each number and part. It changes nothing. */
#define _GNU_SOURCE
#include <dlfcn.h>
#include <fcntl.h>
#include <linux/videodev2.h>
#include <stdarg.h>
#include <stdio.h>
#include <stdlib.h>
#include <string.h>
#include <sys/mman.h>
#include <sys/syscall.h>
#include <time.h>
#include <unistd.h>

#define BUFFERS 64
#define PARTS VIDEO_MAX_PLANES
static struct { int file; off_t offset; unsigned char *at; } maps[BUFFERS * PARTS];
static int mapped;
static off_t offsets[BUFFERS][PARTS];

static void end(int status, const char *why) {
    fprintf(stderr, "witness: %s\n", why);
    _exit(status);
}

static unsigned crc_of(const unsigned char *at, size_t count) {
    static unsigned table[256];
    if (!table[1])
        for (unsigned n = 0; n < 256; n++) {
            unsigned value = n;
            for (int bit = 0; bit < 8; bit++) value = value & 1 ? value >> 1 ^ 0xEDB88320 : value >> 1;
            table[n] = value;
        }
    unsigned crc = ~0u;
    while (count--) crc = table[(crc ^ *at++) & 255] ^ crc >> 8;
    return ~crc;
}

static void note(const char *text) {
    const char *path = getenv("WITNESS");
    int file = path ? open(path, O_WRONLY | O_CREAT | O_APPEND, 0644) : -1;
    if (file >= 0 && write(file, text, strlen(text)) < 0) end(99, "a note can't be written");
    if (file >= 0) close(file);
}

static void *map_by(void *at, size_t length, int rights, int flags, int file, off_t offset) {
    void *got = (void *)syscall(SYS_mmap, at, length, rights, flags, file, offset);
    if (got != MAP_FAILED && file >= 0 && flags & MAP_SHARED) {
        if (mapped == BUFFERS * PARTS) end(96, "more memory is mapped than it has room for");
        maps[mapped].file = file, maps[mapped].offset = offset, maps[mapped++].at = got;
    }
    return got;
}

void *mmap(void *at, size_t length, int rights, int flags, int file, off_t offset) {
    return map_by(at, length, rights, flags, file, offset);
}

void *mmap64(void *at, size_t length, int rights, int flags, int file, off_t offset) {
    return map_by(at, length, rights, flags, file, offset);
}

/* Memory that is given back makes room: a program may open one camera after the other. */
int munmap(void *at, size_t length) {
    for (int n = mapped; n-- > 0;)
        if (maps[n].at == at) {
            memmove(&maps[n], &maps[n + 1], (--mapped - n) * sizeof maps[0]);
            break;
        }
    return (int)syscall(SYS_munmap, at, length);
}

/* The memory of a part of a buffer: the newest that was mapped from its offset. */
static unsigned char *memory_of(int file, unsigned index, int part) {
    for (int n = mapped; n-- > 0;)
        if (maps[n].file == file && maps[n].offset == offsets[index][part]) return maps[n].at;
    return NULL;
}

static void keep(unsigned number, int part, const unsigned char *at, size_t count) {
    char path[300];
    if (!getenv("WITNESS_RAW")) return;
    snprintf(path, sizeof path, "%s.%u.%d", getenv("WITNESS_RAW"), number, part);
    int file = open(path, O_WRONLY | O_CREAT | O_TRUNC, 0644);
    if (file < 0 || write(file, at, count) != (ssize_t)count) end(98, "a frame can't be written");
    close(file);
}

static void taken(int file, struct v4l2_buffer *it) {
    struct timespec own, day;
    char line[600];
    int many = it->type == V4L2_BUF_TYPE_VIDEO_CAPTURE_MPLANE, parts = many ? (int)it->length : 1;
    clock_gettime(CLOCK_MONOTONIC, &own);
    clock_gettime(CLOCK_REALTIME, &day);
    int at = snprintf(line, sizeof line, "frame %u %u %ld %ld %ld", it->sequence, it->flags,
        it->timestamp.tv_sec * 1000000L + it->timestamp.tv_usec,
        own.tv_sec * 1000000000L + own.tv_nsec, day.tv_sec * 1000000000L + day.tv_nsec);
    for (int part = 0; part < parts; part++) {
        unsigned char *memory = memory_of(file, it->index, part);
        unsigned start = many ? it->m.planes[part].data_offset : 0;
        unsigned used = (many ? it->m.planes[part].bytesused : it->bytesused) - start;
        if (!memory) end(97, "a frame came in memory that it hasn't seen mapped");
        at += snprintf(line + at, sizeof line - at, " %u:%u", used, crc_of(memory + start, used));
        keep(it->sequence, part, memory + start, used);
    }
    snprintf(line + at, sizeof line - at, "\n");
    note(line);
}

int ioctl(int file, unsigned long word, ...) {
    va_list more;
    va_start(more, word);
    void *what = va_arg(more, void *);
    va_end(more);
    long done = syscall(SYS_ioctl, file, word, what);
    if (done < 0) return -1;
    struct v4l2_buffer *it = what;
    if (word == VIDIOC_QUERYBUF && it->index < BUFFERS) {
        int many = it->type == V4L2_BUF_TYPE_VIDEO_CAPTURE_MPLANE;
        for (int part = 0; part < (many ? (int)it->length : 1); part++)
            offsets[it->index][part] = many ? it->m.planes[part].m.mem_offset : it->m.offset;
    }
    if (word == VIDIOC_STREAMON) note("start\n");
    if (word == VIDIOC_DQBUF) taken(file, it);
    return done;
}
