/* Before a station that records without a camera and, in a dry run, without pixels on the disk:
 * bench/hours builds it as a shared library and preloads it.
 *
 *   DRY_HEADER   the header's line of the text that whoever reads a named pipe NAME.y4m gets, at
 *                once and without a pipe's copies: then DRY_FRAMES frames of DRY_SIZE bytes, each
 *                with its time DRY_FROM + NUMBER * DRY_STEP in its line, and its number in its
 *                first and in its last 8 bytes. After these it is the pipe that is read
 *   DRY_WRITES   of each write of more than 4 KiB only the pieces of 4 KiB are made that have another
 *                byte than 0, so that a store has the heads of its frames, their ends, and holes
 *                between them, in whichever pieces it is written
 *   DRY_PIECES   a file that gets a line for each write and sync of a file NAME.loop: its place
 *                and length, or `sync`
 */
#define _GNU_SOURCE
#include <fcntl.h>
#include <stdint.h>
#include <stdio.h>
#include <stdlib.h>
#include <string.h>
#include <sys/stat.h>
#include <sys/syscall.h>
#include <unistd.h>

enum { LINE = 26, WHOLE = 4096 };

static const char zeros[WHOLE];

static uint64_t number_of(const char *name) {
    const char *text = getenv(name);
    return text ? strtoull(text, NULL, 10) : 0;
}

static int has_ending(int fd, const char *ending) {
    char link[64], path[4096];
    snprintf(link, sizeof link, "/proc/self/fd/%d", fd);
    ssize_t length = syscall(SYS_readlink, link, path, sizeof path - 1);
    size_t most = strlen(ending);
    if (length < (ssize_t)most) return 0;
    path[length] = 0;
    return !strcmp(path + length - most, ending);
}

/* Puts what a piece of a text, which begins at `at`, has of `count` bytes from `from` on. */
static void put(char *out, uint64_t from, size_t count, uint64_t at, const void *piece, size_t size) {
    uint64_t first = at > from ? at : from, last = at + size, end = from + count;
    if (last > end) last = end;
    if (first < last) memcpy(out + (first - from), (const char *)piece + (first - at), last - first);
}

ssize_t read(int fd, void *out, size_t count) {
    static uint64_t place;
    static int pipe_fd = -1;
    const char *header = getenv("DRY_HEADER");
    struct stat found;
    if (!header || fd <= 2) return syscall(SYS_read, fd, out, count);
    if (fd != pipe_fd) {
        if (fstat(fd, &found) || !S_ISFIFO(found.st_mode) || !has_ending(fd, ".y4m"))
            return syscall(SYS_read, fd, out, count);
        pipe_fd = fd;
    }
    uint64_t size = number_of("DRY_SIZE"), frames = number_of("DRY_FRAMES");
    uint64_t head = strlen(header) + 1, whole = LINE + size, all = head + frames * whole;
    if (place >= all) return syscall(SYS_read, fd, out, count);
    if (count > all - place) count = all - place;
    put(out, place, count, 0, header, head - 1);
    put(out, place, count, head - 1, "\n", 1);
    uint64_t n = place < head ? 0 : (place - head) / whole;
    for (; n < frames && head + n * whole < place + count; n++) {
        char line[LINE + 1];
        uint64_t at = head + n * whole, time = number_of("DRY_FROM") + n * number_of("DRY_STEP");
        snprintf(line, sizeof line, "FRAME Xt=%016llu\n", (unsigned long long)time);
        put(out, place, count, at, line, LINE);
        put(out, place, count, at + LINE, &n, 8);
        put(out, place, count, at + whole - 8, &n, 8);
    }
    place += count;
    return count;
}

/* Notes a write, or a sync where there are no bytes. */
static void note(int fd, uint64_t at, uint64_t count) {
    static int out = -1;
    const char *path = getenv("DRY_PIECES");
    char line[64];
    if (!path || !has_ending(fd, ".loop")) return;
    int how = O_WRONLY | O_CREAT | O_APPEND | O_CLOEXEC;
    if (out < 0) out = syscall(SYS_openat, AT_FDCWD, path, how, 0600);
    unsigned long long place = at, most = count;
    int length = count ? snprintf(line, sizeof line, "%llu %llu\n", place, most)
                       : snprintf(line, sizeof line, "sync\n");
    syscall(SYS_write, out, line, length);
}

ssize_t pwrite(int fd, const void *bytes, size_t count, off_t at) {
    note(fd, at, count);
    if (!getenv("DRY_WRITES") || count <= WHOLE)
        return syscall(SYS_pwrite64, fd, bytes, count, at);
    for (size_t done = 0; done < count; done += WHOLE) {
        const char *piece = (const char *)bytes + done;
        size_t length = count - done < WHOLE ? count - done : WHOLE;
        if (memcmp(piece, zeros, length) == 0) continue;
        if (syscall(SYS_pwrite64, fd, piece, length, at + done) < 0) return -1;
    }
    return (ssize_t)count;
}

ssize_t pwrite64(int fd, const void *bytes, size_t count, off_t at) {
    return pwrite(fd, bytes, count, at);
}

int fdatasync(int fd) {
    int answer = (int)syscall(SYS_fdatasync, fd);
    note(fd, 0, 0);
    return answer;
}
