/* worked.c: the worked row, every call and every refusal that needs no broken device, through lapyrei.h.
 *
 *     worked FOLDER [no_fork]
 *
 * It prints what is wrong, and its status is 1 then. */
#include "lapyrei.h"
#include <fcntl.h>
#include <inttypes.h>
#include <pthread.h>
#include <stdatomic.h>
#include <stdio.h>
#include <stdlib.h>
#include <string.h>
#include <sys/stat.h>
#include <sys/syscall.h>
#include <sys/wait.h>
#include <unistd.h>

static int bad;
#define WANT(CALL, NUMBER)                                                                       \
    do {                                                                                         \
        long long got_ = (long long)(CALL), wanted_ = (long long)(NUMBER);                       \
        if (got_ != wanted_) {                                                                   \
            bad++;                                                                               \
            printf("line %d: %s gave %lld, not %lld\n", __LINE__, #CALL, got_, wanted_);         \
        }                                                                                        \
    } while (0)

static const char *folder;
static char path[600];
static const lapyrei_shape small = {4, 2, LAPYREI_YM12, 25, 1, 3, 2, 0};
static lapyrei_head head = {0, 0, 0, 0x2000}, got;
static unsigned char frame[12], out[13];
static uint64_t n;
static lapyrei_run runs[64];
static size_t count;

static const char *at(const char *name) {
    snprintf(path, sizeof path, "%s/%s", folder, name);
    return path;
}

static int put(lapyrei it, int k) {
    for (int i = 0; i < 12; i++) frame[i] = (unsigned char)(k + i);
    head.sequence = (uint32_t)k;
    head.timestamp = 40000u * (unsigned)k;
    return lapyrei_append(it, &head, frame, 1, 12, &n);
}

static void row(lapyrei it) {
    lapyrei_shape seen;
    size_t size = 0;
    for (int k = 0; k < 2; k++) {
        WANT(put(it, k), 0);
        WANT(n, k);
    }
    WANT(lapyrei_next(it, &n), 0);
    WANT(n, 2);
    WANT(lapyrei_held(it, &n), 0);
    WANT(n, 2);
    WANT(lapyrei_held_from(it, 1, &n), 0);
    WANT(n, 1);
    WANT(lapyrei_held_from(it, 2, &n), 0);
    WANT(n == LAPYREI_NONE, 1);
    WANT(lapyrei_victim(it, &n), 0);
    WANT(n == LAPYREI_NONE, 1);
    WANT(lapyrei_room(it, &n), 0);
    WANT(n, 2);
    WANT(lapyrei_shape_of(it, &seen, &size), 0);
    WANT(size, 12);
    WANT(seen.width == 4 && seen.height == 2 && seen.format == LAPYREI_YM12 && seen.slots == 2 && seen.version == 2, 1);
    memset(out, 99, sizeof out);
    WANT(lapyrei_read(it, 1, &got, out, 12), 0);
    WANT(got.number == 1 && got.sequence == 1 && got.flags == 0x2000 && got.timestamp == 40000, 1);
    WANT(out[0] == 1 && out[11] == 12 && out[12] == 99, 1);
    memset(&got, 0, sizeof got);
    WANT(lapyrei_read_head(it, 1, &got), 0);
    WANT(got.number == 1 && got.timestamp == 40000, 1);
    WANT(lapyrei_frames_of(it, 40000, 40000, runs, 64, &count), 0);
    WANT(count == 1 && runs[0].from == 1 && runs[0].to == 1, 1);
    WANT(lapyrei_frames_of(it, 40001, UINT64_MAX, runs, 64, &count), 0);
    WANT(count, 0);
}

static void refused(lapyrei it) {
    WANT(lapyrei_read(it, 2, &got, out, 12), LAPYREI_NOT_HELD);
    WANT(lapyrei_read_head(it, 2, &got), LAPYREI_NOT_HELD);
    WANT(lapyrei_read(it, 1, &got, out, 11), LAPYREI_WRONG_SIZE);
    WANT(lapyrei_read(it, 1, &got, out, 13), LAPYREI_WRONG_SIZE);
    WANT(lapyrei_read(it, 1, NULL, out, 12), 0);
    WANT(lapyrei_read(it, 1, &got, NULL, 12), LAPYREI_BAD_CALL);
    WANT(lapyrei_read_head(it, 1, NULL), LAPYREI_BAD_CALL);
    WANT(lapyrei_append(it, &head, frame, 1, 11, &n), LAPYREI_WRONG_SIZE);
    WANT(lapyrei_append(it, &head, frame, 1, 0, &n), LAPYREI_WRONG_SIZE);
    WANT(lapyrei_append(it, &head, frame, 0, 12, &n), LAPYREI_WRONG_SIZE);
    WANT(lapyrei_append(it, &head, frame, SIZE_MAX / 4, 12, &n), LAPYREI_WRONG_SIZE);
    WANT(lapyrei_append(it, &head, NULL, 1, 12, &n), LAPYREI_BAD_CALL);
    WANT(lapyrei_append(it, NULL, frame, 1, 12, &n), LAPYREI_BAD_CALL);
    lapyrei_head heads[3] = {head, head, head};
    unsigned char three[36] = {0};
    WANT(lapyrei_append(it, heads, three, 3, 12, &n), LAPYREI_WRONG_SIZE); /* a block has 2 */
    WANT(lapyrei_append(it, &head, frame, 1, 12, NULL), 0);
    WANT(lapyrei_append(it, heads, three, 2, 12, &n), LAPYREI_WRONG_SIZE); /* and one is there */
    WANT(lapyrei_next(it, NULL), LAPYREI_BAD_CALL);
    WANT(lapyrei_room(it, NULL), LAPYREI_BAD_CALL);
    WANT(lapyrei_victim(it, NULL), LAPYREI_BAD_CALL);
    WANT(lapyrei_shape_of(it, NULL, NULL), LAPYREI_BAD_CALL);
    WANT(lapyrei_clips(it, NULL, 1, &count), LAPYREI_BAD_CALL);
    WANT(lapyrei_clips(it, runs, 64, NULL), LAPYREI_BAD_CALL);
    WANT(lapyrei_frames_of(it, 0, 1, NULL, 1, &count), LAPYREI_BAD_CALL);
}

static void clips(lapyrei it) {
    uint32_t id = 9;
    int did = 9;
    WANT(lapyrei_lock(it, 0, 1, 7, &id), 0);
    WANT(id, 0);
    WANT(lapyrei_lock(it, 2, 1, 7, &id), LAPYREI_CLIP_EMPTY);
    WANT(lapyrei_lock(it, 0, 9, 7, &id), LAPYREI_CLIP_NOT_HELD);
    WANT(lapyrei_detail(), 3);
    WANT(lapyrei_unlock(it, 5), LAPYREI_NO_SUCH_CLIP);
    WANT(lapyrei_unlock(it, UINT32_MAX), LAPYREI_NO_SUCH_CLIP);
    WANT(lapyrei_clips(it, runs, 64, &count), 0);
    WANT(count == 1 && runs[0].id == 0 && runs[0].from == 0 && runs[0].to == 1 && runs[0].tag == 7, 1);
    WANT(lapyrei_clips(it, NULL, 0, &count), 0);
    WANT(count, 1);
    WANT(lapyrei_upgrade(it, &did), 0);
    WANT(did, 0);
    /* three blocks of two: the first is locked, and then the others */
    for (int k = 3; k < 6; k++) WANT(put(it, k), 0);
    WANT(lapyrei_victim(it, &n), 0);
    WANT(n, 1);
    WANT(lapyrei_lock(it, 2, 5, 8, &id), 0);
    WANT(lapyrei_victim(it, &n), 0);
    WANT(n == LAPYREI_NONE, 1);
    WANT(put(it, 6), LAPYREI_ALL_LOCKED);
    WANT(lapyrei_unlock(it, 0), 0);
    WANT(put(it, 6), 0);
    WANT(n, 6);
    for (int i = 0; i < 63; i++) WANT(lapyrei_lock(it, 2, 2, 0, NULL), 0);
    WANT(lapyrei_lock(it, 2, 2, 0, &id), LAPYREI_CLIP_TABLE_FULL);
}

static void handles(lapyrei it, int forks) {
    lapyrei two = 7;
    WANT(lapyrei_open(path, &two), LAPYREI_BUSY);
    WANT(two, 0);
    WANT(lapyrei_next(0, &n), LAPYREI_BAD_HANDLE);
    WANT(lapyrei_next(it + 1, &n), LAPYREI_BAD_HANDLE);
    WANT(lapyrei_next(UINT64_MAX, &n), LAPYREI_BAD_HANDLE);
    WANT(lapyrei_next(it + (UINT64_C(1) << 32), &n), LAPYREI_BAD_HANDLE);
    if (forks) {
        pid_t child = fork();
        if (!child) _exit(lapyrei_next(it, &n) == LAPYREI_BAD_HANDLE && lapyrei_close(it) == LAPYREI_BAD_HANDLE ? 0 : 1);
        int status = 1;
        waitpid(child, &status, 0);
        WANT(status, 0);
    }
    WANT(lapyrei_close(it), 0);
    WANT(lapyrei_close(it), LAPYREI_BAD_HANDLE);
    WANT(put(it, 7), LAPYREI_BAD_HANDLE);
    WANT(lapyrei_open(path, &two), 0);
    WANT(two == it, 0);
    WANT(lapyrei_next(it, &n), LAPYREI_BAD_HANDLE);
    WANT(lapyrei_next(two, &n), 0);
    WANT(n, 7);
    WANT(lapyrei_close(two), 0);
    WANT(lapyrei_open_keeping(path, 3, &two), LAPYREI_BAD_KEEP);
    WANT(lapyrei_open_keeping(path, 0, &two), LAPYREI_BAD_KEEP);
    WANT(lapyrei_open_keeping(path, 2, &two), 0);
    WANT(lapyrei_close(two), 0);
}

static void paths(void) {
    lapyrei it;
    char far[5000];
    memset(far, 'a', sizeof far - 1);
    far[sizeof far - 1] = 0;
    WANT(lapyrei_open(NULL, &it), LAPYREI_BAD_CALL);
    WANT(lapyrei_open(path, NULL), LAPYREI_BAD_CALL);
    WANT(lapyrei_open("", &it), LAPYREI_BAD_CALL);
    WANT(lapyrei_open(far, &it), LAPYREI_BAD_CALL);
    WANT(lapyrei_open("/no/such/file", &it), LAPYREI_CANNOT_OPEN);
    WANT(lapyrei_detail(), 2);
    WANT(lapyrei_open("/", &it), LAPYREI_CANNOT_OPEN);
    WANT(lapyrei_open("/dev/null", &it), LAPYREI_CANNOT_OPEN);
    WANT(lapyrei_format(path, NULL, &it), LAPYREI_BAD_CALL);
    lapyrei_shape other = small;
    other.format = 4;
    WANT(lapyrei_format(path, &other, &it), LAPYREI_BAD_CALL);
    other = small, other.segments = 1;
    WANT(lapyrei_format(path, &other, &it), LAPYREI_BAD_GEOMETRY);
    other = small, other.width = other.height = UINT32_MAX;
    WANT(lapyrei_format(path, &other, &it), LAPYREI_BAD_GEOMETRY);
    other = small, other.slots = 0;
    WANT(lapyrei_format(path, &other, &it), LAPYREI_BAD_GEOMETRY);
    WANT(lapyrei_open(path, &it), 0); /* it was left alone */
    WANT(lapyrei_next(it, &n), 0);
    WANT(n, 7);
    WANT(lapyrei_close(it), 0);
    WANT(lapyrei_format(at("none/one.loop"), &small, &it), LAPYREI_CANNOT_OPEN);
    WANT(lapyrei_format(at("."), &small, &it), LAPYREI_CANNOT_OPEN);
}

/* What others do to the file of an open store gives answers. */
static void damage(void) {
    lapyrei it;
    FILE *file;
    WANT(lapyrei_open(at("one.loop"), &it), 0);
    file = fopen(path, "r+b");
    int gate = fgetc(file);
    fseek(file, 0, SEEK_SET);
    fputc(0, file);
    fflush(file);
    WANT(put(it, 7), LAPYREI_NOT_FORMATTED);
    WANT(lapyrei_next(it, &n), LAPYREI_NOT_FORMATTED);
    fseek(file, 0, SEEK_SET);
    fputc(gate, file);
    fclose(file);
    WANT(lapyrei_next(it, &n), 0);
    WANT(n, 7);
    WANT(truncate(path, 100), 0);
    WANT(lapyrei_next(it, &n), LAPYREI_DISK);
    WANT(lapyrei_detail(), 4);
    WANT(lapyrei_read(it, 6, &got, out, 12), LAPYREI_DISK);
    WANT(put(it, 7), LAPYREI_DISK);
    WANT(lapyrei_close(it), 0);
    WANT(lapyrei_open(path, &it), LAPYREI_NOT_FORMATTED);
    WANT(truncate(path, 0), 0);
    WANT(lapyrei_open(path, &it), LAPYREI_NOT_FORMATTED);
    WANT(lapyrei_format(path, &small, &it), 0); /* a file without a byte is none */
    WANT(lapyrei_close(it), 0);
    WANT(truncate(path, 3000), 0);
    WANT(lapyrei_open(path, &it), LAPYREI_DAMAGED);
    WANT(lapyrei_detail(), 1);
    lapyrei_shape old = small;
    old.version = 1;
    int did = 0;
    WANT(lapyrei_format_over(path, &old, &it), 0);
    WANT(put(it, 0), 0);
    WANT(lapyrei_lock(it, 0, 0, 5, NULL), LAPYREI_OLD_LAYOUT);
    WANT(lapyrei_upgrade(it, &did), 0);
    WANT(did, 1);
    WANT(lapyrei_lock(it, 0, 0, 5, NULL), 0);
    WANT(lapyrei_close(it), 0);
}

/* What is there stays, unless it is to be replaced. */
static void exists(void) {
    lapyrei first, it;
    char before[64] = "";
    WANT(lapyrei_format(at("there.loop"), &small, &first), 0);
    WANT(put(first, 5), 0);
    WANT(lapyrei_format(path, &small, &it), LAPYREI_BUSY); /* it is open */
    WANT(lapyrei_format_over(path, &small, &it), LAPYREI_BUSY);
    WANT(lapyrei_close(first), 0);
    WANT(lapyrei_format(path, &small, &it), LAPYREI_EXISTS);
    WANT(it, 0);
    WANT(lapyrei_open(path, &it), 0);
    WANT(lapyrei_next(it, &n), 0);
    WANT(n, 1);
    WANT(lapyrei_close(it), 0);
    FILE *file = fopen(at("notes.txt"), "w+");
    fputs("mine", file), fclose(file);
    WANT(lapyrei_format(path, &small, &it), LAPYREI_EXISTS);
    file = fopen(path, "r");
    WANT(fgets(before, sizeof before, file) && !strcmp(before, "mine"), 1);
    fclose(file);
    WANT(lapyrei_format_over(path, &small, &it), 0);
    WANT(lapyrei_next(it, &n), 0);
    WANT(n, 0);
    WANT(lapyrei_close(it), 0);
    WANT(lapyrei_format_over(at("new.loop"), &small, &it), 0);
    WANT(lapyrei_close(it), 0);
}

static lapyrei made_at(const char *name) {
    lapyrei it = 0;
    WANT(lapyrei_format(at(name), &small, &it), 0);
    WANT(put(it, 0), 0);
    return it;
}

/* The sync of a call, in which a file may be removed: it takes the place of the system's. */
static const char *_Atomic goes_in_a_sync;
int fdatasync(int file) {
    const char *name = atomic_exchange(&goes_in_a_sync, NULL);
    if (name) unlink(name);
    return (int)syscall(SYS_fdatasync, file);
}

/* Nor is it told that a call was made in whose sync the file went. */
static void moved_late(void) {
    lapyrei it = made_at("late.loop");
    goes_in_a_sync = path;
    WANT(put(it, 1), LAPYREI_MOVED);
    WANT(put(it, 2), LAPYREI_MUST_REOPEN);
    WANT(lapyrei_newest(it, &n), LAPYREI_MUST_REOPEN);
    WANT(lapyrei_close(it), 0);
    it = made_at("late.loop");
    goes_in_a_sync = path;
    WANT(lapyrei_lock(it, 0, 0, 0, NULL), LAPYREI_MOVED);
    WANT(lapyrei_close(it), 0);
}

/* A file that was removed or renamed has no call that writes: what it would store nobody would find. */
static void moved(void) {
    char other[700];
    lapyrei it = made_at("moved.loop"), two;
    snprintf(other, sizeof other, "%s/elsewhere.loop", folder);
    WANT(rename(path, other), 0);
    WANT(put(it, 1), LAPYREI_MOVED);
    WANT(lapyrei_lock(it, 0, 0, 0, NULL), LAPYREI_MOVED);
    WANT(lapyrei_unlock(it, 0), LAPYREI_MOVED);
    WANT(lapyrei_upgrade(it, NULL), LAPYREI_MOVED);
    WANT(lapyrei_read(it, 0, &got, out, 12), 0); /* what it has is there */
    WANT(lapyrei_format(path, &small, &two), 0); /* another file in its place */
    WANT(put(it, 1), LAPYREI_MOVED);
    WANT(put(two, 1), 0);
    WANT(lapyrei_close(two), 0);
    WANT(rename(other, path), 0); /* it is back, and nothing was changed meanwhile */
    WANT(lapyrei_next(it, &n), 0);
    WANT(n, 1);
    WANT(put(it, 1), 0);
    WANT(unlink(path), 0);
    WANT(put(it, 2), LAPYREI_MOVED);
    WANT(lapyrei_close(it), 0);
    it = made_at("linked.loop"); /* another name is none that its users know */
    WANT(link(path, other), 0);
    WANT(unlink(path), 0);
    WANT(put(it, 1), LAPYREI_MOVED);
    WANT(lapyrei_close(it), 0);
    WANT(unlink(other), 0);
    /* By a link to it, and by a path from the working folder, which is another one by then. */
    it = made_at("true.loop");
    WANT(lapyrei_close(it), 0);
    snprintf(other, sizeof other, "%s/way.loop", folder);
    WANT(symlink(path, other), 0);
    WANT(lapyrei_open(other, &it), 0);
    WANT(unlink(other), 0);
    WANT(put(it, 1), 0);
    WANT(lapyrei_close(it), 0);
    char *here = getcwd(NULL, 0);
    WANT(chdir(folder), 0);
    WANT(lapyrei_open("true.loop", &it), 0);
    WANT(chdir("/"), 0);
    WANT(put(it, 2), 0);
    WANT(lapyrei_close(it), 0);
    WANT(chdir(here), 0);
    free(here);
}

/* A store that is read beside the one that is open to write. */
static void read_beside(void) {
    lapyrei it = made_at("beside.loop"), reader;
    lapyrei_shape seen;
    size_t size = 0;
    WANT(lapyrei_open_read(path, &reader), 0);
    WANT(lapyrei_shape_of(reader, &seen, &size), 0);
    WANT(size == 12 && seen.slots == 2 && seen.version == 2, 1);
    WANT(lapyrei_newest(reader, &n), 0);
    WANT(n, 0);
    memset(out, 99, sizeof out);
    WANT(lapyrei_read(reader, 0, &got, out, 12), 0);
    WANT(got.number == 0 && got.flags == 0x2000 && out[0] == 0 && out[11] == 11 && out[12] == 99, 1);
    WANT(lapyrei_read(reader, 0, NULL, out, 11), LAPYREI_WRONG_SIZE);
    WANT(lapyrei_read(reader, 1, &got, out, 12), LAPYREI_NOT_HELD); /* not yet */
    WANT(lapyrei_read(reader, LAPYREI_NONE, &got, out, 12), LAPYREI_NOT_HELD);
    for (int k = 1; k < 9; k++) WANT(put(it, k), 0);
    WANT(lapyrei_newest(reader, &n), 0);
    WANT(n, 8);
    WANT(lapyrei_newest(it, &n), 0); /* also on a handle that writes */
    WANT(n, 8);
    WANT(lapyrei_read_head(reader, 8, &got), 0);
    WANT(got.number == 8 && got.timestamp == 320000 && got.sequence == 8, 1);
    WANT(lapyrei_read(reader, 0, &got, out, 12), LAPYREI_GONE); /* no more */
    WANT(lapyrei_read_head(reader, 3, &got), LAPYREI_GONE);
    WANT(lapyrei_lock(it, 6, 8, 5, NULL), 0);
    WANT(lapyrei_clips(reader, runs, 64, &count), 0);
    WANT(count == 1 && runs[0].from == 6 && runs[0].to == 8 && runs[0].tag == 5, 1);
    WANT(lapyrei_frames_of(reader, 200000, UINT64_MAX, runs, 64, &count), 0);
    WANT(count == 1 && runs[0].from == 5 && runs[0].to == 8, 1);
    WANT(lapyrei_next(reader, &n), 0);
    WANT(n, 9);
    WANT(lapyrei_held_from(reader, 0, &n), 0);
    WANT(n, 4);
    WANT(put(reader, 1), LAPYREI_READ_ONLY);
    WANT(lapyrei_lock(reader, 6, 8, 5, NULL), LAPYREI_READ_ONLY);
    WANT(lapyrei_unlock(reader, 0), LAPYREI_READ_ONLY);
    WANT(lapyrei_upgrade(reader, NULL), LAPYREI_READ_ONLY);
    WANT(lapyrei_wait(reader, 7, 0, &n), 0); /* 8 is there */
    WANT(n, 8);
    WANT(lapyrei_wait(reader, LAPYREI_NONE, 0, &n), 0);
    WANT(n, 8);
    WANT(lapyrei_wait(reader, 8, 0, &n), LAPYREI_TIMED_OUT);
    WANT(lapyrei_wait(reader, 8, 30, &n), LAPYREI_TIMED_OUT);
    WANT(lapyrei_newest(reader, NULL), LAPYREI_BAD_CALL);
    WANT(lapyrei_wait(reader, 8, 30, NULL), LAPYREI_BAD_CALL);
    WANT(lapyrei_wait(0, 8, 30, &n), LAPYREI_BAD_HANDLE);
    WANT(unlink(path), 0);
    WANT(put(it, 9), LAPYREI_MOVED);
    WANT(lapyrei_close(it), 0);
    WANT(lapyrei_newest(reader, &n), LAPYREI_MOVED);
    WANT(lapyrei_wait(reader, 8, UINT32_MAX, &n), LAPYREI_MOVED);
    WANT(lapyrei_read(reader, 8, &got, out, 12), 0);
    WANT(lapyrei_close(reader), 0);
    WANT(lapyrei_open_read(path, &reader), LAPYREI_CANNOT_OPEN);
    WANT(lapyrei_open_read("/dev/null", &reader), LAPYREI_CANNOT_OPEN);
    WANT(lapyrei_open_read(NULL, &reader), LAPYREI_BAD_CALL);
}

/* An empty store, one that is damaged, and one that is made anew while it is read. */
static void read_others(void) {
    lapyrei it, reader;
    WANT(lapyrei_format(at("bare.loop"), &small, &it), 0);
    WANT(lapyrei_open_read(path, &reader), 0);
    WANT(lapyrei_newest(reader, &n), 0);
    WANT(n == LAPYREI_NONE, 1);
    WANT(lapyrei_wait(reader, LAPYREI_NONE, 0, &n), LAPYREI_TIMED_OUT);
    WANT(put(it, 0), 0);
    WANT(lapyrei_close(it), 0);
    lapyrei_shape wide = small;
    wide.slots = 3, wide.segments = 2;
    WANT(lapyrei_format_over(path, &wide, &it), 0);
    WANT(lapyrei_newest(reader, &n), LAPYREI_DISK); /* it has another length */
    WANT(lapyrei_read(reader, 0, &got, out, 12), LAPYREI_DISK);
    WANT(lapyrei_close(reader), 0);
    WANT(lapyrei_close(it), 0);
    lapyrei_shape turned = small;
    turned.width = 2, turned.height = 4;
    WANT(lapyrei_format_over(path, &small, &it), 0);
    WANT(lapyrei_close(it), 0);
    WANT(lapyrei_open_read(path, &reader), 0);
    WANT(lapyrei_format_over(path, &turned, &it), 0);
    WANT(put(it, 0), 0);
    WANT(lapyrei_newest(reader, &n), LAPYREI_MUST_REOPEN);
    WANT(lapyrei_read(reader, 0, &got, out, 12), LAPYREI_MUST_REOPEN);
    WANT(lapyrei_clips(reader, runs, 64, &count), LAPYREI_MUST_REOPEN);
    WANT(lapyrei_close(reader), 0);
    WANT(lapyrei_close(it), 0);
    FILE *file = fopen(path, "r+b");
    fseek(file, 8, SEEK_SET), fputc(9, file), fclose(file);
    WANT(lapyrei_open_read(path, &reader), LAPYREI_DAMAGED);
    WANT(lapyrei_detail(), 2);
    WANT(truncate(path, 0), 0);
    WANT(lapyrei_open_read(path, &reader), LAPYREI_NOT_FORMATTED);
}

/* A read of a frame, in which the recorder goes on: it takes the place of the system's. */
static lapyrei goes_on_in_a_read;
ssize_t pread(int file, void *to, size_t bytes, off_t place) {
    lapyrei writer = goes_on_in_a_read;
    if (writer && bytes == 12) {
        goes_on_in_a_read = 0;
        for (int k = 20; k < 27; k++) WANT(put(writer, k), 0);
    }
    return syscall(SYS_pread64, file, to, bytes, place);
}

/* Another frame comes in its place while it is read: it is gone, and never the other one. */
static void read_over(void) {
    lapyrei it = made_at("over.loop"), reader;
    for (int k = 1; k < 6; k++) WANT(put(it, k), 0);
    WANT(lapyrei_open_read(path, &reader), 0);
    WANT(lapyrei_read(reader, 4, &got, out, 12), 0);
    WANT(out[0], 4);
    goes_on_in_a_read = it;
    WANT(lapyrei_read(reader, 4, &got, out, 12), LAPYREI_GONE);
    WANT(lapyrei_newest(reader, &n), 0);
    WANT(n, 12);
    WANT(lapyrei_close(reader), 0);
    WANT(lapyrei_close(it), 0);
}

/* Frames of one byte each, and a reader that never sees another. How many it sees whole in a number of reads, and how
 * often it meets a cut, is a matter of the machine: it goes on until it has, as long as there is hope. */
enum { PLAIN = 64 * 48, ENOUGH = 100, HOPELESS = 1000000 };
static struct {
    lapyrei it;
    atomic_int is_over, torn, whole, gone;
} film;

static void *films(void *of) {
    (void)of;
    static unsigned char bytes[PLAIN];
    lapyrei_head mine = {0};
    for (unsigned k = 0; !atomic_load(&film.is_over); k++) {
        memset(bytes, (int)(k % 251), PLAIN);
        mine.timestamp = k;
        WANT(lapyrei_append(film.it, &mine, bytes, 1, PLAIN, NULL), 0);
    }
    return NULL;
}

static void *follows(void *of) {
    lapyrei reader;
    unsigned char bytes[PLAIN];
    uint64_t newest = LAPYREI_NONE, total;
    lapyrei_run some[8];
    size_t many;
    WANT(lapyrei_open_read(of, &reader), 0);
    for (int k = 0; k < 300 || (k < HOPELESS && atomic_load(&film.whole) <= ENOUGH); k++) {
        WANT(lapyrei_wait(reader, newest, 60000, &newest), 0);
        uint64_t wanted = k % 2 || newest < 3 ? newest : newest - 3; /* as far back as may be there */
        int refusal = lapyrei_read(reader, wanted, NULL, bytes, PLAIN);
        WANT(!refusal || refusal == LAPYREI_GONE, 1);
        atomic_fetch_add(refusal ? &film.gone : &film.whole, 1);
        for (int i = 0; !refusal && i < PLAIN; i++)
            if (bytes[i] != wanted % 251) { atomic_fetch_add(&film.torn, 1); break; }
        if (k % 20 == 0) {
            refusal = lapyrei_held(reader, &total);
            WANT(refusal == LAPYREI_UNSETTLED || (!refusal && total > 0 && total <= 4), 1);
            refusal = lapyrei_frames_of(reader, 0, UINT64_MAX, some, 8, &many);
            WANT(refusal == LAPYREI_UNSETTLED || (!refusal && many >= 1), 1);
        }
    }
    WANT(lapyrei_close(reader), 0);
    return NULL;
}

static void whole_beside(void) {
    lapyrei_shape plain = {64, 48, LAPYREI_GREY, 1000, 1, 2, 2, 0};
    pthread_t writer, readers[3];
    char own[600];
    WANT(lapyrei_format(at("film.loop"), &plain, &film.it), 0);
    strcpy(own, path);
    pthread_create(&writer, NULL, films, NULL);
    for (int i = 0; i < 3; i++) pthread_create(&readers[i], NULL, follows, own);
    for (int i = 0; i < 3; i++) pthread_join(readers[i], NULL);
    atomic_store(&film.is_over, 1);
    pthread_join(writer, NULL);
    WANT(lapyrei_close(film.it), 0);
    WANT(film.torn, 0);
    WANT(film.whole > ENOUGH, 1);
}

/* A child that lives holds no lock: neither of a store that was closed, nor of one that its parent has open. */
static void forked(void) {
    lapyrei it = made_at("forked.loop");
    int ends[2];
    char word;
    WANT(pipe(ends), 0);
    pid_t child = fork();
    if (!child) {
        close(ends[1]);
        _exit(read(ends[0], &word, 1) != 0);
    }
    close(ends[0]);
    WANT(lapyrei_close(it), 0);
    WANT(lapyrei_open(path, &it), 0);
    WANT(put(it, 1), 0);
    WANT(lapyrei_close(it), 0);
    close(ends[1]);
    int status = 1;
    waitpid(child, &status, 0);
    WANT(status, 0);
}

static void *store_25(void *of) {
    lapyrei it = *(lapyrei *)of;
    unsigned char bytes[12];
    lapyrei_head mine = {0};
    uint64_t number;
    for (int i = 0; i < 25; i++) {
        memset(bytes, i, 12);
        WANT(lapyrei_append(it, &mine, bytes, 1, 12, &number), 0);
        WANT(lapyrei_read(it, number, &mine, bytes, 12), 0);
        WANT(bytes[5], i);
    }
    return NULL;
}

static void *opens_and_closes(void *of) {
    (void)of;
    char own[700];
    snprintf(own, sizeof own, "%s/own.%lx", folder, (unsigned long)pthread_self());
    for (int i = 0; i < 10; i++) {
        lapyrei it;
        uint64_t number;
        WANT(i ? lapyrei_open(own, &it) : lapyrei_format(own, &small, &it), 0);
        WANT(lapyrei_next(it, &number), 0);
        WANT(lapyrei_close(it), 0);
    }
    return NULL;
}

static void threads(void) {
    lapyrei it;
    pthread_t thread[8];
    lapyrei_shape wide = small;
    wide.segments = 8, wide.slots = 64;
    WANT(lapyrei_format(at("two.loop"), &wide, &it), 0);
    for (int i = 0; i < 8; i++) pthread_create(&thread[i], NULL, i % 2 ? store_25 : opens_and_closes, &it);
    for (int i = 0; i < 8; i++) pthread_join(thread[i], NULL);
    WANT(lapyrei_next(it, &n), 0);
    WANT(n, 100);
    WANT(lapyrei_close(it), 0);
}

/* Cuts a file and makes it whole again, at any moment, until it is told to end. */
static struct {
    unsigned char bytes[1 << 15];
    size_t size;
    atomic_int is_over;
} beside;

static void *cuts_and_mends(void *of) {
    int file = *(int *)of;
    for (size_t i = 0; !atomic_load(&beside.is_over); i++) {
        WANT(ftruncate(file, (off_t)(i * 997 % beside.size)), 0);
        usleep(i % 5 * 100);
        WANT(pwrite(file, beside.bytes, beside.size, 0), (long long)beside.size);
        usleep(i % 7 * 100);
    }
    return NULL;
}

/* A call of the kind k, on a store whose file may be cut at any moment. */
static int some_call(lapyrei it, int k) {
    switch (k % 6) {
    case 0: return lapyrei_read(it, n, &got, out, 12);
    case 1: return put(it, k);
    case 2: return lapyrei_clips(it, runs, 64, &count);
    case 3: return lapyrei_frames_of(it, 0, UINT64_MAX, runs, 64, &count);
    case 4: return lapyrei_lock(it, 0, 0, 0, NULL);
    default: return lapyrei_held(it, &n);
    }
}

/* A file that others cut while calls are made: each call answers, by 0 or the store's own refusal. */
static void cut_beside(void) {
    lapyrei it;
    pthread_t other;
    int done = 0, refusals = 0;
    WANT(lapyrei_format(at("cut.loop"), &small, &it), 0);
    for (int k = 0; k < 6; k++) WANT(put(it, k), 0);
    WANT(lapyrei_close(it), 0);
    int file = open(path, O_RDWR);
    beside.size = (size_t)pread(file, beside.bytes, sizeof beside.bytes, 0);
    WANT(beside.size > 4096 && beside.size < sizeof beside.bytes, 1);
    pthread_create(&other, NULL, cuts_and_mends, &file);
    for (int round = 0; round < 100 || (round < HOPELESS && !(done && refusals)); round++) {
        int refusal = lapyrei_open(path, &it);
        for (int k = 0; !refusal && k < 12; k++) {
            refusal = some_call(it, k);
            done += !refusal;
        }
        refusals += !!refusal;
        WANT(refusal >= 0 && refusal < LAPYREI_CANNOT_OPEN, 1);
        if (it) WANT(lapyrei_close(it), 0);
    }
    atomic_store(&beside.is_over, 1);
    pthread_join(other, NULL);
    close(file);
    WANT(done > 0, 1);
    WANT(refusals > 0, 1);
}

static void many(void) {
    lapyrei all[65];
    char name[20];
    for (int i = 0; i < 64; i++) {
        snprintf(name, sizeof name, "m%d.loop", i);
        WANT(lapyrei_format(at(name), &small, &all[i]), 0);
    }
    WANT(lapyrei_format(at("m64.loop"), &small, &all[64]), LAPYREI_TOO_MANY);
    for (int i = 0; i < 64; i++) WANT(lapyrei_close(all[i]), 0);
}

int main(int argc, char **argv) {
    lapyrei it = 0;
    if (argc < 2) return 2;
    folder = argv[1];
    WANT(lapyrei_abi(), LAPYREI_ABI);
    WANT(strcmp(lapyrei_name(LAPYREI_NOT_HELD), "NotHeld"), 0);
    WANT(strcmp(lapyrei_name(99), "Unknown"), 0);
    WANT(lapyrei_format(at("one.loop"), &small, &it), 0);
    row(it);
    refused(it);
    clips(it);
    handles(it, argc == 2);
    paths();
    damage();
    exists();
    moved();
    moved_late();
    read_beside();
    read_others();
    read_over();
    whole_beside();
    if (argc == 2) forked();
    threads();
    cut_beside();
    many();
    printf("%d wrong\n", bad);
    return bad != 0;
}
