/* lapyrei.c: what crates/lapyrei leaves to C: handles, the file and its lock.
 *
 * A call of the store is a function of the file's bytes (crates/lapyrei): it answers, and gives a log of what is to be done
 * to the file. Here its bytes are read, only as far as it asks for them, and the log is carried out, write for write and
 * sync for sync, before the call is answered. The contract of loop_overlay's LogDisk and `carry_out` says why that is right
 * at every moment; it asks for a file that is synced and that nobody else writes to. So the file is synced when it is opened,
 * and its lock is held.
 *
 * The bytes lie in memory of this process, never in a map of the file: a map ends the process where the file is cut. */
#define _GNU_SOURCE
#include "lapyrei.h"
#include <errno.h>
#include <fcntl.h>
#include <pthread.h>
#include <stdatomic.h>
#include <stdlib.h>
#include <string.h>
#include <sys/file.h>
#include <sys/mman.h>
#include <sys/stat.h>
#include <time.h>
#include <unistd.h>

/* crates/lapyrei/src/answer.rt and calls.rt. Rattle's slices are a pointer and a length, and Global takes no bytes. */
typedef struct {
    uint32_t state, refusal;
    uint64_t detail, value, log, at, count;
} answer;
typedef struct {
    uint64_t next, held, from, victim, room, group;
} known;
enum { MADE, WANTS_BYTES, WANTS_LOG };
#define FILE_AND_LOG const uint8_t *, size_t, const uint8_t *, size_t, uint8_t *, size_t
uint64_t lapyrei_rt_size(const lapyrei_shape *);
uint64_t lapyrei_rt_frame_bytes(const lapyrei_shape *);
answer lapyrei_rt_format(FILE_AND_LOG, const lapyrei_shape *);
answer lapyrei_rt_look(FILE_AND_LOG, uint32_t keep, lapyrei_shape *);
answer lapyrei_rt_known(FILE_AND_LOG, uint32_t keep, uint64_t from, known *);
answer lapyrei_rt_append(FILE_AND_LOG, uint32_t keep, const lapyrei_head *, size_t, const uint8_t *, size_t);
answer lapyrei_rt_read(FILE_AND_LOG, uint32_t keep, uint64_t number, uint8_t *, size_t, lapyrei_head *);
answer lapyrei_rt_read_head(FILE_AND_LOG, uint32_t keep, uint64_t number, lapyrei_head *);
answer lapyrei_rt_lock(FILE_AND_LOG, uint32_t keep, const lapyrei_run *);
answer lapyrei_rt_unlock(FILE_AND_LOG, uint32_t keep, uint32_t id);
answer lapyrei_rt_upgrade(FILE_AND_LOG, uint32_t keep);
answer lapyrei_rt_clips(FILE_AND_LOG, uint32_t keep, lapyrei_run *, size_t);
answer lapyrei_rt_sought(FILE_AND_LOG, uint32_t keep, uint64_t since, uint64_t until, lapyrei_run *, size_t);

enum {
    STORES = 64,
    LONGEST_PATH = 4095,
    PAGE = 4096,         /* what a mark of `present` stands for */
    FIRST_LOG = 1 << 16, /* a log's first length */
    MOST_PAGES = 1 << 15, /* pages that are kept from call to call: 128 MB */
    MOST_AHEAD = 1 << 9, /* reads that are foreseen at once */
    LARGE = 1 << 14,     /* a read of more bytes is a frame's, which isn't kept */
    TRIES = 200          /* how often a store is read again that changes meanwhile */
};
/* Places of docs/layout.md, for reads beside a recorder. */
enum { OPEN = 0xa5, SHAPE = 44, FRONT = 2560, HEADER = 512, GATES = 256, HEAD = 32, MOST_SEGMENTS = 64, MOST_SLOTS = 256 };
static const uint64_t A_SYNC = UINT64_MAX;

typedef struct {
    pthread_mutex_t lock; /* of all below but `owner` */
    _Atomic pid_t owner;  /* 0: this place is free */
    uint32_t generation, keep;
    int file, broken, unsynced, reads; /* reads: it has no lock of the file, and never writes */
    char *path;                        /* the file's own, from the root on */
    uint64_t size, pages, loaded;
    uint8_t *image, *present, *log;
    size_t log_room;
    struct stat seen; /* the file after the last call */
    uint64_t last_at, stride, ahead, large_at, large_count;
    size_t frame_bytes;
    lapyrei_shape shape;
    uint8_t top[SHAPE]; /* of a store that is only read: the superblock, but for its version */
} slot;

static slot slots[STORES] = {[0 ... STORES - 1] = {.lock = PTHREAD_MUTEX_INITIALIZER, .file = -1}};
static _Thread_local uint64_t last_detail;

static int refuse(int refusal, uint64_t detail) {
    last_detail = detail;
    return refusal;
}

/* ---- the file */

static int read_all(int file, uint8_t *to, size_t count, uint64_t at) {
    while (count) {
        ssize_t n = pread(file, to, count, (off_t)at);
        if (n < 0 && errno == EINTR) continue;
        if (n <= 0) return 0;
        to += n, at += (uint64_t)n, count -= (size_t)n;
    }
    return 1;
}

static int write_all(int file, const uint8_t *from, size_t count, uint64_t at) {
    while (count) {
        ssize_t n = pwrite(file, from, count, (off_t)at);
        if (n < 0 && errno == EINTR) continue;
        if (n <= 0) return 0;
        from += n, at += (uint64_t)n, count -= (size_t)n;
    }
    return 1;
}

static int sync_data(int file) {
    int failed;
    while ((failed = fdatasync(file)) && errno == EINTR) {}
    return !failed;
}

static int sync_all(int file) {
    int failed;
    while ((failed = fsync(file)) && errno == EINTR) {}
    return !failed;
}

static int write_zeros(int file, uint64_t from, uint64_t to) {
    static uint8_t zeros[1 << 20]; /* never written, and so no part of the file */
    for (; from < to; from += sizeof zeros)
        if (!write_all(file, zeros, to - from < sizeof zeros ? to - from : sizeof zeros, from)) return 0;
    return 1;
}

static int sync_folder(const char *path) {
    char folder[LONGEST_PATH + 1] = ".";
    const char *slash = strrchr(path, '/');
    if (slash) {
        size_t length = slash == path ? 1 : (size_t)(slash - path);
        memcpy(folder, path, length);
        folder[length] = 0;
    }
    int file = open(folder, O_RDONLY | O_DIRECTORY | O_CLOEXEC);
    int done = file >= 0 && sync_all(file);
    if (file >= 0) close(file);
    return done;
}

/* So many bytes of zero, each written, as loop_file makes them: the first byte is 0 on the disk before anything else changes,
 * so a stop leaves what the file was, or a file that is no store. Where there is no room it becomes what it was. */
static int make_zeros(int file, const char *path, uint64_t size) {
    struct stat was;
    uint8_t first = 0, zero = 0;
    if (fstat(file, &was) || !sync_folder(path)) return 0;
    uint64_t kept = (uint64_t)was.st_size;
    if (kept && !read_all(file, &first, 1, 0)) return 0;
    if (first && !(write_all(file, &zero, 1, 0) && sync_data(file))) {
        int why = errno;
        if (write_all(file, &first, 1, 0)) sync_data(file);
        errno = why;
        return 0;
    }
    if (size > kept && !(!ftruncate(file, (off_t)size) && write_zeros(file, kept, size) && sync_all(file))) {
        int why = errno;
        if (!ftruncate(file, (off_t)kept) && sync_all(file) && first && write_all(file, &first, 1, 0)) sync_data(file);
        errno = why;
        return 0;
    }
    if (size < kept && ftruncate(file, (off_t)size)) return 0;
    return !kept || (write_zeros(file, 0, kept < size ? kept : size) && sync_all(file));
}

/* ---- the bytes that are there */

static void forget_pages(slot *it, uint64_t from, uint64_t to) {
    for (uint64_t page = from; page < to; page++) {
        it->loaded -= it->present[page];
        it->present[page] = 0;
    }
    madvise(it->image + from * PAGE, (to - from) * PAGE, MADV_DONTNEED);
}

static int load_part(slot *it, uint64_t at, uint64_t count) {
    uint64_t page = at / PAGE, end = (at + count + PAGE - 1) / PAGE;
    while (page < end) {
        uint64_t to = page;
        while (to < end && !it->present[to]) to++;
        uint64_t stop = to * PAGE < it->size ? to * PAGE : it->size;
        if (to > page && !read_all(it->file, it->image + page * PAGE, stop - page * PAGE, page * PAGE)) return 0;
        memset(it->present + page, 1, to - page);
        it->loaded += to - page;
        page = to + 1;
    }
    return 1;
}

/* Loads what a call asked for. Where its reads go on by one stride, as they do over the heads of a store's frames, it also
 * loads what comes next: more each time, and from the next segment's first frame on too. */
static int load(slot *it, uint64_t at, uint64_t count) {
    if (at > it->size || count > it->size - at || !load_part(it, at, count)) return 0;
    if (count > LARGE) {
        it->large_at = at, it->large_count = count;
        return 1;
    }
    if (at - it->last_at == it->stride || it->ahead >= 8) it->ahead = it->ahead < MOST_AHEAD ? it->ahead * 2 + 1 : MOST_AHEAD;
    else it->stride = at - it->last_at, it->ahead = 0;
    it->last_at = at;
    for (uint64_t i = 1; i <= it->ahead; i++) {
        uint64_t next = at + i * it->stride;
        if (next >= it->size || count > it->size - next || !load_part(it, next, count)) break;
        it->last_at = next;
    }
    return 1;
}

/* The bytes that were written, in pages that are there. */
static void show_write(slot *it, uint64_t at, uint64_t count, const uint8_t *bytes) {
    for (uint64_t done = 0; done < count;) {
        uint64_t place = at + done, part = PAGE - place % PAGE;
        if (part > count - done) part = count - done;
        if (it->present[place / PAGE]) memcpy(it->image + place, bytes + done, part);
        done += part;
    }
}

/* ---- calls */

/* Does to the file what the log says, in its order, until something fails; answers 0, or 2 for a write and 3 for a sync. */
static int carry_out(slot *it, uint64_t length) {
    for (uint64_t p = 0; p < length;) {
        uint64_t at, count;
        memcpy(&at, it->log + p, 8);
        memcpy(&count, it->log + p + 8, 8);
        p += 16;
        if (at == A_SYNC) {
            /* Nothing was written since the last sync: there is nothing to do. */
            if (it->unsynced && !sync_data(it->file)) return 3;
            it->unsynced = 0;
            continue;
        }
        it->unsynced = 1;
        if (!write_all(it->file, it->log + p, count, at)) return 2;
        show_write(it, at, count, it->log + p);
        p += count;
    }
    return it->unsynced && !sync_data(it->file) ? 3 : (it->unsynced = 0);
}

/* Before a call: whether the file has its length. If others changed it, its bytes are read anew. */
static int is_whole(slot *it) {
    struct stat now;
    if (fstat(it->file, &now) || (uint64_t)now.st_size != it->size) return 0;
    if (memcmp(&now.st_mtim, &it->seen.st_mtim, sizeof now.st_mtim) || memcmp(&now.st_ctim, &it->seen.st_ctim, sizeof now.st_ctim))
        forget_pages(it, 0, it->pages);
    it->seen = now;
    return 1;
}

/* After one: what isn't kept is given back. */
static int stays_whole(slot *it) {
    if (it->large_count) forget_pages(it, it->large_at / PAGE, (it->large_at + it->large_count + PAGE - 1) / PAGE);
    if (it->loaded > MOST_PAGES) forget_pages(it, 0, it->pages);
    it->large_count = it->last_at = it->stride = it->ahead = 0;
    if (it->log_room > 8 << 20) madvise(it->log, it->log_room, MADV_DONTNEED);
    return !fstat(it->file, &it->seen) && (uint64_t)it->seen.st_size == it->size;
}

/* A log of at least so many bytes. */
static int longer_log(slot *it, uint64_t needed) {
    size_t room = it->log ? it->log_room * 4 : FIRST_LOG;
    if (needed > SIZE_MAX / 2) return 0;
    if (room < needed) room = needed;
    uint8_t *log = mmap(NULL, room, PROT_READ | PROT_WRITE, MAP_PRIVATE | MAP_ANONYMOUS | MAP_NORESERVE, -1, 0);
    if (log == MAP_FAILED) return 0;
    if (it->log) munmap(it->log, it->log_room);
    it->log = log, it->log_room = room;
    return 1;
}

/* What one kind of call needs besides the store. */
typedef struct {
    lapyrei_shape *shape;
    const lapyrei_shape *made;
    known *known;
    const lapyrei_head *heads;
    lapyrei_head *head;
    const uint8_t *bytes;
    uint8_t *out;
    lapyrei_run *runs;
    lapyrei_run clip;
    uint64_t number, since, until;
    size_t count, length;
    uint32_t id;
} asked;
#define IT it->image, it->size, it->present, it->pages, it->log, it->log_room
typedef answer maker(slot *it, asked *a);
static answer make_format(slot *it, asked *a) { return lapyrei_rt_format(IT, a->made); }
static answer make_look(slot *it, asked *a) { return lapyrei_rt_look(IT, it->keep, a->shape); }
static answer make_known(slot *it, asked *a) { return lapyrei_rt_known(IT, it->keep, a->number, a->known); }
static answer make_append(slot *it, asked *a) { return lapyrei_rt_append(IT, it->keep, a->heads, a->count, a->bytes, a->count * a->length); }
static answer make_read(slot *it, asked *a) { return lapyrei_rt_read(IT, it->keep, a->number, a->out, a->length, a->head); }
static answer make_read_head(slot *it, asked *a) { return lapyrei_rt_read_head(IT, it->keep, a->number, a->head); }
static answer make_lock(slot *it, asked *a) { return lapyrei_rt_lock(IT, it->keep, &a->clip); }
static answer make_unlock(slot *it, asked *a) { return lapyrei_rt_unlock(IT, it->keep, a->id); }
static answer make_upgrade(slot *it, asked *a) { (void)a; return lapyrei_rt_upgrade(IT, it->keep); }
static answer make_clips(slot *it, asked *a) { return lapyrei_rt_clips(IT, it->keep, a->runs, a->count); }
static answer make_sought(slot *it, asked *a) { return lapyrei_rt_sought(IT, it->keep, a->since, a->until, a->runs, a->count); }

/* Asks as often as it needs other bytes or a longer log: an answer, or what is refused. */
static int ask(slot *it, maker *call, asked *a, answer *told) {
    for (;;) {
        *told = call(it, a);
        if (told->state == MADE) return 0;
        if (told->state == WANTS_BYTES && !load(it, told->at, told->count)) return refuse(LAPYREI_DISK, 1);
        if (told->state == WANTS_LOG && !longer_log(it, told->count)) return refuse(LAPYREI_NO_MEMORY, 0);
    }
}

/* Whether the file is where its users look for it. */
static int is_there(slot *it) {
    struct stat is, there;
    return !fstat(it->file, &is) && is.st_nlink && !stat(it->path, &there) && there.st_ino == is.st_ino && there.st_dev == is.st_dev;
}

static int writes(maker *call) {
    return call == make_append || call == make_lock || call == make_unlock || call == make_upgrade;
}

static int make_beside(slot *it, maker *call, asked *a, uint64_t *value);

/* Makes a call, and carries its log out. One that writes isn't begun where the file was removed or renamed, and isn't told as
 * made where that came before its last sync: nobody would find what it stored. */
static int make(slot *it, maker *call, asked *a, uint64_t *value) {
    answer told;
    if (it->reads) return writes(call) ? refuse(LAPYREI_READ_ONLY, 0) : make_beside(it, call, a, value);
    if (it->broken) return refuse(LAPYREI_MUST_REOPEN, 0);
    if (!is_whole(it)) return refuse(LAPYREI_DISK, 4);
    if (writes(call) && !is_there(it)) return refuse(LAPYREI_MOVED, 0);
    int refusal = ask(it, call, a, &told);
    if (refusal) return refusal;
    int failed = carry_out(it, told.log);
    if (!stays_whole(it) && !failed) failed = 4;
    if (failed) {
        it->broken = 1;
        return refuse(LAPYREI_DISK, (uint64_t)failed);
    }
    if (writes(call) && told.log && !is_there(it)) {
        it->broken = 1;
        return refuse(LAPYREI_MOVED, 0);
    }
    if (value && !told.refusal) *value = told.value;
    return refuse((int)told.refusal, told.detail);
}

/* ---- reads beside a recorder
 *
 * The recorder writes to a block's slots only while its gates are closed, so what stands around a frame's bytes before and
 * after they were read says whether they are that frame's. A call of the proved code is made over bytes of one moment: the
 * segments' headers as they were when it began, and frames that were whole then. They are, if each segment has the same block
 * at the end. Its log is what an opening would clear, and is left. */

static uint32_t word_at(const uint8_t *bytes) {
    uint32_t word;
    memcpy(&word, bytes, 4);
    return word;
}
static uint64_t block_of(const uint8_t *header) {
    uint64_t block;
    memcpy(&block, header + 8, 8);
    return block;
}
/* By the superblock: segments, slots of one, and the bytes of a frame. */
static uint32_t segments_in(const uint8_t *top) { return word_at(top + 32) <= MOST_SEGMENTS ? word_at(top + 32) : 0; }
static uint32_t slots_in(const uint8_t *top) { return word_at(top + 36) <= MOST_SLOTS ? word_at(top + 36) : 0; }
static uint64_t segment_at(const uint8_t *top, uint64_t index) {
    return FRONT + index * (HEADER + slots_in(top) * (HEAD + (uint64_t)word_at(top + 40)));
}
static uint64_t slot_at(const uint8_t *top, uint64_t index, uint64_t slot) {
    return segment_at(top, index) + HEADER + slot * (HEAD + (uint64_t)word_at(top + 40));
}
/* How many frames of an open segment are whole. */
static uint32_t whole_in(const uint8_t *header, uint32_t slots) {
    uint32_t count = 0;
    while (header[0] == OPEN && count < slots && header[GATES + count] == OPEN) count++;
    return count;
}

/* Whether it is still the store that was opened; else what is refused. */
static int is_same(slot *it) {
    struct stat now;
    uint8_t top[SHAPE];
    if (fstat(it->file, &now) || (uint64_t)now.st_size != it->size) return refuse(LAPYREI_DISK, 4);
    if (!read_all(it->file, top, SHAPE, 0)) return refuse(LAPYREI_DISK, 1);
    return memcmp(top, it->top, SHAPE) ? refuse(LAPYREI_MUST_REOPEN, 0) : 0;
}

/* Whether bytes of the file are in memory. */
static int is_present(const slot *it, uint64_t at, uint64_t count) {
    for (uint64_t page = at / PAGE; page <= (at + count - 1) / PAGE; page++)
        if (!it->present[page]) return 0;
    return 1;
}

static void forget_bytes(slot *it, uint64_t from, uint64_t to) {
    uint64_t end = (to + PAGE - 1) / PAGE;
    forget_pages(it, from / PAGE, end < it->pages ? end : it->pages);
}

/* Reads the headers anew, and forgets what others may have changed since. */
static int renew(slot *it) {
    uint8_t now[HEADER];
    uint32_t slots = slots_in(it->top), segments = segments_in(it->top);
    for (uint32_t i = 0; i < segments; i++) {
        uint64_t at = segment_at(it->top, i), end = segment_at(it->top, i + 1);
        if (end > it->size) return 1; /* no store, as the call will say */
        const uint8_t *old = it->image + at;
        if (!is_present(it, at, HEADER)) { forget_bytes(it, at, end); continue; }
        if (!read_all(it->file, now, HEADER, at)) return 0;
        uint32_t kept = whole_in(old, slots);
        if (old[0] != now[0] || block_of(old) != block_of(now) || kept > whole_in(now, slots)) forget_bytes(it, at, end);
        else if (kept < slots) forget_bytes(it, slot_at(it->top, i, kept), end);
        forget_bytes(it, at, at + HEADER);
    }
    forget_bytes(it, 0, FRONT);
    if (it->size < FRONT || !load_part(it, 0, FRONT)) return it->size < FRONT;
    for (uint32_t i = 0; i < segments; i++)
        if (!load_part(it, segment_at(it->top, i), HEADER)) return 0;
    return 1;
}

/* Whether each segment still has its block, and the superblock and the clips are the same; `all`: each byte of the headers. */
static int stayed(slot *it, int all) {
    uint8_t now[FRONT];
    if (it->size < FRONT) return 1;
    if (!read_all(it->file, now, FRONT, 0) || memcmp(now, it->image, FRONT)) return 0;
    for (uint32_t i = 0; i < segments_in(it->top); i++) {
        uint64_t at = segment_at(it->top, i);
        if (segment_at(it->top, i + 1) > it->size) return 1;
        if (!read_all(it->file, now, HEADER, at) || memcmp(now, it->image + at, all ? HEADER : 16)) return 0;
    }
    return 1;
}

static void sleep_micros(uint64_t micros) {
    struct timespec time = {(time_t)(micros / 1000000), (long)(micros % 1000000 * 1000)};
    nanosleep(&time, NULL);
}

static int make_beside(slot *it, maker *call, asked *a, uint64_t *value) {
    answer told;
    for (int tries = 0; tries < TRIES; tries++) {
        int refusal = is_same(it);
        if (refusal) return refusal;
        if (!renew(it)) return refuse(LAPYREI_DISK, 1);
        refusal = ask(it, call, a, &told);
        if (refusal) return refusal;
        it->large_count = it->last_at = it->stride = it->ahead = 0;
        int is_settled = stayed(it, told.refusal == LAPYREI_NOT_FORMATTED || told.refusal == LAPYREI_DAMAGED);
        if (it->loaded > MOST_PAGES) forget_pages(it, 0, it->pages);
        if (is_settled) {
            if (value && !told.refusal) *value = told.value;
            return refuse((int)told.refusal, told.detail);
        }
        sleep_micros(2000);
    }
    return refuse(LAPYREI_UNSETTLED, 0);
}

/* The number of the newest frame; LAPYREI_NONE where there is none. */
static int newest(slot *it, uint64_t *number) {
    uint8_t header[HEADER], again[16];
    uint32_t slots = slots_in(it->top);
    for (int tries = 0; tries < TRIES; tries++) {
        uint64_t next = 0, place = 0, held = LAPYREI_NONE;
        int refusal = is_same(it);
        if (refusal) return refusal;
        for (uint32_t i = 0; i < segments_in(it->top); i++) {
            if (!read_all(it->file, header, HEADER, segment_at(it->top, i))) return refuse(LAPYREI_DISK, 1);
            uint32_t whole = whole_in(header, slots);
            if (whole && block_of(header) * slots + whole > next) {
                next = block_of(header) * slots + whole, place = i, held = next - 1;
                memcpy(again, header, 16);
            }
        }
        if (held != LAPYREI_NONE && !read_all(it->file, header, 16, segment_at(it->top, place))) return refuse(LAPYREI_DISK, 1);
        if (held == LAPYREI_NONE || !memcmp(header, again, 16)) {
            *number = held;
            return refuse(0, 0);
        }
    }
    return refuse(LAPYREI_UNSETTLED, 0);
}

/* What says that a slot has a frame: its segment's header, and its own head. Answers the segment's place, or -1. */
static int look(slot *it, uint64_t number, uint8_t *header, uint8_t *head) {
    uint32_t slots = slots_in(it->top);
    uint64_t found;
    for (uint32_t i = 0; i < segments_in(it->top); i++) {
        if (!read_all(it->file, header, 16, segment_at(it->top, i)) || header[0] != OPEN || block_of(header) != number / slots) continue;
        if (!read_all(it->file, header, HEADER, segment_at(it->top, i)) || block_of(header) != number / slots) continue;
        if (whole_in(header, slots) <= number % slots || !read_all(it->file, head, HEAD, slot_at(it->top, i, number % slots))) continue;
        memcpy(&found, head, 8);
        if (found == number && word_at(head + 24) == word_at(it->top + 40)) return (int)i;
    }
    return -1;
}

/* A frame, whole, or LAPYREI_GONE. A null pointer takes its head alone. */
static int read_whole(slot *it, uint64_t number, lapyrei_head *out, uint8_t *frame, size_t length) {
    uint8_t before[HEADER], after[HEADER], head[HEAD], again[HEAD];
    if (frame && length != it->frame_bytes) return refuse(LAPYREI_WRONG_SIZE, 0);
    int refusal = is_same(it);
    if (refusal) return refusal;
    int place = look(it, number, before, head);
    if (place >= 0 && frame && !read_all(it->file, frame, length, slot_at(it->top, (uint64_t)place, number % slots_in(it->top)) + HEAD))
        return refuse(LAPYREI_DISK, 1);
    refusal = is_same(it);
    if (refusal) return refusal;
    if (place < 0 || look(it, number, after, again) != place || memcmp(before, after, GATES) || memcmp(head, again, HEAD)) {
        uint64_t last = LAPYREI_NONE;
        refusal = newest(it, &last);
        if (refusal) return refusal;
        return refuse(last == LAPYREI_NONE || number > last ? LAPYREI_NOT_HELD : LAPYREI_GONE, 0);
    }
    out->number = number, out->sequence = word_at(head + 8), out->flags = word_at(head + 12);
    memcpy(&out->timestamp, head + 16, 8);
    return refuse(0, 0);
}

/* ---- handles */

/* The place of a handle, locked; null where it isn't open here. */
static slot *held(lapyrei store) {
    uint32_t place = (uint32_t)store;
    last_detail = 0;
    if (!place || place > STORES) return NULL;
    slot *it = &slots[place - 1];
    /* Before the lock: in a forked child a thread that is gone may have it. */
    if (atomic_load(&it->owner) != getpid()) return NULL;
    pthread_mutex_lock(&it->lock);
    if (atomic_load(&it->owner) == getpid() && it->generation == (uint32_t)(store >> 32)) return it;
    pthread_mutex_unlock(&it->lock);
    return NULL;
}

static int leave(slot *it, int refusal) {
    pthread_mutex_unlock(&it->lock);
    return refusal;
}

/* A place that is free, locked. */
static slot *free_place(void) {
    for (int i = 0; i < STORES; i++) {
        if (atomic_load(&slots[i].owner) || pthread_mutex_trylock(&slots[i].lock)) continue;
        if (!atomic_load(&slots[i].owner)) return &slots[i];
        pthread_mutex_unlock(&slots[i].lock);
    }
    return NULL;
}

static void give_back(slot *it) {
    if (it->image) munmap(it->image, it->pages * PAGE);
    if (it->present) munmap(it->present, it->pages);
    if (it->log) munmap(it->log, it->log_room);
    it->image = it->present = it->log = NULL;
    free(it->path);
    it->path = NULL;
    int file = it->file;
    it->file = -1;
    if (file < 0) return;
    /* The lock is the opening's: a child that was forked meanwhile has it too. */
    if (!it->reads) flock(file, LOCK_UN);
    close(file);
}

/* In a child that was forked: the stores are its parent's, which the lock is to end with. */
static void leave_files(void) {
    for (int i = 0; i < STORES; i++) {
        int file = slots[i].file;
        slots[i].file = -1;
        if (file >= 0) close(file);
    }
}
static void at_forks(void) { pthread_atfork(NULL, NULL, leave_files); }

static uint8_t *memory(uint64_t length) {
    void *at = length > SIZE_MAX / 2 ? MAP_FAILED : mmap(NULL, length, PROT_READ | PROT_WRITE, MAP_PRIVATE | MAP_ANONYMOUS | MAP_NORESERVE, -1, 0);
    return at == MAP_FAILED ? NULL : at;
}

/* Opens a file above the standard streams: for this process alone, or to read beside others. */
static int take_file(const char *path, int makes, int reads, int *made, int *refusal) {
    int how = (reads ? O_RDONLY : O_RDWR) | O_CLOEXEC | O_NOCTTY | O_NONBLOCK, file = -1;
    *made = 0;
    if (makes && (file = open(path, how | O_CREAT | O_EXCL, 0666)) >= 0) *made = 1;
    if (file < 0 && (!makes || errno == EEXIST)) file = open(path, how);
    if (file < 0 && makes && errno == ENOENT) file = open(path, how | O_CREAT, 0666); /* a link to a file that isn't there */
    if (file >= 0 && file < 3) {
        int higher = fcntl(file, F_DUPFD_CLOEXEC, 3), why = errno;
        close(file);
        file = higher, errno = why;
    }
    struct stat is, there;
    *refusal = 0;
    if (file < 0 || fstat(file, &is)) *refusal = refuse(LAPYREI_CANNOT_OPEN, (uint64_t)errno);
    else if (!S_ISREG(is.st_mode)) *refusal = refuse(LAPYREI_CANNOT_OPEN, 0);
    else if (!reads && flock(file, LOCK_EX | LOCK_NB)) *refusal = errno == EWOULDBLOCK ? refuse(LAPYREI_BUSY, 0) : refuse(LAPYREI_CANNOT_OPEN, (uint64_t)errno);
    /* Meanwhile the file may have been removed, or another put in its place. */
    else if (stat(path, &there) || there.st_ino != is.st_ino || there.st_dev != is.st_dev) *refusal = refuse(LAPYREI_BUSY, 0);
    if (*refusal && file >= 0) close(file);
    return *refusal ? -1 : file;
}

/* Gets the memory for a file's bytes, and calls the store for the first time. */
static int begin(slot *it, uint64_t size, const lapyrei_shape *made) {
    it->size = size, it->pages = (size + PAGE - 1) / PAGE;
    it->loaded = it->last_at = it->stride = it->ahead = it->large_count = 0;
    it->broken = 0, it->unsynced = 0;
    memset(&it->seen, 0, sizeof it->seen);
    if (!size) return refuse(LAPYREI_NOT_FORMATTED, 0);
    it->image = memory(it->pages * PAGE), it->present = memory(it->pages);
    if (!it->image || !it->present || !longer_log(it, 0)) return refuse(LAPYREI_NO_MEMORY, 0);
    if (it->reads && size < SHAPE) return refuse(LAPYREI_NOT_FORMATTED, 0);
    if (it->reads && !read_all(it->file, it->top, SHAPE, 0)) return refuse(LAPYREI_DISK, 1);
    if (!it->reads && !sync_data(it->file)) return refuse(LAPYREI_DISK, 3);
    asked a = {.made = made, .shape = &it->shape};
    int refusal = made ? make(it, make_format, &a, NULL) : 0;
    if (!refusal) refusal = make(it, make_look, &a, NULL);
    if (!refusal) it->frame_bytes = lapyrei_rt_frame_bytes(&it->shape);
    if (!refusal && !it->reads && !read_all(it->file, it->top, SHAPE, 0)) refusal = refuse(LAPYREI_DISK, 1);
    return refusal;
}

/* How a store is opened: to write or only to read, with a newest part that stays, over what is there. */
typedef struct {
    int reads, replaces;
    uint32_t keep;
} way;

static int start(const char *path, const lapyrei_shape *made, way how, lapyrei *store) {
    static pthread_once_t once = PTHREAD_ONCE_INIT;
    pthread_once(&once, at_forks);
    if (store) *store = 0;
    if (!path || !store || !*path || strnlen(path, LONGEST_PATH + 1) > LONGEST_PATH) return refuse(LAPYREI_BAD_CALL, 0);
    if (made && made->format > LAPYREI_YM24) return refuse(LAPYREI_BAD_CALL, 0);
    uint64_t size = made ? lapyrei_rt_size(made) : 0;
    if (made && !size) return refuse(LAPYREI_BAD_GEOMETRY, 0);
    slot *it = free_place();
    if (!it) return refuse(LAPYREI_TOO_MANY, 0);
    int refusal, is_new;
    struct stat is;
    it->image = it->present = it->log = NULL;
    it->keep = how.keep, it->reads = how.reads;
    memset(it->top, 0, SHAPE);
    it->file = take_file(path, !!made, how.reads, &is_new, &refusal);
    if (it->file < 0) return leave(it, refusal);
    if (!(it->path = realpath(path, NULL))) refusal = errno == ENOMEM ? refuse(LAPYREI_NO_MEMORY, 0) : refuse(LAPYREI_CANNOT_OPEN, (uint64_t)errno);
    if (!refusal && made && !how.replaces && (fstat(it->file, &is) || is.st_size)) refusal = refuse(LAPYREI_EXISTS, 0);
    if (!refusal && made && !make_zeros(it->file, path, size)) refusal = refuse(LAPYREI_CANNOT_MAKE, (uint64_t)errno);
    if (!refusal && fstat(it->file, &is)) refusal = refuse(LAPYREI_CANNOT_OPEN, (uint64_t)errno);
    if (!refusal) refusal = begin(it, (uint64_t)is.st_size, made);
    if (refusal) {
        if (is_new) unlink(path);
        give_back(it);
        return leave(it, refusal);
    }
    if (!++it->generation) it->generation = 1;
    *store = (uint64_t)it->generation << 32 | (uint64_t)(it - slots + 1);
    atomic_store(&it->owner, getpid());
    return leave(it, refuse(0, 0));
}

/* ---- what lapyrei.h names */

uint32_t lapyrei_abi(void) { return LAPYREI_ABI; }
uint64_t lapyrei_detail(void) { return last_detail; }

int lapyrei_format(const char *path, const lapyrei_shape *shape, lapyrei *store) {
    if (shape) return start(path, shape, (way){.keep = 1}, store);
    if (store) *store = 0;
    return refuse(LAPYREI_BAD_CALL, 0);
}
int lapyrei_format_over(const char *path, const lapyrei_shape *shape, lapyrei *store) {
    if (shape) return start(path, shape, (way){.keep = 1, .replaces = 1}, store);
    if (store) *store = 0;
    return refuse(LAPYREI_BAD_CALL, 0);
}
int lapyrei_open(const char *path, lapyrei *store) { return start(path, NULL, (way){.keep = 1}, store); }
int lapyrei_open_keeping(const char *path, uint32_t keep, lapyrei *store) { return start(path, NULL, (way){.keep = keep}, store); }
int lapyrei_open_read(const char *path, lapyrei *store) { return start(path, NULL, (way){.keep = 1, .reads = 1}, store); }

int lapyrei_close(lapyrei store) {
    slot *it = held(store);
    if (!it) return LAPYREI_BAD_HANDLE;
    give_back(it);
    atomic_store(&it->owner, 0);
    return leave(it, 0);
}

/* A call on a handle: what it answers, and its value. */
static int call(lapyrei store, maker *one, asked *a, uint64_t *value) {
    slot *it = held(store);
    return it ? leave(it, make(it, one, a, value)) : LAPYREI_BAD_HANDLE;
}

static int knows(lapyrei store, uint64_t from, known *found) {
    known got;
    int refusal = call(store, make_known, &(asked){.number = from, .known = &got}, NULL);
    if (!refusal) *found = got;
    return refusal;
}

int lapyrei_shape_of(lapyrei store, lapyrei_shape *shape, size_t *frame_bytes) {
    if (!shape) return refuse(LAPYREI_BAD_CALL, 0);
    lapyrei_shape got;
    int refusal = call(store, make_look, &(asked){.shape = &got}, NULL);
    if (refusal) return refusal;
    *shape = got;
    if (frame_bytes) *frame_bytes = lapyrei_rt_frame_bytes(&got);
    return 0;
}
#define KNOWN(NAME, FROM, VALUE)                          \
    {                                                     \
        known got;                                        \
        if (!NAME) return refuse(LAPYREI_BAD_CALL, 0);    \
        int refusal = knows(store, FROM, &got);           \
        if (!refusal) *NAME = VALUE;                      \
        return refusal;                                   \
    }
int lapyrei_next(lapyrei store, uint64_t *number) KNOWN(number, 0, got.next)
int lapyrei_held(lapyrei store, uint64_t *count) KNOWN(count, 0, got.held)
int lapyrei_held_from(lapyrei store, uint64_t from, uint64_t *number) KNOWN(number, from, got.from)
int lapyrei_victim(lapyrei store, uint64_t *block) KNOWN(block, 0, got.victim)
int lapyrei_room(lapyrei store, uint64_t *frames) KNOWN(frames, 0, got.room < got.group ? got.room : got.group)

int lapyrei_newest(lapyrei store, uint64_t *number) {
    if (!number) return refuse(LAPYREI_BAD_CALL, 0);
    slot *it = held(store);
    if (!it) return LAPYREI_BAD_HANDLE;
    if (it->broken) return leave(it, refuse(LAPYREI_MUST_REOPEN, 0));
    return leave(it, is_there(it) ? newest(it, number) : refuse(LAPYREI_MOVED, 0));
}

static uint64_t micros_now(void) {
    struct timespec now;
    clock_gettime(CLOCK_MONOTONIC, &now);
    return (uint64_t)now.tv_sec * 1000000 + (uint64_t)now.tv_nsec / 1000;
}

/* An eighth of a frame's time, and 0.2 to 5 ms: between two looks the handle is free. */
static uint64_t pause_of(const slot *it) {
    uint64_t eighth = it->shape.rate_num ? 125000ull * it->shape.rate_den / it->shape.rate_num : 5000;
    return eighth < 200 ? 200 : eighth > 5000 ? 5000 : eighth;
}

int lapyrei_wait(lapyrei store, uint64_t after, uint32_t milliseconds, uint64_t *number) {
    if (!number) return refuse(LAPYREI_BAD_CALL, 0);
    uint64_t end = micros_now() + milliseconds * 1000ull, found;
    for (;;) {
        slot *it = held(store);
        if (!it) return LAPYREI_BAD_HANDLE;
        int refusal = it->broken ? refuse(LAPYREI_MUST_REOPEN, 0) : is_there(it) ? newest(it, &found) : refuse(LAPYREI_MOVED, 0);
        uint64_t pause = pause_of(it), now = micros_now();
        leave(it, 0);
        if (refusal) return refusal;
        if (found != LAPYREI_NONE && (after == LAPYREI_NONE || found > after)) {
            *number = found;
            return 0;
        }
        if (milliseconds != UINT32_MAX && now >= end) return refuse(LAPYREI_TIMED_OUT, 0);
        sleep_micros(milliseconds != UINT32_MAX && end - now < pause ? end - now : pause);
    }
}

int lapyrei_append(lapyrei store, const lapyrei_head *heads, const void *frames, size_t count, size_t length, uint64_t *first) {
    if (!heads || !frames) return refuse(LAPYREI_BAD_CALL, 0);
    slot *it = held(store);
    if (!it) return LAPYREI_BAD_HANDLE;
    if (it->reads) return leave(it, refuse(LAPYREI_READ_ONLY, 0));
    if (it->broken) return leave(it, refuse(LAPYREI_MUST_REOPEN, 0));
    if (!count || length != it->frame_bytes || count > SIZE_MAX / 2 / length) return leave(it, refuse(LAPYREI_WRONG_SIZE, 0));
    return leave(it, make(it, make_append, &(asked){.heads = heads, .bytes = frames, .count = count, .length = length}, first));
}

int lapyrei_read(lapyrei store, uint64_t number, lapyrei_head *head, void *frame, size_t length) {
    if (!frame) return refuse(LAPYREI_BAD_CALL, 0);
    lapyrei_head got;
    slot *it = held(store);
    if (!it) return LAPYREI_BAD_HANDLE;
    asked a = {.number = number, .out = frame, .length = length, .head = &got};
    int refusal = leave(it, it->reads ? read_whole(it, number, &got, frame, length) : make(it, make_read, &a, NULL));
    if (!refusal && head) *head = got;
    return refusal;
}

int lapyrei_read_head(lapyrei store, uint64_t number, lapyrei_head *head) {
    if (!head) return refuse(LAPYREI_BAD_CALL, 0);
    lapyrei_head got;
    slot *it = held(store);
    if (!it) return LAPYREI_BAD_HANDLE;
    asked a = {.number = number, .head = &got};
    int refusal = leave(it, it->reads ? read_whole(it, number, &got, NULL, 0) : make(it, make_read_head, &a, NULL));
    if (!refusal) *head = got;
    return refusal;
}

int lapyrei_lock(lapyrei store, uint64_t from, uint64_t to, uint64_t tag, uint32_t *id) {
    uint64_t got = 0;
    int refusal = call(store, make_lock, &(asked){.clip = {0, from, to, tag}}, &got);
    if (!refusal && id) *id = (uint32_t)got;
    return refusal;
}
int lapyrei_unlock(lapyrei store, uint32_t id) { return call(store, make_unlock, &(asked){.id = id}, NULL); }
int lapyrei_upgrade(lapyrei store, int *did) {
    uint64_t got = 0;
    int refusal = call(store, make_upgrade, &(asked){0}, &got);
    if (!refusal && did) *did = (int)got;
    return refusal;
}

static int list(lapyrei store, maker *one, asked a, lapyrei_run *out, size_t room, size_t *count) {
    static lapyrei_run none;
    if (!count || (!out && room) || room > SIZE_MAX / 2 / sizeof *out) return refuse(LAPYREI_BAD_CALL, 0);
    uint64_t got = 0;
    a.runs = out ? out : &none, a.count = room;
    int refusal = call(store, one, &a, &got);
    if (!refusal) *count = got;
    return refusal;
}
int lapyrei_clips(lapyrei store, lapyrei_run *clips, size_t room, size_t *count) {
    return list(store, make_clips, (asked){0}, clips, room, count);
}
int lapyrei_frames_of(lapyrei store, uint64_t since, uint64_t until, lapyrei_run *runs, size_t room, size_t *count) {
    return list(store, make_sought, (asked){.since = since, .until = until}, runs, room, count);
}

static const struct {
    int number;
    const char *name, *text;
} refusals[] = {
    {LAPYREI_OK, "Ok", "done"},
    {LAPYREI_NO_MEMORY, "NoMemory", "no memory"},
    {LAPYREI_DISK, "Disk", "the disk failed"},
    {LAPYREI_MUST_REOPEN, "MustReopen", "the store has to be closed and opened again"},
    {LAPYREI_NOT_FORMATTED, "NotFormatted", "the file is no store"},
    {LAPYREI_DAMAGED, "Damaged", "the store is damaged"},
    {LAPYREI_ALL_LOCKED, "AllLocked", "no block may go"},
    {LAPYREI_WRONG_SIZE, "WrongSize", "the frames have another size, or are too many or none"},
    {LAPYREI_CLIP_EMPTY, "ClipEmpty", "the clip is empty"},
    {LAPYREI_CLIP_NOT_HELD, "ClipNotHeld", "the clip has a number of which no frame is held"},
    {LAPYREI_CLIP_TABLE_FULL, "ClipTableFull", "as many clips stand as there may be"},
    {LAPYREI_NO_SUCH_CLIP, "NoSuchClip", "no clip has this id"},
    {LAPYREI_NOT_HELD, "NotHeld", "no frame has this number"},
    {LAPYREI_NUMBERS_SPENT, "NumbersSpent", "no number is left"},
    {LAPYREI_BAD_GEOMETRY, "BadGeometry", "the geometry isn't good"},
    {LAPYREI_OLD_LAYOUT, "OldLayout", "the layout has no tags: it is to be upgraded first"},
    {LAPYREI_BAD_KEEP, "BadKeep", "so many blocks can't be kept"},
    {LAPYREI_CANNOT_OPEN, "CannotOpen", "the file can't be opened"},
    {LAPYREI_BUSY, "Busy", "the file is in use"},
    {LAPYREI_CANNOT_MAKE, "CannotMake", "the file can't be made"},
    {LAPYREI_BAD_CALL, "BadCall", "a null pointer, an unknown format or a bad path"},
    {LAPYREI_BAD_HANDLE, "BadHandle", "this handle isn't open"},
    {LAPYREI_TOO_MANY, "TooMany", "64 stores are open"},
    {LAPYREI_EXISTS, "Exists", "a file is there, and wasn't to be replaced"},
    {LAPYREI_MOVED, "Moved", "the file was removed or renamed since it was opened"},
    {LAPYREI_GONE, "Gone", "the frame isn't held any more"},
    {LAPYREI_READ_ONLY, "ReadOnly", "the store is open to read alone"},
    {LAPYREI_UNSETTLED, "Unsettled", "the store changes faster than it can be read"},
    {LAPYREI_TIMED_OUT, "TimedOut", "no frame came in that time"},
};
#define TOLD(FIELD, NONE)                                                       \
    {                                                                           \
        for (size_t i = 0; i < sizeof refusals / sizeof *refusals; i++)         \
            if (refusals[i].number == refusal) return refusals[i].FIELD;        \
        return NONE;                                                            \
    }
const char *lapyrei_name(int refusal) TOLD(name, "Unknown")
const char *lapyrei_text(int refusal) TOLD(text, "no refusal has this number")
