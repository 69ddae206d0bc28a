/* Comes between a program and its files. kill_check, power_check, format_check, start_check,
 * save_check and stall_check build it as a shared library and preload it.
 *
 *   LOOP_FILE   the file: calls on descriptors that were opened by this name
 *   LOOP_LOG    a file to which each change of it is appended before it is made, and each sync and
 *               answer once it was made: a byte W, T, S or A, two numbers of 8 bytes (place or
 *               length, and count of bytes), and the bytes of a write or an answer
 *   LOOP_SET    the path PLACE/NAME.loop of a camera that has several stores: LOOP_LOG has the
 *               writes and syncs of each PLACE/NAME.NUMBER.loop, with 2^48 times its number
 *               beside the place; of the modes there is no_sync
 *   LOOP_FOLDER a folder: LOOP_LOG has all that is done in it, and nothing else, so that it is
 *               known what a loss of power may leave of all its files. The place has 2^48 times the
 *               file's number: a file is made (C) or met (X, bytes: its name), written (W), cut or
 *               longer (T), synced (S, place: how many records came before that began), renamed (N)
 *               or linked (L, bytes: both names, a byte 0 between), removed (U); the folder is
 *               synced (F, place as of S). Of the modes there are no_sync and no_folder_sync
 *   LOOP_TEXT   a second file, whatever it is opened as: that of an export or a save, or of a store
 *               that gets its name later. The log has it made (c), its writes (w), lengths (t),
 *               syncs (s), the syncs of its folder (f), and that it is renamed (r). While a save
 *               isn't whole its file is TEXT.part, and it counts as made once it has its name
 *   LOOP_MODE   a device or a program that breaks its word:
 *                 no_sync      a sync does nothing
 *                 late_sync    a sync is made only before the next write: what is answered in
 *                              between isn't on the disk
 *                 gate_first   the slots of a group of frames are written and synced only after
 *                              their gates
 *                 no_text_sync, no_folder_sync       a sync of LOOP_TEXT, or of its folder, does
 *                                                    nothing
 *                 fail_text_sync, fail_folder_sync   it fails (EIO)
 *   LOOP_FAIL   COUNT:ERRNO, or COUNT:ERRNO:on   the call of that number on any file, from 0, fails
 *               so, or all from there on; calls are open, flock, statx, readlink, pread, pwrite,
 *               ftruncate, fsync, fdatasync, rename and unlink. ERRNO 0: the read or write is of
 *               one byte alone
 *   LOOP_KILL   COUNT   the program is killed (SIGKILL) before its call of that number, from 0,
 *               that writes, cuts, syncs or renames LOOP_FILE or LOOP_TEXT, or syncs their folder
 *   LOOP_STALL  FROM:EVERY:HOLD:EACH   a disk that stalls: from FROM on, and every EVERY after it,
 *               each sync of a file NAME.loop, of one that is made for it (NAME.loop.new), or of
 *               one beside it (NAME.loop.sync) that comes within HOLD ends only after that, and
 *               each other one takes EACH more; all in milliseconds, FROM of CLOCK_MONOTONIC
 *   LOOP_STALLED   NAME   LOOP_STALL stalls the files whose path has this name, and no others
 *   LOOP_READS  MICROS   each read of a file NAME.loop takes so much longer: a disk that seeks
 *   LOOP_CLOCK  AFTER:SECONDS   the time of day is set so much further, AFTER milliseconds after it
 *               was first asked for
 *   LOOP_BAD    NAME   each sync of a file whose path has this name fails (EIO), while there is a
 *               file `bad`
 *   LOOP_CLOSE  MILLIS   a named pipe is closed only so much later
 *   LOOP_THREADS   COUNT   the thread of that number, from 0, can't be started (EAGAIN)
 *   LOOP_CLIP   COUNT, or COUNT:on   the call of that number, from 0, that writes LOOP_FILE's clip
 *               table, or syncs it after such a write, fails (EIO), or all from there on
 */
#define _GNU_SOURCE
#include <dlfcn.h>
#include <errno.h>
#include <fcntl.h>
#include <pthread.h>
#include <signal.h>
#include <stdarg.h>
#include <stdint.h>
#include <stdio.h>
#include <stdlib.h>
#include <string.h>
#include <sys/stat.h>
#include <sys/syscall.h>
#include <time.h>
#include <unistd.h>

/* What is longer than a segment's header, after the front of a store, is a slot. */
#define HEADER 512

static int log_fd = -2;
static int file_fd = -1;
static long calls = 0;
/* How many records the log has. */
static uint64_t records;
static enum {
    HONEST, NO_SYNC, LATE_SYNC, GATE_FIRST,
    NO_TEXT_SYNC, NO_FOLDER_SYNC, FAIL_TEXT_SYNC, FAIL_FOLDER_SYNC
} mode;
static const char *const MODES[] = {
    "", "no_sync", "late_sync", "gate_first",
    "no_text_sync", "no_folder_sync", "fail_text_sync", "fail_folder_sync"
};
static long fail_at = -1;
static int fail_with, fail_on;
/* gate_first: the slots that are kept back, as one or several writes bring them, and whether their
 * gates were written */
static char *kept;
static size_t kept_count;
static off_t kept_at;
static int gate_is_written;
/* late_sync: a sync that is still to be made */
static int is_late;

static void begin(void) {
    if (log_fd != -2) return;
    const char *log = getenv("LOOP_LOG"), *named = getenv("LOOP_MODE"), *fail = getenv("LOOP_FAIL");
    int how = O_WRONLY | O_CREAT | O_APPEND | O_CLOEXEC;
    log_fd = log ? syscall(SYS_openat, AT_FDCWD, log, how, 0600) : -1;
    for (int it = NO_SYNC; it <= FAIL_FOLDER_SYNC; it++)
        if (named && !strcmp(named, MODES[it])) mode = it;
    if (fail) {
        char *rest;
        fail_at = strtol(fail, &rest, 10);
        fail_with = *rest ? (int)strtol(rest + 1, &rest, 10) : EIO;
        fail_on = *rest != 0;
    }
}

/* Whether this call fails; a call that is to be short isn't told here, and one that waits for
 * nothing is never interrupted. */
static int fails_if(int waits) {
    begin();
    long call = __atomic_fetch_add(&calls, 1, __ATOMIC_SEQ_CST);
    if (fail_at < 0 || call < fail_at || (call > fail_at && !fail_on) || fail_with == 0) return 0;
    if (fail_with == EINTR && !waits) return 0;
    errno = fail_with;
    return 1;
}

static int fails(void) {
    return fails_if(1);
}

static size_t shortened(size_t count) {
    return fail_at >= 0 && calls - 1 == fail_at && fail_with == 0 && count > 1 ? 1 : count;
}

static void note(char kind, uint64_t at, uint64_t count, const void *bytes) {
    if (log_fd < 0) return;
    char *record = malloc(17 + count);
    record[0] = kind;
    memcpy(record + 1, &at, 8);
    memcpy(record + 9, &count, 8);
    if (bytes) memcpy(record + 17, bytes, count);
    syscall(SYS_write, log_fd, record, 17 + (bytes ? count : 0));
    free(record);
    __atomic_fetch_add(&records, 1, __ATOMIC_SEQ_CST);
}

/* Whether a path is there, and whether it is that of an open file. */
static int stands(const char *path, struct stat *found) {
    return path && *path && stat(path, found) == 0;
}

static int is_open_as(int fd, const char *path) {
    struct stat here, there;
    return stands(path, &there) && fstat(fd, &here) == 0 && here.st_dev == there.st_dev
        && here.st_ino == there.st_ino;
}

/* The text, or its file while it isn't whole and has another name. */
static int is_text(int fd) {
    const char *text = getenv("LOOP_TEXT");
    char part[4096];
    if (is_open_as(fd, text)) return 1;
    return text && snprintf(part, sizeof part, "%s.part", text) < (int)sizeof part
        && is_open_as(fd, part);
}

/* Whether an open file is the folder of a path. */
static int is_folder_of(int fd, const char *path) {
    char folder[4096];
    if (!path || !*path) return 0;
    if (snprintf(folder, sizeof folder, "%s", path) >= (int)sizeof folder) return 0;
    char *end = strrchr(folder, '/');
    if (end) *end = 0;
    return is_open_as(fd, end ? (end == folder ? "/" : folder) : ".");
}

/* A call that changes one of the files is about to be made. */
static void reached(void) {
    static long changes = 0;
    const char *kill_at = getenv("LOOP_KILL");
    if (kill_at && __atomic_fetch_add(&changes, 1, __ATOMIC_SEQ_CST) == atol(kill_at))
        kill(getpid(), SIGKILL);
}

/* The number of a file of LOOP_SET, or -1. */
static int64_t set_number(int fd) {
    const char *set = getenv("LOOP_SET");
    char link[64], path[4096];
    if (!set || strlen(set) < 5) return -1;
    size_t stem = strlen(set) - 5;
    snprintf(link, sizeof link, "/proc/self/fd/%d", fd);
    ssize_t length = syscall(SYS_readlink, link, path, sizeof path - 1);
    if (length != (ssize_t)stem + 9 || strncmp(path, set, stem)) return -1;
    path[length] = 0;
    return strcmp(path + stem + 4, ".loop") ? -1 : strtol(path + stem + 1, NULL, 10);
}

/* Whether this call, a write at a place or a sync (-1), is the one of the clip table that fails. */
static int clip_fails(int fd, off_t at, size_t count) {
    static long clip_calls = 0, is_open = 0;
    const char *clip = getenv("LOOP_CLIP");
    if (!clip || !is_open_as(fd, getenv("LOOP_FILE"))) return 0;
    int is_clip = at < 0 ? is_open : at >= 512 && at + count <= 2560;
    is_open = at >= 0 && is_clip;
    if (!is_clip) return 0;
    long call = clip_calls++;
    if (call < atol(clip) || (call > atol(clip) && !strchr(clip, ':'))) return 0;
    errno = EIO;
    return 1;
}

static int is_watched(int fd) {
    return fd == file_fd || is_text(fd) || is_open_as(fd, getenv("LOOP_FILE"));
}

/* ------------------------------------------------------------------------------------------------
 * LOOP_FOLDER: what is done in a folder, in its order */

#define FILES 4096

static struct {
    dev_t dev;
    ino_t ino;
} files[FILES];
static long file_count;
/* Who has it makes a change and its record as one. */
static pthread_mutex_t turn = PTHREAD_MUTEX_INITIALIZER;

/* A path as it is seen from the folder, or NULL where it lies elsewhere. */
static const char *within(const char *path) {
    const char *folder = getenv("LOOP_FOLDER");
    size_t length = folder ? strlen(folder) : 0;
    if (!length) return NULL;
    if (*path != '/') return strncmp(path, "./", 2) ? path : path + 2;
    return !strncmp(path, folder, length) && path[length] == '/' ? path + length + 1 : NULL;
}

/* Whether a path leads to a named pipe. */
static int is_pipe(const char *path) {
    struct stat found;
    return stat(path, &found) == 0 && S_ISFIFO(found.st_mode);
}

/* The number of an open file of the folder, from 0; or -1. */
static long number_of(int fd) {
    struct stat found;
    if (!getenv("LOOP_FOLDER") || fstat(fd, &found)) return -1;
    for (long at = file_count - 1; at >= 0; at--)
        if (files[at].ino == found.st_ino && files[at].dev == found.st_dev) return at;
    return -1;
}

static void note_of(char kind, uint64_t number, uint64_t at, uint64_t count, const void *bytes) {
    note(kind, at | number << 48, count, bytes);
}

/* A file of the folder is opened. */
static int opened_within(const char *path, const char *name, int flags, int mode_bits) {
    struct stat found;
    pthread_mutex_lock(&turn);
    int was_there = stat(path, &found) == 0;
    int fd = syscall(SYS_openat, AT_FDCWD, path, flags, mode_bits);
    if (fd >= 0 && fstat(fd, &found) == 0 && S_ISREG(found.st_mode) && file_count < FILES) {
        long number = was_there ? number_of(fd) : -1;
        if (number < 0) {
            number = file_count++;
            files[number].dev = found.st_dev;
            files[number].ino = found.st_ino;
            note_of(was_there ? 'X' : 'C', number, 0, strlen(name), name);
        }
        if (was_there && flags & O_TRUNC) note_of('T', number, 0, 0, NULL);
    }
    pthread_mutex_unlock(&turn);
    return fd;
}

/* Bytes are written to a file of the folder, at a place, or where it stands (-1). */
static ssize_t written_within(int fd, long number, const void *bytes, size_t count, off_t at) {
    struct stat found;
    pthread_mutex_lock(&turn);
    off_t place = at;
    if (at < 0 && syscall(SYS_fcntl, fd, F_GETFL, 0) & O_APPEND && fstat(fd, &found) == 0)
        place = found.st_size;
    else if (at < 0)
        place = lseek(fd, 0, SEEK_CUR);
    note_of('W', number, place, count, bytes);
    ssize_t answer = at < 0 ? syscall(SYS_write, fd, bytes, count)
                            : syscall(SYS_pwrite64, fd, bytes, count, at);
    pthread_mutex_unlock(&turn);
    return answer;
}

/* A file of the folder is synced, or the folder itself (-1). */
static int synced_within(int fd, long call, long number) {
    if (mode == NO_SYNC || (number < 0 && mode == NO_FOLDER_SYNC)) return 0;
    pthread_mutex_lock(&turn);
    uint64_t began = records;
    pthread_mutex_unlock(&turn);
    int answer = (int)syscall(call, fd);
    pthread_mutex_lock(&turn);
    if (answer == 0) note_of(number < 0 ? 'F' : 'S', number < 0 ? 0 : number, began, 0, NULL);
    pthread_mutex_unlock(&turn);
    return answer;
}

/* A name is changed by a call of the system: N, L or U. */
static int named_within(long call, char kind, const char *from, const char *to) {
    char both[8192];
    pthread_mutex_lock(&turn);
    int answer = (int)syscall(call, from, to);
    if (answer == 0) {
        int count = snprintf(both, sizeof both, "%s", within(from));
        if (to) count += 1 + snprintf(both + count + 1, sizeof both - count - 1, "%s", within(to));
        note_of(kind, 0, 0, count, both);
    }
    pthread_mutex_unlock(&turn);
    return answer;
}

/* ------------------------------------------------------------------------------------------------
 * the calls */

static int opened(const char *path, int flags, int mode_bits) {
    /* Who opens a pipe may wait. */
    if (within(path) && !is_pipe(path))
        return opened_within(path, within(path), flags, mode_bits);
    const char *file = getenv("LOOP_FILE"), *text = getenv("LOOP_TEXT");
    struct stat found;
    int was_there = stands(text, &found);
    int fd = syscall(SYS_openat, AT_FDCWD, path, flags, mode_bits);
    if (fd >= 0 && file && !strcmp(path, file)) file_fd = fd;
    if (fd >= 0 && text && !was_there && is_open_as(fd, text)) note('c', 0, 0, NULL);
    return fd;
}

int open(const char *path, int flags, ...) {
    va_list rest;
    va_start(rest, flags);
    int mode_bits = flags & O_CREAT ? va_arg(rest, int) : 0;
    va_end(rest);
    if (fails()) return -1;
    return opened(path, flags, mode_bits);
}

int open64(const char *path, int flags, ...) {
    va_list rest;
    va_start(rest, flags);
    int mode_bits = flags & O_CREAT ? va_arg(rest, int) : 0;
    va_end(rest);
    if (fails()) return -1;
    return opened(path, flags, mode_bits);
}

int flock(int fd, int how) {
    return fails() ? -1 : (int)syscall(SYS_flock, fd, how);
}

int statx(int fd, const char *path, int flags, unsigned mask, struct statx *out) {
    return fails_if(0) ? -1 : (int)syscall(SYS_statx, fd, path, flags, mask, out);
}

int unlink(const char *path) {
    if (within(path)) return named_within(SYS_unlink, 'U', path, NULL);
    return fails_if(0) ? -1 : (int)syscall(SYS_unlink, path);
}

/* A text that is whole gets its name. */
int link(const char *from, const char *to) {
    const char *text = getenv("LOOP_TEXT");
    int is_texts = text && !strcmp(to, text);
    if (fails_if(0)) return -1;
    if (within(from) && within(to)) return named_within(SYS_link, 'L', from, to);
    if (is_texts) reached();
    int answer = (int)syscall(SYS_link, from, to);
    if (answer == 0 && is_texts) note('c', 0, 0, NULL);
    return answer;
}

int rename(const char *from, const char *to) {
    const char *text = getenv("LOOP_TEXT");
    struct stat moved, named;
    if (fails_if(0)) return -1;
    if (within(from) && within(to)) return named_within(SYS_rename, 'N', from, to);
    int is_texts = stands(text, &named) && stat(from, &moved) == 0
        && moved.st_dev == named.st_dev && moved.st_ino == named.st_ino;
    if (is_texts) reached();
    int answer = (int)syscall(SYS_rename, from, to);
    if (answer == 0 && is_texts) note('r', 0, 0, NULL);
    return answer;
}

ssize_t readlink(const char *path, char *out, size_t count) {
    return fails_if(0) ? -1 : syscall(SYS_readlink, path, out, count);
}

int pthread_create(pthread_t *thread, const pthread_attr_t *how, void *(*run)(void *), void *with) {
    static long started = 0;
    const char *refused = getenv("LOOP_THREADS");
    if (refused && __atomic_fetch_add(&started, 1, __ATOMIC_SEQ_CST) == atol(refused))
        return EAGAIN;
    int (*real)(pthread_t *, const pthread_attr_t *, void *(*)(void *), void *) =
        dlsym(RTLD_NEXT, "pthread_create");
    return real(thread, how, run, with);
}

static int synced(int fd, long number) {
    int answer = (int)syscall(number, fd);
    if (answer == 0 && fd == file_fd) note('S', 0, 0, NULL);
    return answer;
}

static ssize_t written(int fd, const void *bytes, size_t count, off_t at) {
    if (fd == file_fd) note('W', at, count, bytes);
    return syscall(SYS_pwrite64, fd, bytes, count, at);
}

/* The slots that were kept back are written after their gates. */
static void give_back(int fd) {
    written(fd, kept, kept_count, kept_at);
    free(kept);
    kept = NULL;
    gate_is_written = 0;
    synced(fd, SYS_fdatasync);
}

ssize_t pwrite(int fd, const void *bytes, size_t count, off_t at) {
    if (fails() || clip_fails(fd, at, count)) return -1;
    count = shortened(count);
    long within_folder = number_of(fd);
    if (within_folder >= 0) return written_within(fd, within_folder, bytes, count, at);
    if (is_watched(fd)) reached();
    int64_t number = set_number(fd);
    if (number >= 0) {
        note('W', at | number << 48, count, bytes);
        return syscall(SYS_pwrite64, fd, bytes, count, at);
    }
    if (fd != file_fd) {
        if (is_text(fd)) note('w', at, count, bytes);
        return syscall(SYS_pwrite64, fd, bytes, count, at);
    }
    if (is_late) {
        is_late = 0;
        synced(fd, SYS_fdatasync);
    }
    if (mode == GATE_FIRST && !kept && at >= 2560 && count > HEADER) {
        kept = malloc(count);
        memcpy(kept, bytes, kept_count = count);
        kept_at = at;
        return count;
    }
    if (kept && at == kept_at + (off_t)kept_count) {
        kept = realloc(kept, kept_count + count);
        memcpy(kept + kept_count, bytes, count);
        kept_count += count;
        return count;
    }
    if (kept) gate_is_written = 1;
    return written(fd, bytes, count, at);
}

ssize_t pwrite64(int fd, const void *bytes, size_t count, off_t at) {
    return pwrite(fd, bytes, count, at);
}

/* Takes the time of a disk that seeks. */
static void seek(int fd) {
    const char *given = getenv("LOOP_READS");
    if (!given) return;
    char name[4096], link[64];
    snprintf(link, sizeof link, "/proc/self/fd/%d", fd);
    ssize_t length = syscall(SYS_readlink, link, name, sizeof name - 1);
    if (length < 0) return;
    name[length] = 0;
    const char *end = strstr(name, ".loop");
    if (!end || strcmp(end, ".loop")) return;
    long long micros = atoll(given);
    struct timespec pause = {micros / 1000000, micros % 1000000 * 1000};
    nanosleep(&pause, NULL);
}

ssize_t pread(int fd, void *bytes, size_t count, off_t at) {
    seek(fd);
    return fails() ? -1 : syscall(SYS_pread64, fd, bytes, shortened(count), at);
}

ssize_t pread64(int fd, void *bytes, size_t count, off_t at) {
    return pread(fd, bytes, count, at);
}

int ftruncate(int fd, off_t size) {
    if (fails()) return -1;
    long number = number_of(fd);
    if (number >= 0) {
        pthread_mutex_lock(&turn);
        note_of('T', number, size, 0, NULL);
        int answer = (int)syscall(SYS_ftruncate, fd, size);
        pthread_mutex_unlock(&turn);
        return answer;
    }
    if (is_watched(fd)) reached();
    if (fd == file_fd) note('T', size, 0, NULL);
    else if (is_text(fd)) note('t', size, 0, NULL);
    return syscall(SYS_ftruncate, fd, size);
}

int ftruncate64(int fd, off_t size) {
    return ftruncate(fd, size);
}

int clock_gettime(clockid_t clock, struct timespec *now) {
    static long long first = 0;
    long long after, seconds;
    int done = syscall(SYS_clock_gettime, clock, now);
    const char *given = getenv("LOOP_CLOCK");
    if (done || clock != CLOCK_REALTIME || !given) return done;
    if (sscanf(given, "%lld:%lld", &after, &seconds) != 2) return done;
    struct timespec up;
    syscall(SYS_clock_gettime, CLOCK_MONOTONIC, &up);
    long long millis = up.tv_sec * 1000LL + up.tv_nsec / 1000000;
    if (!first) first = millis;
    if (millis - first >= after) now->tv_sec += seconds;
    return done;
}

/* Waits while the disk stalls. */
static void stall(int fd) {
    static const char END[] = ".loop";
    const char *given = getenv("LOOP_STALL");
    long long from, every, hold, each;
    if (!given || sscanf(given, "%lld:%lld:%lld:%lld", &from, &every, &hold, &each) != 4) return;
    if (every <= 0) return;
    char name[4096], link[64];
    snprintf(link, sizeof link, "/proc/self/fd/%d", fd);
    ssize_t length = syscall(SYS_readlink, link, name, sizeof name);
    if (length < 0 || length >= (ssize_t)sizeof name) return;
    name[length] = 0;
    const char *end = strstr(name, END), *only = getenv("LOOP_STALLED");
    int is_store = end
        && (!strcmp(end, ".loop") || !strcmp(end, ".loop.new") || !strncmp(end, ".loop.sync", 10));
    if (only ? !strstr(name, only) : !is_store) return;
    struct timespec now;
    clock_gettime(CLOCK_MONOTONIC, &now);
    long long at = now.tv_sec * 1000LL + now.tv_nsec / 1000000 - from;
    if (at < 0) return;
    long long rest = at % every < hold ? hold - at % every : each;
    struct timespec pause = {rest / 1000, rest % 1000 * 1000000};
    nanosleep(&pause, NULL);
}

int close(int fd) {
    const char *given = getenv("LOOP_CLOSE");
    struct stat found;
    if (given && fstat(fd, &found) == 0 && S_ISFIFO(found.st_mode)) {
        long long millis = atoll(given);
        struct timespec pause = {millis / 1000, millis % 1000 * 1000000};
        nanosleep(&pause, NULL);
    }
    return syscall(SYS_close, fd);
}

/* A sync of the text or of its folder. */
static int sync_beside(int fd, long number, char kind, int swallows, int refuses) {
    if (mode == swallows) return 0;
    if (mode == refuses) {
        errno = EIO;
        return -1;
    }
    int answer = (int)syscall(number, fd);
    if (answer == 0) note(kind, 0, 0, NULL);
    return answer;
}

/* Whether the path of a file has the name of a bad one. */
static int is_bad(int fd) {
    const char *bad = getenv("LOOP_BAD");
    if (!bad || access("bad", F_OK)) return 0;
    char name[4096], link[64];
    snprintf(link, sizeof link, "/proc/self/fd/%d", fd);
    ssize_t length = syscall(SYS_readlink, link, name, sizeof name - 1);
    if (length < 0) return 0;
    name[length] = 0;
    if (!strstr(name, bad)) return 0;
    errno = EIO;
    return 1;
}

static int sync_of(int fd, long number) {
    if (is_bad(fd)) return -1;
    if (fails() || clip_fails(fd, -1, 0)) return -1;
    stall(fd);
    long within_folder = number_of(fd);
    if (within_folder >= 0 || is_open_as(fd, getenv("LOOP_FOLDER")))
        return synced_within(fd, number, within_folder);
    const char *text = getenv("LOOP_TEXT"), *file = getenv("LOOP_FILE");
    if (is_watched(fd) || is_folder_of(fd, text) || is_folder_of(fd, file)) reached();
    if (fd != file_fd && is_text(fd))
        return sync_beside(fd, number, 's', NO_TEXT_SYNC, FAIL_TEXT_SYNC);
    if (is_folder_of(fd, text))
        return sync_beside(fd, number, 'f', NO_FOLDER_SYNC, FAIL_FOLDER_SYNC);
    int64_t of_set = set_number(fd);
    if (of_set >= 0) {
        int answer = mode == NO_SYNC ? 0 : (int)syscall(number, fd);
        if (answer == 0 && mode != NO_SYNC) note('S', of_set << 48, 0, NULL);
        return answer;
    }
    if (fd != file_fd) return syscall(number, fd);
    if (mode == NO_SYNC) return 0;
    if (mode == LATE_SYNC) {
        is_late = 1;
        return 0;
    }
    if (kept && !gate_is_written) return 0;
    int answer = synced(fd, number);
    if (kept && gate_is_written) give_back(fd);
    return answer;
}

int fdatasync(int fd) {
    return sync_of(fd, SYS_fdatasync);
}

int fsync(int fd) {
    return sync_of(fd, SYS_fsync);
}

ssize_t write(int fd, const void *bytes, size_t count) {
    begin();
    long within_folder = number_of(fd);
    if (within_folder >= 0) return written_within(fd, within_folder, bytes, count, -1);
    if (getenv("LOOP_TEXT") && is_text(fd)) note('w', lseek(fd, 0, SEEK_CUR), count, bytes);
    ssize_t answer = syscall(SYS_write, fd, bytes, count);
    if (fd == 1 && answer > 0 && !getenv("LOOP_FOLDER")) note('A', 0, answer, bytes);
    return answer;
}
