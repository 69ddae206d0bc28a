/* lapyrei.h: loop stores of raw frames that survive a loss of power, for C and whatever calls C. Linux, 64 bits.
 *
 * Refusals. A call answers 0, or the number of a refusal, each of which enum lapyrei_refusal explains: 1 to 99 are the
 * store's own, as `loop_cli` prints them; from 101 on they are this library's. Nothing is thrown or printed, no call ends
 * the process, and a file that is cut or changed beside a store gives a refusal and no signal. A refusal changes nothing,
 * except LAPYREI_DISK and LAPYREI_MOVED that come while a call writes: after them the handle answers
 * LAPYREI_MUST_REOPEN until it is closed. What an argument points to is set at 0 alone, but a handle's place, which
 * becomes 0; after a refused read a frame's place may hold any bytes.
 *
 * What 0 means. An append, a lock, an unlock, an upgrade and a format that answered 0 are on the disk. A loss of power
 * or a kill at any moment leaves what all calls before gave, and the one under way whole or not at all; of a group its first
 * frames may stand.
 *
 * Threads. Any thread may use any handle: calls on one handle run one after the other, calls on two side by side.
 * LAPYREI_BAD_HANDLE answers a handle that is closed, made up, or of the process that this one was forked from. No call
 * may be made in a signal handler, or by a child that a process with other threads forked, before exec. Such a child
 * holds no lock of its parent's stores.
 *
 * Files. A store that is open to write has the file's lock (flock): it is LAPYREI_BUSY elsewhere, in this process and in
 * loop_cli and loop_station too, and theirs is so here. lapyrei_open_read takes no lock: it reads beside them. */
#ifndef LAPYREI_H
#define LAPYREI_H
#include <stddef.h>
#include <stdint.h>
#ifdef __cplusplus
extern "C" {
#endif

#define LAPYREI_ABI 2u /* 2: lapyrei_format erases nothing; lapyrei_open_read */
#define LAPYREI_NONE UINT64_MAX /* no number, no block */

typedef uint64_t lapyrei; /* a handle; 0 is none. The low half is a place, the high half counts its uses. */

enum lapyrei_format { LAPYREI_GREY, LAPYREI_YM12, LAPYREI_YM16, LAPYREI_YM24 };

/* Each refusal, and when it comes. `detail` is what lapyrei_detail gives then. */
enum lapyrei_refusal {
    LAPYREI_OK = 0,
    LAPYREI_NO_MEMORY = 1,        /* nothing was done */
    LAPYREI_DISK = 2,             /* detail: 1 a read, 2 a write, 3 a sync failed, 4 the file has another length */
    LAPYREI_MUST_REOPEN = 3,      /* after LAPYREI_DISK or LAPYREI_MOVED; and where a store that is read was made anew */
    LAPYREI_NOT_FORMATTED = 4,    /* the file is no store */
    LAPYREI_DAMAGED = 5,          /* detail: the damage, as in docs/layout.md */
    LAPYREI_ALL_LOCKED = 6,       /* an append: the ring is full, and each block is a clip's or one of the newest `keep` */
    LAPYREI_WRONG_SIZE = 8,       /* a frame's length, or more frames than lapyrei_room says, or none */
    LAPYREI_CLIP_EMPTY = 9,       /* a lock: `to` is below `from` */
    LAPYREI_CLIP_NOT_HELD = 10,   /* a lock; detail: the least number that isn't held */
    LAPYREI_CLIP_TABLE_FULL = 11, /* a lock: 64 clips are there */
    LAPYREI_NO_SUCH_CLIP = 12,    /* an unlock */
    LAPYREI_NOT_HELD = 13,        /* a read: no frame has this number; beside a recorder: not yet */
    LAPYREI_NUMBERS_SPENT = 14,   /* an append: numbers end before 2^62 */
    LAPYREI_BAD_GEOMETRY = 16,    /* a format: sides of 1 to 16,384, 2 to 64 segments, 1 to 256 slots, 16 MB a frame */
    LAPYREI_OLD_LAYOUT = 21,      /* a lock with a tag, in version 1 of the layout: lapyrei_upgrade */
    LAPYREI_BAD_KEEP = 22,        /* `keep` is 0, or as many as there are segments, or more */
    LAPYREI_CANNOT_OPEN = 101,    /* detail: errno; 0 where it is no regular file */
    LAPYREI_BUSY = 102,           /* it is open to write: here, or in another program */
    LAPYREI_CANNOT_MAKE = 103,    /* a format; detail: errno, as ENOSPC where the disk has no room for all of it */
    LAPYREI_BAD_CALL = 104,       /* a null pointer, an unknown format, or a path of 0 or above 4,095 bytes */
    LAPYREI_BAD_HANDLE = 105,     /* it isn't open in this process */
    LAPYREI_TOO_MANY = 106,       /* 64 stores are open */
    LAPYREI_EXISTS = 107,         /* lapyrei_format: a file is there that isn't empty */
    LAPYREI_MOVED = 108,          /* the file was removed or renamed, or another is in its place */
    LAPYREI_GONE = 109,           /* a read beside a recorder: the ring has removed the frame */
    LAPYREI_READ_ONLY = 110,      /* a call that writes, after lapyrei_open_read */
    LAPYREI_UNSETTLED = 111,      /* beside a recorder: the store changed each of 200 times that it was read */
    LAPYREI_TIMED_OUT = 112       /* lapyrei_wait: no frame came in that time */
};

/* A store: width, height, enum lapyrei_format, frames in seconds, segments, slots of a segment, version of the layout */
typedef struct {
    uint32_t width, height, format, rate_num, rate_den, segments, slots, version;
} lapyrei_shape;

/* A frame: its number, the time in microseconds, the camera's count and the flags of V4L2 */
typedef struct {
    uint64_t number, timestamp;
    uint32_t sequence, flags;
} lapyrei_head;

/* A clip, or a run of frames (id and tag are 0): the first number and the last one */
typedef struct {
    uint64_t id, from, to, tag;
} lapyrei_run;

uint32_t lapyrei_abi(void);             /* LAPYREI_ABI of the library that runs */
const char *lapyrei_name(int refusal);  /* the refusal's name, as "NotHeld"; "Unknown" for a number that is none */
const char *lapyrei_text(int refusal);  /* a sentence */
uint64_t lapyrei_detail(void);          /* what the last refusal of this thread names; 0 where it names nothing */

/* Makes a store and opens it. A version of 1 makes the old layout, which has no tags; any other the new one. A file that
 * is there is LAPYREI_EXISTS and stays as it is, unless it has no byte. */
int lapyrei_format(const char *path, const lapyrei_shape *shape, lapyrei *store);
/* The same, which replaces a file that is there: ALL THAT IT HELD, AND EACH CLIP, IS LOST. */
int lapyrei_format_over(const char *path, const lapyrei_shape *shape, lapyrei *store);
/* Opens a store to write and to read. A call that writes is LAPYREI_MOVED where the file isn't at its path any more. */
int lapyrei_open(const char *path, lapyrei *store);
/* The `keep` newest blocks never go, whatever is locked. It is 1 in lapyrei_open, and 1 to the number of segments less
 * one: 0 is LAPYREI_BAD_KEEP, and so is the number of segments. */
int lapyrei_open_keeping(const char *path, uint32_t keep, lapyrei *store);
/* Opens a store to read alone, without its lock: beside loop_station, or whatever else records into it. A frame that is read
 * is whole, or it is LAPYREI_GONE. The other calls answer as of one moment. */
int lapyrei_open_read(const char *path, lapyrei *store);
int lapyrei_close(lapyrei store);

/* The newest frame's number, or LAPYREI_NONE. LAPYREI_MOVED where the recorder's file isn't at its path any more. */
int lapyrei_newest(lapyrei store, uint64_t *number);
/* The same, once it is above `after` (LAPYREI_NONE: once there is a frame). It waits so many milliseconds at most, for ever
 * with UINT32_MAX, and is LAPYREI_TIMED_OUT then. Other threads may use the handle meanwhile, and close it. */
int lapyrei_wait(lapyrei store, uint64_t after, uint32_t milliseconds, uint64_t *number);

int lapyrei_shape_of(lapyrei store, lapyrei_shape *shape, size_t *frame_bytes); /* frame_bytes may be null */
int lapyrei_next(lapyrei store, uint64_t *number);                              /* the next frame's number */
int lapyrei_held(lapyrei store, uint64_t *count);                               /* how many frames are held */
int lapyrei_held_from(lapyrei store, uint64_t from, uint64_t *number); /* the next one held, or LAPYREI_NONE */
int lapyrei_victim(lapyrei store, uint64_t *block);                    /* the block that goes next, or LAPYREI_NONE */
int lapyrei_room(lapyrei store, uint64_t *frames);                     /* the most frames of the next append */

/* Stores a group of frames in one commit, all or none. `frames` has `count` frames of `length` bytes each, one after the
 * other; heads[i].number isn't read. `first` may be null. */
int lapyrei_append(lapyrei store, const lapyrei_head *heads, const void *frames, size_t count, size_t length,
                   uint64_t *first);
int lapyrei_read(lapyrei store, uint64_t number, lapyrei_head *head, void *frame, size_t length); /* head may be null */
int lapyrei_read_head(lapyrei store, uint64_t number, lapyrei_head *head);

int lapyrei_lock(lapyrei store, uint64_t from, uint64_t to, uint64_t tag, uint32_t *id); /* id may be null */
int lapyrei_unlock(lapyrei store, uint32_t id);
int lapyrei_upgrade(lapyrei store, int *did); /* did may be null */
/* The clips by rising id: as many as there is room for, and how many there are, at most 64. */
int lapyrei_clips(lapyrei store, lapyrei_run *clips, size_t room, size_t *count);
/* The held frames whose times lie from `since` to `until`, as runs of their numbers; `room` and `count` as above. */
int lapyrei_frames_of(lapyrei store, uint64_t since, uint64_t until, lapyrei_run *runs, size_t room, size_t *count);

#ifdef __cplusplus
}
#endif
#endif
