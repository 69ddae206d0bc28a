/* A webcam without hardware: stands before the C library of each program of a machine
   (/etc/ld.so.preload), and answers the calls of V4L2 on /dev/video0. That is a file, as long as all
   buffers are: its owner, group and mode say who may open it, and where it is removed the camera has
   gone. It gives YUYV of one size and rate: the first four bytes of luma are the frame's number, the
   others the sum of its last byte and their place. It loses frames, with their numbers, while all
   buffers are full, and one program films at a time. */
#define _GNU_SOURCE
#include <dlfcn.h>
#include <errno.h>
#include <fcntl.h>
#include <linux/videodev2.h>
#include <poll.h>
#include <stdarg.h>
#include <string.h>
#include <sys/file.h>
#include <sys/mman.h>
#include <sys/stat.h>
#include <time.h>
#include <unistd.h>

#define NODE "/dev/video0"
#define FILES 1024
#define BUFFERS 32
#define WIDTH 160
#define HEIGHT 120
#define RATE 10
/* A page's multiple, as a place to map from has to be. */
#define ROOM 40960
#define SECOND 1000000000LL

enum state { OUT, QUEUED, FULL };
static char is_ours[FILES];
static unsigned char *memory;
static struct { enum state state; unsigned number; long long at; } buffers[BUFFERS];
static unsigned count, next, order[BUFFERS], queued;
static long long began;
static int is_on;

static long long now(void) {
    struct timespec it;
    clock_gettime(CLOCK_MONOTONIC, &it);
    return it.tv_sec * SECOND + it.tv_nsec;
}

static int refuse(int why) {
    errno = why;
    return -1;
}

static int has_gone(int file) {
    struct stat it;
    return fstat(file, &it) || !it.st_nlink;
}

static int opened(const char *path, int file) {
    struct stat it, node;
    if (file < 0 || file >= FILES || !path || strncmp(path, "/dev/v", 6)) return file;
    if (!fstat(file, &it) && !stat(NODE, &node) && it.st_ino == node.st_ino && it.st_dev == node.st_dev)
        is_ours[file] = 1;
    return file;
}

static void fill(unsigned index, unsigned number) {
    unsigned char *at = memory + index * ROOM;
    for (unsigned pixel = 0; pixel < WIDTH * HEIGHT; pixel++) {
        at[2 * pixel] = (unsigned char)(pixel < 4 ? number >> 8 * pixel : number + pixel);
        at[2 * pixel + 1] = 128;
    }
}

/* What has come since it was asked last: each frame goes into the first buffer that waits. */
static void go_on(void) {
    for (; is_on && now() >= began + next * SECOND / RATE; next++) {
        if (!queued) continue;
        unsigned index = order[0];
        memmove(order, order + 1, --queued * sizeof order[0]);
        buffers[index].state = FULL, buffers[index].number = next;
        buffers[index].at = began + next * SECOND / RATE;
        fill(index, next);
    }
}

static int oldest(void) {
    int found = -1;
    for (int n = 0; n < (int)count; n++)
        if (buffers[n].state == FULL && (found < 0 || buffers[n].number < buffers[found].number)) found = n;
    return found;
}

static void tell_format(struct v4l2_format *it) {
    memset(&it->fmt, 0, sizeof it->fmt);
    it->fmt.pix = (struct v4l2_pix_format){.width = WIDTH, .height = HEIGHT, .pixelformat = V4L2_PIX_FMT_YUYV,
        .field = V4L2_FIELD_NONE, .bytesperline = 2 * WIDTH, .sizeimage = 2 * WIDTH * HEIGHT};
}

static int request(int file, struct v4l2_requestbuffers *it) {
    if (flock(file, LOCK_EX | LOCK_NB)) return refuse(EBUSY);
    if (!memory) memory = mmap(NULL, BUFFERS * ROOM, PROT_READ | PROT_WRITE, MAP_SHARED, file, 0);
    if (memory == MAP_FAILED) return memory = NULL, refuse(ENOMEM);
    if (it->count > BUFFERS) it->count = BUFFERS;
    count = it->count, queued = 0;
    memset(buffers, 0, sizeof buffers);
    return 0;
}

static int take(struct v4l2_buffer *it) {
    go_on();
    int index = oldest();
    if (index < 0) return refuse(EAGAIN);
    buffers[index].state = OUT;
    it->index = index, it->sequence = buffers[index].number, it->bytesused = 2 * WIDTH * HEIGHT;
    it->flags = V4L2_BUF_FLAG_TIMESTAMP_MONOTONIC;
    it->timestamp.tv_sec = buffers[index].at / SECOND;
    it->timestamp.tv_usec = buffers[index].at % SECOND / 1000;
    return 0;
}

static int give(struct v4l2_buffer *it) {
    if (it->index >= count || buffers[it->index].state == QUEUED) return refuse(EINVAL);
    go_on();
    buffers[it->index].state = QUEUED;
    order[queued++] = it->index;
    return 0;
}

static int answer(int file, unsigned long word, void *what) {
    switch ((unsigned)word) {
    case VIDIOC_QUERYCAP: {
        struct v4l2_capability *it = what;
        memset(it, 0, sizeof *it);
        strcpy((char *)it->card, "A webcam");
        it->device_caps = V4L2_CAP_VIDEO_CAPTURE | V4L2_CAP_STREAMING;
        it->capabilities = it->device_caps | V4L2_CAP_DEVICE_CAPS;
        return 0;
    }
    case VIDIOC_ENUM_FMT: {
        struct v4l2_fmtdesc *it = what;
        it->pixelformat = V4L2_PIX_FMT_YUYV;
        return it->index ? refuse(EINVAL) : 0;
    }
    case VIDIOC_ENUM_FRAMESIZES: {
        struct v4l2_frmsizeenum *it = what;
        it->type = V4L2_FRMSIZE_TYPE_DISCRETE, it->discrete.width = WIDTH, it->discrete.height = HEIGHT;
        return it->index ? refuse(EINVAL) : 0;
    }
    case VIDIOC_ENUM_FRAMEINTERVALS: {
        struct v4l2_frmivalenum *it = what;
        it->type = V4L2_FRMIVAL_TYPE_DISCRETE, it->discrete.numerator = 1, it->discrete.denominator = RATE;
        return it->index ? refuse(EINVAL) : 0;
    }
    case VIDIOC_G_FMT:
    case VIDIOC_S_FMT: return tell_format(what), 0;
    case VIDIOC_G_PARM:
    case VIDIOC_S_PARM: {
        struct v4l2_streamparm *it = what;
        it->parm.capture.timeperframe = (struct v4l2_fract){1, RATE};
        return 0;
    }
    case VIDIOC_REQBUFS: return request(file, what);
    case VIDIOC_QUERYBUF: {
        struct v4l2_buffer *it = what;
        it->length = ROOM, it->m.offset = it->index * ROOM;
        return it->index < count ? 0 : refuse(EINVAL);
    }
    case VIDIOC_QBUF: return give(what);
    case VIDIOC_DQBUF: return take(what);
    case VIDIOC_STREAMON: return is_on = 1, began = now(), next = 0, 0;
    case VIDIOC_STREAMOFF: return is_on = 0;
    case VIDIOC_QUERY_EXT_CTRL: return refuse(EINVAL);
    }
    return refuse(ENOTTY);
}

/* The calls of the C library, those on other files as they are. */

#define TRUE(name, ...) ((__typeof__(&name))dlsym(RTLD_NEXT, #name))(__VA_ARGS__)

static int mode_in(int flags, va_list more) {
    return flags & (O_CREAT | __O_TMPFILE) ? va_arg(more, int) : 0;
}

int open(const char *path, int flags, ...) {
    va_list more;
    va_start(more, flags);
    int mode = mode_in(flags, more);
    va_end(more);
    return opened(path, TRUE(open, path, flags, mode));
}

int open64(const char *path, int flags, ...) {
    va_list more;
    va_start(more, flags);
    int mode = mode_in(flags, more);
    va_end(more);
    return opened(path, TRUE(open64, path, flags, mode));
}

int close(int file) {
    if (file >= 0 && file < FILES && is_ours[file]) is_ours[file] = is_on = 0;
    return TRUE(close, file);
}

int ioctl(int file, unsigned long word, ...) {
    va_list more;
    va_start(more, word);
    void *what = va_arg(more, void *);
    va_end(more);
    if (file < 0 || file >= FILES || !is_ours[file]) return TRUE(ioctl, file, word, what);
    return has_gone(file) ? refuse(ENODEV) : answer(file, word, what);
}

int poll(struct pollfd *files, nfds_t many, int millis) {
    if (many != 1 || files->fd < 0 || files->fd >= FILES || !is_ours[files->fd])
        return TRUE(poll, files, many, millis);
    long long end = now() + millis * 1000000LL;
    for (files->revents = 0;; usleep(5000)) {
        go_on();
        if (has_gone(files->fd)) return files->revents = POLLERR, 1;
        if (oldest() >= 0) return files->revents = POLLIN, 1;
        if (millis >= 0 && now() >= end) return 0;
    }
}
