/* What `loop_cli record N SOURCE PATH` does, as a plain program: a thread that reads frames and keeps up to 64 of them, and one that appends
   up to 8 of these at a time, each group with the system's calls of `loop_store`, and reads the newest frame back. It prints the same line.

       record FRAMES SOURCE PATH

   SOURCE is - for the pattern, or a YUV4MPEG2 file or pipe, of whose header it believes that its frames are as long as the store's. Each frame
   is copied as often as in the recorder: into a buffer, out of it into memory of its own, into the group. How many frames a group has depends
   on the threads, here as there. */
#include "store.h"
#include <pthread.h>

#ifndef MOST
#define MOST 8
#endif
enum { PLACES = 64, GROUP = MOST };

/* The frames that wait, the first one's place, how many wait, and whether none comes any more. */
static struct {
    pthread_mutex_t lock;
    pthread_cond_t changed;
    struct frame frames[PLACES];
    uint32_t first, count;
    int over;
} desk = {PTHREAD_MUTEX_INITIALIZER, PTHREAD_COND_INITIALIZER, {{0}}, 0, 0, 0};

struct camera {
    FILE *source;
    uint32_t frames, size;
};

/* The next frame of a source, if there is one. */
static int next_frame(const struct camera *camera, uint32_t n, uint8_t *out) {
    if (!camera->source) {
        for (uint32_t i = 0; i < camera->size; i++)
            out[i] = (uint8_t)(n + i);
        return 1;
    }
    int byte;
    while ((byte = getc_unlocked(camera->source)) != '\n')
        if (byte == EOF)
            return 0;
    return fread(out, 1, camera->size, camera->source) == camera->size;
}

static void submit(struct frame frame) {
    pthread_mutex_lock(&desk.lock);
    while (desk.count == PLACES)
        pthread_cond_wait(&desk.changed, &desk.lock);
    desk.frames[(desk.first + desk.count++) % PLACES] = frame;
    pthread_cond_broadcast(&desk.changed);
    pthread_mutex_unlock(&desk.lock);
}

static void *run_camera(void *given) {
    const struct camera *camera = given;
    uint8_t *device = memory(camera->size), *buffer = memory(camera->size);
    for (uint32_t n = 0; n < camera->frames && next_frame(camera, n, device); n++) {
        struct frame frame = {n, memory(camera->size)};
        memcpy(buffer, device, camera->size);
        memcpy(frame.bytes, buffer, camera->size);
        submit(frame);
    }
    pthread_mutex_lock(&desk.lock);
    desk.over = 1;
    pthread_cond_broadcast(&desk.changed);
    pthread_mutex_unlock(&desk.lock);
    return NULL;
}

/* The first frames that wait, as many as a group may have and the block has room for; 0 once none comes any more. */
static uint32_t take_group(const struct store *s, struct frame *group) {
    uint32_t room = s->slots - s->next % s->slots, count = 0;
    pthread_mutex_lock(&desk.lock);
    while (desk.count == 0 && !desk.over)
        pthread_cond_wait(&desk.changed, &desk.lock);
    for (; count < desk.count && count < GROUP && count < room; count++)
        group[count] = desk.frames[(desk.first + count) % PLACES];
    desk.first = (desk.first + count) % PLACES;
    desk.count -= count;
    pthread_cond_broadcast(&desk.changed);
    pthread_mutex_unlock(&desk.lock);
    return count;
}

/* The head of the newest frame, and then its pixels. */
static void read_newest(const struct store *s, uint8_t *slot) {
    uint64_t newest = s->next - 1;
    uint64_t at = 2560 + newest / s->slots % s->segments * s->segment + 512 + newest % s->slots * (32 + (uint64_t)s->size);
    read_at(s, at, slot, 32);
    read_at(s, at + 32, slot + 32, s->size);
}

int main(int argc, char **argv) {
    if (argc != 4)
        return 2;
    struct store s;
    struct camera camera = {NULL, (uint32_t)strtoul(argv[1], NULL, 10), 0};
    if (strcmp(argv[2], "-")) {
        camera.source = fopen(argv[2], "r");
        if (!camera.source || setvbuf(camera.source, NULL, _IOFBF, 65536))
            return 1;
        for (int byte; (byte = getc_unlocked(camera.source)) != '\n';)
            if (byte == EOF)
                return 1;
    }
    open_store(&s, argv[3]);
    camera.size = s.size;
    uint8_t *slots = memory(GROUP * (32 + (size_t)s.size)), *slot = memory(32 + (size_t)s.size);
    struct frame group[GROUP];
    pthread_t thread;
    if (pthread_create(&thread, NULL, run_camera, &camera))
        return 1;
    for (uint32_t count; (count = take_group(&s, group)) > 0;) {
        append(&s, slots, group, count);
        for (uint32_t i = 0; i < count; i++)
            free(group[i].bytes);
        read_newest(&s, slot);
    }
    pthread_join(thread, NULL);
    printf("camera 0 next %llu\n", (unsigned long long)s.next);
    return 0;
}
