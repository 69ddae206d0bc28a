/* first.c: makes a store, records ten frames, locks two, and reads one back.
 *
 *     cc first.c $(pkg-config --cflags --libs lapyrei) && ./a.out first.loop */
#include <inttypes.h>
#include <lapyrei.h>
#include <stdio.h>
#include <stdlib.h>
#include <string.h>

/* Ends where a call is refused: its name, its sentence, and what it names. */
static void want(int refusal) {
    if (!refusal) return;
    fprintf(stderr, "%s: %s (%" PRIu64 ")\n", lapyrei_name(refusal), lapyrei_text(refusal), lapyrei_detail());
    exit(1);
}

int main(int argc, char **argv) {
    if (argc != 2) return 2;
    /* Frames of 64 x 48 pixels, YUV 4:2:0, 25 in 1 second; a ring of 3 segments of 3 frames. */
    lapyrei_shape shape = {64, 48, LAPYREI_YM12, 25, 1, 3, 3, 0};
    lapyrei store;
    size_t size;
    want(lapyrei_format(argv[1], &shape, &store));
    want(lapyrei_shape_of(store, &shape, &size));

    /* A camera would fill these. */
    unsigned char *frame = malloc(size);
    if (!frame) return 1;
    uint64_t number = 0;
    for (uint32_t i = 0; i < 10; i++) {
        lapyrei_head head = {.timestamp = i * 40000, .sequence = i};
        memset(frame, (int)i, size);
        want(lapyrei_append(store, &head, frame, 1, size, &number));
        /* It is on the disk now. */
    }
    printf("stored 0..%" PRIu64 "\n", number);

    /* The ring holds the newest ones. */
    lapyrei_run runs[8];
    size_t count;
    want(lapyrei_frames_of(store, 80000, UINT64_MAX, runs, 8, &count));
    for (size_t i = 0; i < count && i < 8; i++)
        printf("frames %" PRIu64 "..%" PRIu64 "\n", runs[i].from, runs[i].to);

    /* A clip stays until it is unlocked. */
    want(lapyrei_lock(store, 8, 9, 0, NULL));
    want(lapyrei_clips(store, runs, 8, &count));
    printf("clip %" PRIu64 ": %" PRIu64 "..%" PRIu64 "\n", runs[0].id, runs[0].from, runs[0].to);

    lapyrei_head head;
    want(lapyrei_read(store, 9, &head, frame, size));
    printf("frame %" PRIu64 ": %" PRIu64 " us\n", head.number, head.timestamp);
    free(frame);
    want(lapyrei_close(store));
    return 0;
}
