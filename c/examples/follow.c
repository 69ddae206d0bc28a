/* follow.c: reads frames beside the program that records them, as they come, and takes no lock.
 *
 *     cc follow.c $(pkg-config --cflags --libs lapyrei) && ./a.out left.loop 100 */
#include <inttypes.h>
#include <lapyrei.h>
#include <stdio.h>
#include <stdlib.h>

static void want(int refusal) {
    if (!refusal) return;
    fprintf(stderr, "%s: %s (%" PRIu64 ")\n", lapyrei_name(refusal), lapyrei_text(refusal), lapyrei_detail());
    exit(1);
}

int main(int argc, char **argv) {
    if (argc != 3) return 2;
    lapyrei store;
    lapyrei_shape shape;
    lapyrei_head head;
    size_t size;
    want(lapyrei_open_read(argv[1], &store));
    want(lapyrei_shape_of(store, &shape, &size));
    unsigned char *frame = malloc(size);
    if (!frame) return 1;
    uint64_t newest = LAPYREI_NONE;
    for (int count = atoi(argv[2]); count > 0; count--) {
        /* The newest one; frames that came meanwhile are passed over. */
        int refusal = lapyrei_wait(store, newest, 10000, &newest);
        if (refusal == LAPYREI_TIMED_OUT) break;
        want(refusal);
        refusal = lapyrei_read(store, newest, &head, frame, size);
        if (refusal == LAPYREI_GONE) continue; /* a whole ring has gone by */
        want(refusal);
        uint64_t sum = 0;
        for (size_t i = 0; i < (size_t)shape.width * shape.height; i++) sum += frame[i];
        printf("frame %" PRIu64 " at %" PRIu64 " us: %.2f\n", newest, head.timestamp, (double)sum / shape.width / shape.height);
        fflush(stdout);
    }
    free(frame);
    want(lapyrei_close(store));
    return 0;
}
