/* lapyrei_newest.c: a function for MATLAB and Octave: the newest frame of a store that is being recorded.
 *
 *     mex lapyrei_newest.c -llapyrei               in MATLAB
 *     mkoctfile --mex lapyrei_newest.c -llapyrei   for Octave
 *
 *     [picture, number, time] = lapyrei_newest('left.loop')         the newest frame
 *     [picture, number, time] = lapyrei_newest('left.loop', number) waits for the next one, for 10 s at most
 *
 * picture is the luma, or grey, (height, width) uint8; number and time (microseconds) are uint64. */
#include <lapyrei.h>
#include <mex.h>
#include <stdlib.h>

static void want(int refusal) {
    if (refusal) mexErrMsgIdAndTxt("lapyrei:refused", "%s: %s", lapyrei_name(refusal), lapyrei_text(refusal));
}

/* A store that is closed once a call ends: an error leaves it open, so calls are made before. */
static int newest_of(const char *path, uint64_t after, lapyrei_shape *shape, lapyrei_head *head, unsigned char **frame) {
    lapyrei store;
    size_t size;
    int refusal = lapyrei_open_read(path, &store);
    if (refusal) return refusal;
    refusal = lapyrei_shape_of(store, shape, &size);
    *frame = refusal ? NULL : malloc(size);
    if (!refusal && !*frame) refusal = LAPYREI_NO_MEMORY;
    if (!refusal) do {
        refusal = lapyrei_wait(store, after, 10000, &after);
        if (!refusal) refusal = lapyrei_read(store, after, head, *frame, size);
    } while (refusal == LAPYREI_GONE);
    lapyrei_close(store);
    return refusal;
}

static mxArray *number(uint64_t value) {
    mxArray *it = mxCreateNumericMatrix(1, 1, mxUINT64_CLASS, mxREAL);
    *(uint64_t *)mxGetData(it) = value;
    return it;
}

void mexFunction(int outs, mxArray *out[], int ins, const mxArray *in[]) {
    lapyrei_shape shape;
    lapyrei_head head;
    unsigned char *frame = NULL;
    if (ins < 1 || !mxIsChar(in[0])) mexErrMsgIdAndTxt("lapyrei:words", "which store? lapyrei_newest('left.loop')");
    char *path = mxArrayToString(in[0]);
    int refusal = newest_of(path, ins > 1 ? (uint64_t)mxGetScalar(in[1]) : LAPYREI_NONE, &shape, &head, &frame);
    mxFree(path);
    if (refusal) free(frame);
    want(refusal);
    /* MATLAB has columns one after the other, and a frame rows. */
    out[0] = mxCreateNumericMatrix(shape.height, shape.width, mxUINT8_CLASS, mxREAL);
    unsigned char *to = mxGetData(out[0]);
    for (size_t row = 0; row < shape.height; row++)
        for (size_t column = 0; column < shape.width; column++) to[column * shape.height + row] = frame[row * shape.width + column];
    free(frame);
    if (outs > 1) out[1] = number(head.number);
    if (outs > 2) out[2] = number(head.timestamp);
}
