/* script.c: runs a script of docs/script.md through lapyrei.h, on a file, and prints what loop_cli prints for one in memory.
 *
 *     script PATH [ends] < SCRIPT
 *
 * Besides: `group K` appends K frames in one call, `cut N` makes the file N bytes long behind the library's back, and `spoil A B`
 * writes a byte B at the place A. A line on standard output is written once its call was answered. With `ends` it
 * ends where the disk failed. */
#include "lapyrei.h"
#include <fcntl.h>
#include <inttypes.h>
#include <stdarg.h>
#include <stdio.h>
#include <stdlib.h>
#include <string.h>
#include <unistd.h>

static const char *path;
static int ends; /* where the disk failed */
static lapyrei store;
static lapyrei_shape shape;
static size_t size;
static uint32_t keep;
static uint64_t accepted, waiting; /* frames of the pattern that were accepted, and the last of them that still wait */

/* Writes by `write`, which preload.c logs. */
__attribute__((format(printf, 1, 2))) static void say(const char *how, ...) {
    char text[200];
    va_list with;
    va_start(with, how);
    int length = vsnprintf(text, sizeof text, how, with);
    va_end(with);
    if (write(1, text, (size_t)length) != length) exit(4);
}

static void refused(int refusal) {
    if (refusal == LAPYREI_CLIP_NOT_HELD || refusal == LAPYREI_DAMAGED)
        say("refused %d %s %" PRIu64 "\n", refusal, lapyrei_name(refusal), lapyrei_detail());
    else say("refused %d %s\n", refusal, lapyrei_name(refusal));
    if (refusal == LAPYREI_DISK && ends) exit(0);
}

static uint64_t next_number(void) {
    uint64_t number = 0;
    lapyrei_next(store, &number);
    return number;
}

static void fill(uint64_t n, lapyrei_head *head, unsigned char *bytes) {
    unsigned __int128 time = (unsigned __int128)n * 1000000 * shape.rate_den / shape.rate_num;
    head->sequence = (uint32_t)n;
    head->flags = 0x2000;
    head->timestamp = time > UINT64_MAX ? UINT64_MAX : (uint64_t)time;
    for (size_t i = 0; i < size; i++) bytes[i] = (unsigned char)(n + i);
}

/* Stores the first frames that wait, so many in one call. */
static int append(uint64_t count, uint64_t *first) {
    lapyrei_head *heads = calloc(count, sizeof *heads);
    unsigned char *bytes = malloc(count * size);
    for (uint64_t i = 0; i < count; i++) fill(accepted - waiting + i, &heads[i], bytes + i * size);
    int refusal = lapyrei_append(store, heads, bytes, count, size, first);
    free(heads);
    free(bytes);
    if (!refusal) waiting -= count;
    return refusal;
}

static int flush(uint64_t *first) {
    uint64_t room = 0;
    if (!waiting) return 0;
    int refusal = lapyrei_room(store, &room);
    return refusal ? refusal : append(room < waiting ? room : waiting, first);
}

static void stored(uint64_t first, uint64_t count) {
    if (count) say("stored %" PRIu64 "..%" PRIu64 "\n", first, first + count - 1);
}

static void store_frames(uint64_t count) {
    uint64_t from = 0, all = 0, first = 0;
    int refusal = 0;
    for (uint64_t i = 0; i < count && !refusal; i++) {
        if (waiting == 64) { refusal = 7; break; }
        accepted++, waiting++;
        uint64_t before = waiting;
        refusal = flush(&first);
        if (!all) from = first;
        all += before - waiting;
    }
    stored(from, all);
    if (refusal == 7) say("refused 7 PendingFull\n");
    else if (refusal) refused(refusal);
    else if (!all) say("stored none\n");
}

static void list(void) {
    static lapyrei_run runs[1 << 15];
    size_t count = 0;
    uint64_t next;
    int refusal = lapyrei_next(store, &next);
    if (!refusal) refusal = lapyrei_frames_of(store, 0, UINT64_MAX, runs, 1 << 15, &count);
    if (refusal) { refused(refusal); return; }
    say("next %" PRIu64 "\n", next);
    for (size_t i = 0; i < count; i++) say("frames %" PRIu64 "..%" PRIu64 "\n", runs[i].from, runs[i].to);
    refusal = lapyrei_clips(store, runs, 64, &count);
    if (refusal) { refused(refusal); return; }
    for (size_t i = 0; i < count; i++) {
        say("clip %" PRIu64 " %" PRIu64 "..%" PRIu64, runs[i].id, runs[i].from, runs[i].to);
        if (runs[i].tag) say(" tag %" PRIu64, runs[i].tag);
        say("\n");
    }
}

static void read_frame(uint64_t number) {
    lapyrei_head head = {0}, again = {0};
    unsigned char *bytes = malloc(size);
    int refusal = lapyrei_read(store, number, &head, bytes, size), other = lapyrei_read_head(store, number, &again);
    if (refusal != other || memcmp(&head, &again, sizeof head)) say("the head is another\n");
    if (refusal) refused(refusal);
    else {
        char text[17] = "";
        for (size_t i = 0; i < size && i < 8; i++) sprintf(text + 2 * i, "%02x", bytes[i]);
        say("frame %" PRIu64 " sequence %u time %" PRIu64 " bytes %s\n", head.number, head.sequence, head.timestamp, text);
    }
    free(bytes);
}

static void opens(uint32_t newest) {
    if (store) lapyrei_close(store);
    int refusal = lapyrei_open_keeping(path, newest, &store);
    if (refusal) {
        refused(refusal);
        if (refusal != LAPYREI_BAD_KEEP || lapyrei_open(path, &store)) return;
        newest = 1;
    } else say("opened\n");
    keep = newest;
    lapyrei_shape_of(store, &shape, &size);
}

static void format(const char *words, uint32_t version) {
    char name[8];
    lapyrei_shape made = {.version = version};
    sscanf(words, "%u %u %7s %u:%u %u %u", &made.width, &made.height, name, &made.rate_num, &made.rate_den, &made.segments, &made.slots);
    static const char *const names[] = {"GREY", "YM12", "YM16", "YM24"};
    while (made.format < 4 && strcmp(name, names[made.format])) made.format++;
    int was_open = store != 0;
    if (was_open) lapyrei_close(store);
    int refusal = lapyrei_format_over(path, &made, &store);
    if (refusal) {
        refused(refusal);
        if (was_open) lapyrei_open_keeping(path, keep, &store);
        return;
    }
    say("formatted\n");
    keep = 1, accepted = waiting = 0;
    lapyrei_shape_of(store, &shape, &size);
}

static void submit(uint64_t count) {
    uint64_t from = next_number() + waiting, some = count < 64 - waiting ? count : 64 - waiting;
    accepted += some, waiting += some;
    if (some) say("submitted %" PRIu64 "..%" PRIu64 "\n", from, from + some - 1);
    if (some < count) say("refused 7 PendingFull\n");
    else if (!count) say("submitted none\n");
}

static void upgrade(void) {
    int did = 0, refusal = lapyrei_upgrade(store, &did);
    if (refusal) refused(refusal);
    else say(did ? "upgraded\n" : "already 2\n");
}

static void change(const char *line) {
    uint64_t a = 0, b = 0;
    int file = open(path, O_RDWR);
    if (sscanf(line, "cut %" SCNu64, &a) == 1 && ftruncate(file, (off_t)a)) exit(3);
    if (sscanf(line, "spoil %" SCNu64 " %" SCNu64, &a, &b) == 2 && pwrite(file, &b, 1, (off_t)a) != 1) exit(3);
    close(file);
}

static void run(const char *line) {
    uint64_t a = 0, b = 0, c = 0, before = waiting, first = 0;
    uint32_t id;
    int refusal;
    if (!strncmp(line, "format ", 7)) format(line + 7, 2);
    else if (!strncmp(line, "format1 ", 8)) format(line + 8, 1);
    else if (!strncmp(line, "cut", 3) || !strncmp(line, "spoil", 5)) change(line);
    else if (!strncmp(line, "open", 4)) opens(1);
    else if (!store) say("refused 4 NotFormatted\n");
    else if (sscanf(line, "submit %" SCNu64, &a) == 1) submit(a);
    else if (sscanf(line, "store %" SCNu64, &a) == 1) store_frames(a);
    else if (sscanf(line, "read %" SCNu64, &a) == 1) read_frame(a);
    else if (sscanf(line, "group %" SCNu64, &a) == 1) {
        accepted += a, waiting = a;
        if ((refusal = append(a, &first))) refused(refusal), accepted -= a, waiting = 0;
        else stored(first, a);
    } else if (!strcmp(line, "flush")) {
        refusal = flush(&first);
        stored(first, before - waiting);
        if (refusal) refused(refusal);
        else if (before == waiting) say("stored none\n");
    } else if (sscanf(line, "lock %" SCNu64 " %" SCNu64 " %" SCNu64, &a, &b, &c) >= 2) {
        if ((refusal = lapyrei_lock(store, a, b, c, &id))) refused(refusal);
        else say("locked %u\n", id);
    } else if (sscanf(line, "unlock %" SCNu64, &a) == 1) {
        if ((refusal = lapyrei_unlock(store, (uint32_t)a))) refused(refusal);
        else say("unlocked %" PRIu64 "\n", a);
    } else if (!strcmp(line, "list")) list();
    else if (!strcmp(line, "upgrade")) upgrade();
    else if (sscanf(line, "reopen %" SCNu64, &a) == 1) waiting = 0, opens((uint32_t)a);
    else if (!strcmp(line, "reopen")) waiting = 0, opens(1);
    else say("bad command %s\n", line);
}

int main(int argc, char **argv) {
    static char line[4200];
    if (argc < 2) return 2;
    path = argv[1];
    ends = argc > 2;
    while (fgets(line, sizeof line, stdin)) {
        line[strcspn(line, "\n")] = 0;
        run(line);
    }
    if (store) lapyrei_close(store);
    return 0;
}
