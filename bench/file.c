/* The system's calls of `bench_programs append-file` and `lock-file` as a plain program, with the same places and sizes and in the same
   order; it checks nothing. And one bare write of the same bytes and one fdatasync for each group.

       file append PATH GROUP GROUPS
       file bare PATH GROUP GROUPS
       file lock PATH ROUNDS
       file forget PATH

   The store in the file has no clips, and the blocks from 0 on, each full but the last. `forget` asks the system to drop the file's
   pages. */
#include "store.h"

/* The same slots at the same places, and nothing else. */
static void append_bare(struct store *s, uint8_t *slots, const struct frame *frames, uint32_t count) {
    uint64_t at = 2560 + s->next / s->slots % s->segments * s->segment;
    put_group(s, slots, frames, count);
    write_at(s, at + 512 + s->next % s->slots * (32 + (uint64_t)s->size), slots, count * (32 + (size_t)s->size));
    sync_file(s);
    s->next += count;
}

static int forget(const char *path) {
    int file = open(path, O_RDONLY);
    return file < 0 || fsync(file) || posix_fadvise(file, 0, 0, POSIX_FADV_DONTNEED);
}

/* The newest frame is locked as clip 0, and unlocked again. */
static void lock_and_unlock(const struct store *s) {
    uint8_t entry[31] = {0};
    put64(entry + 7, s->next - 1);
    put64(entry + 15, s->next - 1);
    write_at(s, 513, entry, 31);
    sync_file(s);
    write_at(s, 512, open_gates, 1);
    sync_file(s);
    write_at(s, 512, &closed_gate, 1);
    sync_file(s);
}

/* A frame of its own memory, all of whose bytes are the last one of its number. */
static struct frame made(const struct store *s, uint32_t sequence) {
    struct frame frame = {sequence, memory(s->size)};
    memset(frame.bytes, sequence, s->size);
    return frame;
}

/* The same group, so many times. Pages that were never written would all be the system's one page of zeros, and stay in the cache. */
static void append_groups(struct store *s, uint8_t *slots, uint32_t count, uint32_t groups, int bare) {
    struct frame frames[8];
    for (uint32_t i = 0; i < count; i++) {
        frames[i] = made(s, 1);
        frames[i].sequence = 0;
    }
    for (uint32_t n = 0; n < groups; n++)
        (bare ? append_bare : append)(s, slots, frames, count);
}

int main(int argc, char **argv) {
    if (argc == 3 && !strcmp(argv[1], "forget"))
        return forget(argv[2]);
    if (argc == 4 && !strcmp(argv[1], "lock")) {
        struct store s;
        open_store(&s, argv[2]);
        for (int rounds = atoi(argv[3]); rounds > 0; rounds--)
            lock_and_unlock(&s);
        printf("locked, next %llu\n", (unsigned long long)s.next);
        return 0;
    }
    if (argc != 5 || (strcmp(argv[1], "append") && strcmp(argv[1], "bare")))
        return 2;
    struct store s;
    open_store(&s, argv[2]);
    uint32_t count = atoi(argv[3]), groups = atoi(argv[4]);
    if (count == 0 || count > 8)
        return 1;
    uint8_t *slots = memory(8 * (32 + (size_t)s.size));
    append_groups(&s, slots, count, groups, !strcmp(argv[1], "bare"));
    printf("appended, next %llu\n", (unsigned long long)s.next);
    return 0;
}
