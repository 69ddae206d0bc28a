/* Runs a program by a seed: one of its threads at a time, by a clock of its own, in a world that a
 * script brings. tests/simulate builds it as a shared library, writes the script, and preloads it.
 * All threads are stacks of one thread of the system, which goes from one to the other: so a step
 * costs no look of the system at who is next.
 *
 *   VIRTUAL_SCRIPT   the script
 *   VIRTUAL_LOG      a file that gets all that happened, in its order
 *
 * A thread has the baton, and every other one waits for it. At each call that comes here the thread
 * may hand it to another one, by pseudo-random numbers alone. Waits for a time, a word of memory
 * (futex), a pipe or a thread's end are made here. The clock goes a little further with each call,
 * and to the next time that somebody waits for where all threads wait. So what a script has decides
 * all that the program does.
 *
 * The script's lines; times are microseconds of the world, and NAME is a part of a path:
 *
 *   seed S                  decides what the lines leave open
 *   begin AT EPOCH          the world's time now, and what the time of day is at 0 of it
 *   switch N                a thread hands the baton on at one call of N
 *   tick N                  each call takes 1 to N microseconds
 *   uneven N                one thread of N gets the baton a hundred times less often
 *   sync NAME MICROS        syncs of these files take half of that to one and a half
 *   reads NAME MICROS       reads of these files take half of that to one and a half
 *   slow FROM TO NAME MICROS    they take so much more in that time
 *   bad FROM TO NAME CALL ERRNO N    one such call of N on these files fails in that time; CALL is
 *                           open, read, write, sync, truncate or rename
 *   answers NAME            the file of answers, which no loss of power touches
 *   reader FROM TO N        where that is a pipe: somebody reads it in that time, N bytes a second
 *   sink NAME ROOM          a pipe into which clips are saved, with room for so many bytes
 *   taker FROM TO NAME N    somebody reads that pipe in that time, N bytes a second
 *   refuse FROM TO N MOST LEAST UNTIL   the program gets no memory at one of N times in that time,
 *                           MOST times at most: where that is LEAST bytes or more, and fewer than
 *                           UNTIL; without those, whatever it asks for
 *   pipe AHEAD NAME HEADER  the next pipe of a source; where AHEAD is 1, its writer goes on, and
 *                           gave its header before
 *   orders NAME             the pipe of orders
 *   frame AT PIPE NUMBER SIZE LINE     a frame, whose bytes have its number
 *   part AT PIPE NUMBER SIZE BYTES LINE   so many bytes of it
 *   close AT PIPE           the writer ends; the next frame is another one's, who gives the header
 *   order AT TEXT           somebody opens the pipe of orders, writes a line and closes it
 *   unended AT TEXT         the same, without the line's end
 *   clock AT MICROS         the time of day is set so much further
 *   pause AT MICROS         the program stands still
 *   kill AT                 it ends
 *   changes N               it ends before it changes a file for the Nth time
 *   lines N                 it ends after it has written to its answers for the Nth time
 *   move AT FROM TO         somebody moves a file
 *
 * A record of the log is a byte for its kind, the time, a number, a place and a count of bytes (8,
 * 4, 8 and 4 bytes), and the bytes: C a file is made, X one is met that was there (bytes: its name,
 * number: the file from now on), W written, T its length, S synced (place: how many records came
 * before the sync began), N renamed, L linked, U unlinked, M a folder made, F a folder synced,
 * V somebody moved a file, B a call on a file failed (number: its letter, bytes: the file's name),
 * A answers, I a pipe of clips is opened to be written (number: the pipe, place: the descriptor),
 * Y written to it, Z memory was refused (place: how much), O standard output or error, P a frame or
 * an order came (number: the pipe, place: the line of the script), D nobody read it, Q its writer
 * closed it, R a file is read there, which no other record counts, E the end (bytes: why).
 */
#define _GNU_SOURCE
#include <dlfcn.h>
#include <errno.h>
#include <fcntl.h>
#include <link.h>
#include <linux/futex.h>
#include <pthread.h>
#include <sched.h>
#include <stdarg.h>
#include <stdint.h>
#include <stdio.h>
#include <stdlib.h>
#include <string.h>
#include <sys/mman.h>
#include <sys/stat.h>
#include <sys/file.h>
#include <sys/syscall.h>
#include <sys/sysmacros.h>
#include <sys/time.h>
#include <sys/uio.h>
#include <time.h>
#include <unistd.h>

#define NEVER UINT64_MAX
#define THREADS 512
#define PIPES 24
#define FILES 4096
#define FDS 1024
#define RULES 256
#define CAPACITY 65536
/* The clock that isn't set was at so many microseconds when the world began. */
#define BOOT 2000000000ull

/* ------------------------------------------------------------------------------------------------
 * calls of the system */

static long raw(long number, long a, long b, long c, long d, long e, long f) {
    long answer;
    register long r10 __asm__("r10") = d;
    register long r8 __asm__("r8") = e;
    register long r9 __asm__("r9") = f;
    __asm__ volatile("syscall" : "=a"(answer)
                     : "a"(number), "D"(a), "S"(b), "d"(c), "r"(r10), "r"(r8), "r"(r9)
                     : "rcx", "r11", "memory");
    return answer;
}

#define RAW(number, a, b, c, d) raw(number, (long)(a), (long)(b), (long)(c), (long)(d), 0, 0)

/* What a call of the system answers, as a program sees it. */
static long seen(long answer) {
    if (answer >= 0 || answer < -4095) return answer;
    errno = (int)-answer;
    return -1;
}

/* ------------------------------------------------------------------------------------------------
 * the world */

enum op { FRAME, PART, CLOSE, ORDER, UNENDED, CLOCK, PAUSE, MOVE, KILL };

struct event {
    enum op op;
    uint64_t at, number, size, bytes;
    int pipe, line;
    char *text;
};

struct pipe {
    char *path, *header;
    int readers, has_writer, wants_header, is_orders, waits;
    int *events, count, next;
    /* The bytes of the event that is being written, and how many are in the pipe. */
    char *piece;
    uint64_t length, sent;
    char held[CAPACITY];
    uint64_t begin, filled;
};

struct rule {
    char kind, call;
    uint64_t from, to, value, every;
    char name[64];
};

static int is_on;
static uint64_t now, steps, seed, epoch, ticks = 3, one_of = 8, uneven;
static uint64_t changes, last_change = NEVER;
static uint64_t answered, last_answer = NEVER;
static struct event *events;
static int event_count, *others, other_count, other_next;
static struct pipe pipes[PIPES];
static int pipe_count, orders_pipe = -1;
static struct rule rules[RULES];
static int rule_count;
static char answers_name[256] = "", folder[4096];

/* Who reads the answers, where they are a pipe: when, and how many bytes a second; how many of the
 * bytes in it are read, and how many ends are open to be read besides. */
struct reader {
    uint64_t from, to, rate;
};

static struct reader readers[RULES];
static int reader_count, held_ends;
static uint64_t answers_held, drained_at;

/* A pipe into which clips are saved: its room, how many bytes are in it, and how many of its ends
 * the program has open to be read. */
struct sink {
    char *path;
    uint64_t room, held, drained_at;
    int ends;
};

/* Who reads such a pipe. */
struct taker {
    uint64_t from, to, rate;
    int sink;
};

static struct sink sinks[PIPES];
static int sink_count;
static struct taker takers[RULES];
static int taker_count;

/* When the program gets no memory. */
struct lack {
    uint64_t from, to, every, most, least, until;
};

static struct lack lacks[RULES];
static int lack_count;

/* A number below n. */
static uint64_t pick(uint64_t n) {
    uint64_t z = seed += 0x9e3779b97f4a7c15ull;
    z = (z ^ (z >> 30)) * 0xbf58476d1ce4e5b9ull;
    z = (z ^ (z >> 27)) * 0x94d049bb133111ebull;
    z ^= z >> 31;
    return n ? z % n : 0;
}

/* ------------------------------------------------------------------------------------------------
 * the log: a file in memory, so that it is whole however the program ends */

#define LOG_MOST (4ull << 30)
static char *log_bytes;
static uint64_t log_at, log_records;
static int log_fd = -1;

static void note(char kind, uint32_t number, uint64_t place, uint64_t count, const void *bytes) {
    if (!log_bytes || log_at + 25 + count > LOG_MOST) return;
    char *to = log_bytes + log_at;
    uint32_t short_count = (uint32_t)count;
    memcpy(to + 1, &now, 8);
    memcpy(to + 9, &number, 4);
    memcpy(to + 13, &place, 8);
    memcpy(to + 21, &short_count, 4);
    if (count) memcpy(to + 25, bytes, count);
    to[0] = kind;
    log_at += 25 + count;
    log_records += kind != 'R';
}

static void ends(const char *why) {
    char text[128];
    int count = snprintf(text, sizeof text, "%s steps %llu changes %llu", why,
                         (unsigned long long)steps, (unsigned long long)changes);
    note('E', 0, steps, count, text);
    RAW(SYS_ftruncate, log_fd, log_at, 0, 0);
    RAW(SYS_exit_group, strncmp(why, "kill", 4) ? 134 : 137, 0, 0, 0);
}

/* ------------------------------------------------------------------------------------------------
 * threads */

enum state { READY, WAITING, OVER };

struct thread {
    enum state state;
    int is_woken, is_detached;
    const void *key;
    uint64_t due, weight;
    pthread_t handle;
    void *(*run)(void *);
    void *with, *answer;
    /* Where its stack begins, how large it is, and where it stands while another thread runs. */
    char *stack;
    size_t room;
    void *at;
};

static struct thread threads[THREADS];
static int thread_count;
static uint64_t next_due = NEVER;
static struct thread *self;

/* Puts what a call keeps on this stack, notes where that stands, and goes on where another one
 * stands. */
void virtual_switch(void **from, void *to);
__asm__(".text\n"
        ".globl virtual_switch\n"
        ".type virtual_switch, @function\n"
        "virtual_switch:\n"
        "    push %rbp\n    push %rbx\n    push %r12\n"
        "    push %r13\n    push %r14\n    push %r15\n"
        "    mov %rsp, (%rdi)\n    mov %rsi, %rsp\n"
        "    pop %r15\n    pop %r14\n    pop %r13\n"
        "    pop %r12\n    pop %rbx\n    pop %rbp\n"
        "    ret\n"
        ".size virtual_switch, .-virtual_switch\n");

/* Another thread goes on, until this one is chosen again. */
static void go_to(struct thread *next) {
    struct thread *me = self;
    self = next;
    virtual_switch(&me->at, next->at);
}

static void wake_due(void) {
    if (now < next_due) return;
    next_due = NEVER;
    for (int at = 0; at < thread_count; at++) {
        struct thread *it = &threads[at];
        if (it->state != WAITING) continue;
        if (it->due <= now) it->state = READY;
        else if (it->due < next_due) next_due = it->due;
    }
}

static void world(void);
static uint64_t next_event(void);

/* Who gets the baton next; where all wait, time goes on to what comes next. */
static struct thread *chosen(void) {
    for (;;) {
        wake_due();
        uint64_t all = 0;
        for (int at = 0; at < thread_count; at++)
            if (threads[at].state == READY) all += threads[at].weight;
        if (all) {
            uint64_t which = pick(all);
            for (int at = 0; at < thread_count; at++) {
                if (threads[at].state != READY) continue;
                if (which < threads[at].weight) return &threads[at];
                which -= threads[at].weight;
            }
        }
        uint64_t event = next_event(), then = next_due < event ? next_due : event;
        if (then == NEVER) ends("all threads wait for ever,");
        if (then > now) now = then;
        world();
    }
}

static void pass(void) {
    struct thread *next = chosen();
    if (next != self) go_to(next);
}

/* Waits until somebody wakes the key, or until then. Answers whether it was woken. */
static int block(const void *key, uint64_t due) {
    struct thread *me = self;
    me->state = WAITING;
    me->key = key;
    me->due = due;
    me->is_woken = 0;
    if (due < next_due) next_due = due;
    pass();
    me->key = NULL;
    return me->is_woken;
}

/* Wakes up to so many that wait for a key, whichever. */
static long wake(const void *key, long most) {
    struct thread *found[THREADS];
    long count = 0, woken = 0;
    for (int at = 0; at < thread_count; at++)
        if (threads[at].state == WAITING && threads[at].key == key) found[count++] = &threads[at];
    for (; woken < most && count > 0; woken++) {
        long which = count > most - woken ? (long)pick(count) : 0;
        found[which]->state = READY;
        found[which]->is_woken = 1;
        memmove(found + which, found + which + 1, (count - which - 1) * sizeof *found);
        count--;
    }
    return woken;
}

/* A call comes: time goes on, and perhaps another thread. */
static void step(void) {
    if (!is_on || !self) return;
    steps++;
    now += 1 + pick(ticks);
    world();
    if (pick(one_of) == 0) pass();
}

/* Time passes for this thread. */
static void spend(uint64_t micros) {
    if (is_on && self && micros) block(NULL, now + micros);
}

/* ------------------------------------------------------------------------------------------------
 * pipes */

/* Makes the bytes of an event. */
static void compose(struct pipe *it, struct event *event) {
    uint64_t size = event->op == FRAME || event->op == PART ? event->size : 0;
    uint64_t head = it->wants_header ? strlen(it->header) + 1 : 0;
    uint64_t line = strlen(event->text);
    it->piece = malloc(head + line + 1 + size);
    char *to = it->piece;
    if (head) {
        memcpy(to, it->header, head - 1);
        to[head - 1] = '\n';
        to += head;
    }
    memcpy(to, event->text, line);
    to += line;
    if (event->op != UNENDED) *to++ = '\n';
    for (uint64_t at = 0; at < size; at++) *to++ = (char)(event->number >> at % 8 * 8);
    it->length = to - it->piece;
    if (event->op == PART && event->bytes < line + 1 + size) it->length = head + event->bytes;
    it->sent = 0;
    it->wants_header = 0;
    it->has_writer = 1;
}

static void put(struct pipe *it) {
    while (it->sent < it->length && it->filled < CAPACITY) {
        uint64_t end = (it->begin + it->filled) % CAPACITY, count = it->length - it->sent;
        if (count > CAPACITY - it->filled) count = CAPACITY - it->filled;
        if (count > CAPACITY - end) count = CAPACITY - end;
        memcpy(it->held + end, it->piece + it->sent, count);
        it->sent += count;
        it->filled += count;
    }
}

/* The writer of a pipe does what is due, as far as the pipe has room. */
static void flow(struct pipe *it) {
    while (it->next < it->count && events[it->events[it->next]].at <= now) {
        struct event *event = &events[it->events[it->next]];
        it->waits = 0;
        if (event->op == CLOSE) {
            note('Q', it - pipes, event->line, 0, NULL);
            it->has_writer = 0;
            it->wants_header = 1;
            it->next++;
            wake(it, THREADS);
            continue;
        }
        if (!it->readers && !it->piece && !it->is_orders && !it->wants_header) {
            /* Its write fails, and it ends. */
            it->wants_header = 1;
            it->has_writer = 0;
        }
        if (!it->readers && !it->piece && !it->is_orders) {
            /* Who opens the pipe anew waits for a reader, and takes no frame meanwhile. It is there
             * once one opens. */
            note('D', it - pipes, event->line, 0, NULL);
            it->next++;
            wake(it, THREADS);
            continue;
        }
        if (!it->readers) {
            it->waits = 1;
            return;
        }
        if (!it->piece) compose(it, event);
        put(it);
        wake(it, THREADS);
        if (it->sent < it->length) {
            it->waits = 1;
            return;
        }
        free(it->piece);
        it->piece = NULL;
        if (it->is_orders) it->has_writer = 0;
        note('P', it - pipes, event->line, it->is_orders ? strlen(event->text) : 0, event->text);
        it->next++;
    }
}

/* When something comes next, by those pipes whose writers don't wait. */
static uint64_t looked = 0;

/* Who waits to write goes on, and what it brings then may be the next that comes. */
static void go_on(struct pipe *it) {
    if (it->waits) looked = 0;
    it->waits = 0;
    flow(it);
}

static void read_by(struct pipe *it) {
    it->readers++;
    go_on(it);
}

static void left_by(struct pipe *it) {
    if (--it->readers) return;
    it->begin = it->filled = 0;
    if (it->has_writer || it->piece) {
        if (it->piece) {
            note('D', it - pipes, events[it->events[it->next]].line, 0, NULL);
            free(it->piece);
            it->piece = NULL;
            it->next++;
        }
        it->has_writer = 0;
        if (!it->is_orders) it->wants_header = 1;
    }
}

/* Reads from a pipe. Who has it open to be written, too, never comes to its end. */
static ssize_t read_pipe(struct pipe *it, int is_rw, char *bytes, size_t count) {
    while (!it->filled) {
        if (!it->has_writer && !is_rw) return 0;
        block(it, NEVER);
    }
    if (count > it->filled) count = it->filled;
    for (size_t at = 0; at < count; at++) bytes[at] = it->held[(it->begin + at) % CAPACITY];
    it->begin = (it->begin + count) % CAPACITY;
    it->filled -= count;
    go_on(it);
    return count;
}

/* ------------------------------------------------------------------------------------------------
 * what comes by itself */

static uint64_t next_event(void) {
    uint64_t least = other_next < other_count ? events[others[other_next]].at : NEVER;
    for (int at = 0; at < pipe_count; at++) {
        struct pipe *it = &pipes[at];
        if (it->waits || it->next == it->count) continue;
        uint64_t then = events[it->events[it->next]].at;
        if (then < least) least = then;
    }
    return least;
}

/* Moves a file: two names with a space between. */
static void move(const char *names) {
    char from[256], to[256], both[520];
    if (sscanf(names, "%255s %255s", from, to) != 2) return;
    if (RAW(SYS_rename, from, to, 0, 0)) return;
    int count = snprintf(both, sizeof both, "%s%c%s", from, 0, to);
    note('V', 0, 0, count, both);
}

/* Who reads the answers now. */
static struct reader *reader_now(void) {
    for (int at = 0; at < reader_count; at++)
        if (readers[at].from <= now && now < readers[at].to) return &readers[at];
    return NULL;
}

/* What was read of the answers since that was looked at. */
static void drain(void) {
    struct reader *it = reader_now();
    uint64_t micros = now - drained_at, count = it ? micros * it->rate / 1000000 : 0;
    if (it && !count && it->rate) return;
    drained_at = now;
    answers_held -= count < answers_held ? count : answers_held;
}

/* When answers may be written or opened again: soon, or when the next reader comes. */
static uint64_t next_reader(void) {
    uint64_t least = NEVER;
    if (reader_now()) return now + 20000;
    for (int at = 0; at < reader_count; at++)
        if (readers[at].from > now && readers[at].from < least) least = readers[at].from;
    return least;
}

static void world(void) {
    if (now < looked) return;
    while (other_next < other_count && events[others[other_next]].at <= now) {
        struct event *event = &events[others[other_next++]];
        if (event->op == KILL) ends("killed by time,");
        if (event->op == CLOCK) epoch += event->number;
        if (event->op == PAUSE) now += event->number;
        if (event->op == MOVE) move(event->text);
    }
    for (int at = 0; at < pipe_count; at++)
        if (!pipes[at].waits) flow(&pipes[at]);
    looked = next_event();
}

/* A file is about to be changed. */
static void change(void) {
    if (changes++ == last_change) ends("killed by count,");
}

/* ------------------------------------------------------------------------------------------------
 * memory */

void *__libc_malloc(size_t size);
void *__libc_realloc(void *block, size_t size);

/* Where the program itself lies, whose calls alone are refused: not those of its libraries. */
static uintptr_t own_from, own_to;

static int find_own(struct dl_phdr_info *it, size_t size, void *data) {
    (void)size, (void)data;
    for (int at = 0; at < it->dlpi_phnum; at++) {
        const ElfW(Phdr) *part = &it->dlpi_phdr[at];
        if (part->p_type != PT_LOAD || !(part->p_flags & PF_X)) continue;
        own_from = it->dlpi_addr + part->p_vaddr;
        own_to = own_from + part->p_memsz;
    }
    return 1;
}

/* Whether somebody who calls from there gets no memory now. */
static int refuses(const void *caller, size_t size) {
    uintptr_t from = (uintptr_t)caller;
    if (!is_on || !self || from < own_from || from >= own_to) return 0;
    for (int at = 0; at < lack_count; at++) {
        struct lack *it = &lacks[at];
        if (now < it->from || now >= it->to || !it->most) continue;
        if (size < it->least || size >= it->until || pick(it->every)) continue;
        it->most--;
        note('Z', 0, size, 0, NULL);
        errno = ENOMEM;
        return 1;
    }
    return 0;
}

void *malloc(size_t size) {
    return refuses(__builtin_return_address(0), size) ? NULL : __libc_malloc(size);
}

void *realloc(void *block, size_t size) {
    return refuses(__builtin_return_address(0), size) ? NULL : __libc_realloc(block, size);
}

/* ------------------------------------------------------------------------------------------------
 * the script */

static void add_event(struct event it) {
    if (event_count % 1024 == 0)
        events = realloc(events, (event_count + 1024) * sizeof *events);
    int index = event_count++;
    events[index] = it;
    if (it.pipe >= 0) {
        struct pipe *to = &pipes[it.pipe];
        if (to->count % 1024 == 0)
            to->events = realloc(to->events, (to->count + 1024) * sizeof *to->events);
        to->events[to->count++] = index;
    } else {
        if (other_count % 64 == 0) others = realloc(others, (other_count + 64) * sizeof *others);
        others[other_count++] = index;
    }
}

static void refuse(const char *line) {
    char text[512];
    int count = snprintf(text, sizeof text, "virtual.c: what is this: %s\n", line);
    RAW(SYS_write, 2, text, count, 0);
    RAW(SYS_exit_group, 99, 0, 0, 0);
}

/* The pipe of clips that has a name, or -1. */
static int sink_of(const char *name) {
    for (int at = 0; at < sink_count; at++)
        if (!strcmp(sinks[at].path, name)) return at;
    return -1;
}

static void take_line(char *line, int number) {
    unsigned long long a, b, c, d, e, f;
    int at = 0;
    char name[64], call[16];
    if (!*line || *line == '#') return;
    if (sscanf(line, "frame %llu %llu %llu %llu %n", &a, &b, &c, &d, &at) == 4 && b < PIPES)
        add_event((struct event){FRAME, a, c, d, 0, b, number, strdup(line + at)});
    else if (sscanf(line, "part %llu %llu %llu %llu %llu %n", &a, &b, &c, &d, &e, &at) == 5
             && b < PIPES)
        add_event((struct event){PART, a, c, d, e, b, number, strdup(line + at)});
    else if (sscanf(line, "close %llu %llu", &a, &b) == 2 && b < PIPES)
        add_event((struct event){CLOSE, a, 0, 0, 0, b, number, ""});
    else if (sscanf(line, "order %llu %n", &a, &at) == 1 && orders_pipe >= 0)
        add_event((struct event){ORDER, a, 0, 0, 0, orders_pipe, number, strdup(line + at)});
    else if (sscanf(line, "unended %llu %n", &a, &at) == 1 && orders_pipe >= 0)
        add_event((struct event){UNENDED, a, 0, 0, 0, orders_pipe, number, strdup(line + at)});
    else if (sscanf(line, "clock %llu %lld", &a, (long long *)&b) == 2)
        add_event((struct event){CLOCK, a, b, 0, 0, -1, number, ""});
    else if (sscanf(line, "pause %llu %llu", &a, &b) == 2)
        add_event((struct event){PAUSE, a, b, 0, 0, -1, number, ""});
    else if (sscanf(line, "move %llu %n", &a, &at) == 1)
        add_event((struct event){MOVE, a, 0, 0, 0, -1, number, strdup(line + at)});
    else if (sscanf(line, "lines %llu", &a) == 1) last_answer = a;
    else if (sscanf(line, "kill %llu", &a) == 1)
        add_event((struct event){KILL, a, 0, 0, 0, -1, number, ""});
    else if (sscanf(line, "seed %llu", &a) == 1) seed = a;
    else if (sscanf(line, "begin %llu %llu", &a, &b) == 2) now = a, epoch = b;
    else if (sscanf(line, "switch %llu", &a) == 1) one_of = a;
    else if (sscanf(line, "tick %llu", &a) == 1) ticks = a;
    else if (sscanf(line, "uneven %llu", &a) == 1) uneven = a;
    else if (sscanf(line, "changes %llu", &a) == 1) last_change = a;
    else if (sscanf(line, "sync %63s %llu", name, &a) == 2 && rule_count < RULES) {
        rules[rule_count] = (struct rule){'l', 's', 0, NEVER, a, 1, ""};
        strcpy(rules[rule_count++].name, name);
    } else if (sscanf(line, "reads %63s %llu", name, &a) == 2 && rule_count < RULES) {
        rules[rule_count] = (struct rule){'l', 'r', 0, NEVER, a, 1, ""};
        strcpy(rules[rule_count++].name, name);
    } else if (sscanf(line, "slow %llu %llu %63s %llu", &a, &b, name, &c) == 4
               && rule_count < RULES) {
        rules[rule_count] = (struct rule){'l', 's', a, b, c, 1, ""};
        strcpy(rules[rule_count++].name, name);
    } else if (sscanf(line, "bad %llu %llu %63s %15s %llu %llu", &a, &b, name, call, &c, &d) == 6
               && rule_count < RULES) {
        rules[rule_count] = (struct rule){'b', call[0], a, b, c, d, ""};
        strcpy(rules[rule_count++].name, name);
    } else if (sscanf(line, "sink %63s %llu", name, &a) == 2 && sink_count < PIPES)
        sinks[sink_count++] = (struct sink){strdup(name), a, 0, 0, 0};
    else if (sscanf(line, "taker %llu %llu %63s %llu", &a, &b, name, &c) == 4
             && taker_count < RULES && sink_of(name) >= 0)
        takers[taker_count++] = (struct taker){a, b, c, sink_of(name)};
    else if (sscanf(line, "refuse %llu %llu %llu %llu %llu %llu", &a, &b, &c, &d, &e, &f) == 6
             && lack_count < RULES)
        lacks[lack_count++] = (struct lack){a, b, c, d, e, f};
    else if (sscanf(line, "refuse %llu %llu %llu %llu", &a, &b, &c, &d) == 4 && lack_count < RULES)
        lacks[lack_count++] = (struct lack){a, b, c, d, 0, NEVER};
    else if (sscanf(line, "answers %255s", answers_name) == 1) return;
    else if (sscanf(line, "reader %llu %llu %llu", &a, &b, &c) == 3 && reader_count < RULES)
        readers[reader_count++] = (struct reader){a, b, c};
    else if (sscanf(line, "pipe %llu %63s %n", &a, name, &at) == 2 && pipe_count < PIPES) {
        struct pipe *it = &pipes[pipe_count++];
        it->path = strdup(name);
        it->header = strdup(line + at);
        it->wants_header = !a;
    } else if (sscanf(line, "orders %63s", name) == 1 && pipe_count < PIPES) {
        orders_pipe = pipe_count;
        pipes[pipe_count].is_orders = 1;
        pipes[pipe_count++].path = strdup(name);
    } else refuse(line);
}

static void read_script(const char *path) {
    FILE *file = fopen(path, "r");
    char *line = NULL;
    size_t room = 0;
    ssize_t count;
    if (!file) refuse(path);
    for (int number = 1; (count = getline(&line, &room, file)) >= 0; number++) {
        if (count && line[count - 1] == '\n') line[count - 1] = 0;
        take_line(line, number);
    }
    free(line);
    fclose(file);
}

__attribute__((constructor)) static void begin(void) {
    const char *script = getenv("VIRTUAL_SCRIPT"), *log = getenv("VIRTUAL_LOG");
    if (!script || is_on) return;
    if (log) {
        log_fd = (int)RAW(SYS_openat, AT_FDCWD, log, O_RDWR | O_CREAT | O_TRUNC | O_CLOEXEC, 0600);
        RAW(SYS_ftruncate, log_fd, LOG_MOST, 0, 0);
        log_bytes = (char *)raw(SYS_mmap, 0, LOG_MOST, PROT_READ | PROT_WRITE,
                                MAP_SHARED | MAP_NORESERVE, log_fd, 0);
        if ((long)log_bytes < 0 && (long)log_bytes > -4096) log_bytes = NULL;
    }
    if (RAW(SYS_getcwd, folder, sizeof folder, 0, 0) < 0) folder[0] = 0;
    read_script(script);
    dl_iterate_phdr(find_own, NULL);
    unsetenv("LD_PRELOAD");
    self = &threads[thread_count++];
    self->state = READY;
    self->weight = 100;
    is_on = 1;
}

/* The program ends by itself. */
static void note_end(int status) {
    if (!is_on || log_fd < 0) return;
    char text[128];
    int count = snprintf(text, sizeof text, "ended with %d, steps %llu changes %llu", status,
                         (unsigned long long)steps, (unsigned long long)changes);
    note('E', 0, steps, count, text);
    RAW(SYS_ftruncate, log_fd, log_at, 0, 0);
    log_fd = -1;
}

__attribute__((destructor)) static void end(void) {
    note_end(0);
}

void _exit(int status) {
    note_end(status);
    for (;;) RAW(SYS_exit_group, status, 0, 0, 0);
}

/* ------------------------------------------------------------------------------------------------
 * files */

struct file {
    uint64_t dev, ino, changed;
    char name[256];
};

enum kind { PLAIN, WATCHED, ANSWERS, FOLDER, PIPE, TAP, SINK };

struct fd {
    enum kind kind;
    int index, is_rw;
};

static struct file files[FILES];
static int file_count;
static struct fd fds[FDS];

/* A path as the log has it: as it is seen from the folder in which the program was begun. */
static const char *named(const char *path) {
    size_t length = strlen(folder);
    if (length && !strncmp(path, folder, length) && path[length] == '/') path += length + 1;
    else if (length && !strcmp(path, folder)) return ".";
    while (path[0] == '.' && path[1] == '/') path += 2;
    return *path ? path : ".";
}

static struct file *file_of(const struct stat *found) {
    for (int at = file_count - 1; at >= 0; at--)
        if (files[at].ino == found->st_ino && files[at].dev == found->st_dev) return &files[at];
    return NULL;
}

static struct file *met(const char *path, const struct stat *found, int is_made) {
    int is_answers = answers_name[0] && !strcmp(named(path), answers_name);
    struct file *it = is_made ? NULL : file_of(found);
    if (!it) {
        if (file_count == FILES) ends("too many files,");
        it = &files[file_count++];
        it->dev = found->st_dev;
        it->ino = found->st_ino;
        it->changed = now;
        if (!is_answers)
            note(is_made ? 'C' : 'X', it - files, 0, strlen(named(path)), named(path));
    }
    snprintf(it->name, sizeof it->name, "%s", named(path));
    return it;
}

/* Whether a call on a file of this name fails now; then errno says why. */
static int fails(const char *name, char call) {
    if (!is_on || !self) return 0;
    for (int at = 0; at < rule_count; at++) {
        struct rule *it = &rules[at];
        if (it->kind != 'b' || it->call != call || now < it->from || now >= it->to) continue;
        if (!strstr(name, it->name) || pick(it->every)) continue;
        note('B', call, 0, strlen(name), name);
        errno = (int)it->value;
        return 1;
    }
    return 0;
}

/* Waits as long as a call on a file takes. */
static void takes_time(const char *name, char call) {
    uint64_t micros = 0;
    for (int at = 0; at < rule_count; at++) {
        struct rule *it = &rules[at];
        if (it->kind != 'l' || it->call != call || now < it->from || now >= it->to) continue;
        if (!strstr(name, it->name)) continue;
        micros += it->value / 2 + pick(it->value + 1);
    }
    spend(micros);
}

static struct fd *fd_of(int fd) {
    static struct fd none;
    return fd >= 0 && fd < FDS && is_on ? &fds[fd] : &none;
}

static const char *name_of(struct fd *it) {
    return it->kind == WATCHED ? files[it->index].name : "";
}

static int open_pipe(int which, const char *path, int flags) {
    struct pipe *it = &pipes[which];
    int is_rw = (flags & O_ACCMODE) == O_RDWR;
    int fd = (int)seen(RAW(SYS_openat, AT_FDCWD, path, O_RDWR | O_NONBLOCK | O_CLOEXEC, 0));
    if (fd < 0) return fd;
    fds[fd] = (struct fd){PIPE, which, is_rw};
    read_by(it);
    if (!it->is_orders && !is_rw && !(flags & O_NONBLOCK))
        while (!it->has_writer) {
            /* Its next writer is there with its next frame. */
            block(it, NEVER);
        }
    return fd;
}

/* Opens the pipe of answers. Who opens it to be written waits until it is read. */
static int open_answers(const char *path, int flags) {
    int is_rw = (flags & O_ACCMODE) == O_RDWR;
    int fd = (int)seen(RAW(SYS_openat, AT_FDCWD, path, O_RDWR | O_NONBLOCK | O_CLOEXEC, 0));
    if (fd < 0) return fd;
    if (is_rw) held_ends++;
    else while (!reader_now() && !held_ends) block(NULL, next_reader());
    fds[fd] = (struct fd){TAP, 0, is_rw};
    return fd;
}

/* A line is written to the pipe of answers, whole or not at all. */
static ssize_t tapped(const void *bytes, size_t count) {
    for (;;) {
        drain();
        if (!reader_now() && !held_ends) {
            errno = EPIPE;
            return -1;
        }
        if (answers_held + count <= CAPACITY) break;
        block(NULL, next_reader());
    }
    answers_held += count;
    note('A', 0, 0, count, bytes);
    if (answered++ == last_answer) ends("killed by lines,");
    return count;
}

/* Who reads a pipe of clips now. */
static struct taker *taker_now(int which) {
    for (int at = 0; at < taker_count; at++)
        if (takers[at].sink == which && takers[at].from <= now && now < takers[at].to)
            return &takers[at];
    return NULL;
}

/* What was read of it since that was looked at. */
static void empty(int which) {
    struct sink *it = &sinks[which];
    struct taker *who = taker_now(which);
    uint64_t since = who && who->from > it->drained_at ? who->from : it->drained_at;
    uint64_t count = who ? (now - since) * who->rate / 1000000 : 0;
    if (who && !count && who->rate) return;
    it->drained_at = now;
    it->held -= count < it->held ? count : it->held;
}

/* When it may be written or opened again: soon, or when the next one reads it. */
static uint64_t next_taker(int which) {
    uint64_t least = NEVER;
    if (taker_now(which)) return now + 5000;
    for (int at = 0; at < taker_count; at++)
        if (takers[at].sink == which && takers[at].from > now && takers[at].from < least)
            least = takers[at].from;
    return least;
}

/* Opens a pipe of clips. Who opens it to be written waits until it is read. */
static int open_sink(int which, const char *path, int flags) {
    struct sink *it = &sinks[which];
    int is_rw = (flags & O_ACCMODE) == O_RDWR;
    int fd = (int)seen(RAW(SYS_openat, AT_FDCWD, path, O_RDWR | O_NONBLOCK | O_CLOEXEC, 0));
    if (fd < 0) return fd;
    if (is_rw) it->ends++;
    else while (!taker_now(which) && !it->ends) block(it, next_taker(which));
    fds[fd] = (struct fd){SINK, which, is_rw};
    if (!is_rw) note('I', which, fd, 0, NULL);
    return fd;
}

/* Bytes are written to a pipe of clips, as far as somebody reads it. */
static ssize_t sunk(int fd, int which, const char *bytes, size_t count) {
    struct sink *it = &sinks[which];
    size_t done = 0;
    for (;;) {
        empty(which);
        if (!taker_now(which) && !it->ends) {
            if (done) return done;
            errno = EPIPE;
            return -1;
        }
        size_t more = count - done;
        if (more > it->room - it->held) more = it->room - it->held;
        if (more) note('Y', which, fd, more, bytes + done);
        it->held += more;
        done += more;
        if (done == count) return done;
        /* While its reader is there it goes on soon, and where that leaves, it is seen then. */
        struct taker *who = taker_now(which);
        block(it, who ? now + 5000 : next_taker(which));
    }
}

static int open_uptime(void) {
    char text[64];
    unsigned long long hundredths = (now + BOOT) / 10000;
    int count = snprintf(text, sizeof text, "%llu.%02llu 1.00\n", hundredths / 100,
                         hundredths % 100);
    int fd = (int)seen(RAW(SYS_memfd_create, "uptime", MFD_CLOEXEC, 0, 0));
    if (fd < 0) return fd;
    RAW(SYS_write, fd, text, count, 0);
    RAW(SYS_lseek, fd, 0, SEEK_SET, 0);
    return fd;
}

static int opened(const char *path, int flags, int mode) {
    step();
    if (!is_on) return (int)seen(RAW(SYS_openat, AT_FDCWD, path, flags, mode));
    if (!strcmp(path, "/proc/uptime")) return open_uptime();
    const char *name = named(path);
    for (int at = 0; at < pipe_count; at++)
        if (!strcmp(name, pipes[at].path)) return open_pipe(at, path, flags);
    if (sink_of(name) >= 0) return open_sink(sink_of(name), path, flags);
    if (fails(name, 'o')) return -1;
    struct stat before, found;
    int was_there = RAW(SYS_stat, path, &before, 0, 0) == 0;
    if (was_there && S_ISFIFO(before.st_mode) && answers_name[0] && !strcmp(name, answers_name))
        return open_answers(path, flags);
    int is_made = (flags & O_CREAT) && !was_there;
    if (is_made) change();
    int fd = (int)seen(RAW(SYS_openat, AT_FDCWD, path, flags, mode));
    if (fd < 0 || fd >= FDS) return fd;
    RAW(SYS_fstat, fd, &found, 0, 0);
    fds[fd] = (struct fd){PLAIN, 0, 0};
    if (S_ISDIR(found.st_mode)) {
        struct file *it = met(path, &found, 0);
        fds[fd] = (struct fd){FOLDER, it - files, 0};
    } else if (S_ISREG(found.st_mode) && name[0] != '/') {
        int is_answers = answers_name[0] && !strcmp(name, answers_name);
        struct file *it = met(path, &found, is_made);
        fds[fd] = (struct fd){is_answers ? ANSWERS : WATCHED, it - files, 0};
        if (!is_answers && (flags & O_TRUNC) && (flags & O_ACCMODE) != O_RDONLY && !is_made)
            note('T', it - files, 0, 0, NULL);
    }
    return fd;
}

#define MODE_OF(flags)                                     \
    int mode = 0;                                          \
    if ((flags) & (O_CREAT | O_TMPFILE)) {                 \
        va_list rest;                                      \
        va_start(rest, flags);                             \
        mode = va_arg(rest, int);                          \
        va_end(rest);                                      \
    }

int open(const char *path, int flags, ...) {
    MODE_OF(flags)
    return opened(path, flags, mode);
}

int open64(const char *path, int flags, ...) {
    MODE_OF(flags)
    return opened(path, flags, mode);
}

int openat(int at, const char *path, int flags, ...) {
    MODE_OF(flags)
    if (at != AT_FDCWD && path[0] != '/')
        return (int)seen(RAW(SYS_openat, at, path, flags, mode));
    return opened(path, flags, mode);
}

int openat64(int at, const char *path, int flags, ...) {
    MODE_OF(flags)
    if (at != AT_FDCWD && path[0] != '/')
        return (int)seen(RAW(SYS_openat, at, path, flags, mode));
    return opened(path, flags, mode);
}

static void copied(int from, int to) {
    if (to < 0 || to >= FDS || !is_on) return;
    fds[to] = *fd_of(from);
    if (fds[to].kind == PIPE) pipes[fds[to].index].readers++;
}

int fcntl(int fd, int what, ...) {
    va_list rest;
    va_start(rest, what);
    long with = va_arg(rest, long);
    va_end(rest);
    int answer = (int)seen(RAW(SYS_fcntl, fd, what, with, 0));
    if (what == F_DUPFD || what == F_DUPFD_CLOEXEC) copied(fd, answer);
    return answer;
}

int fcntl64(int fd, int what, ...) {
    va_list rest;
    va_start(rest, what);
    long with = va_arg(rest, long);
    va_end(rest);
    return fcntl(fd, what, with);
}

int dup(int fd) {
    int answer = (int)seen(RAW(SYS_dup, fd, 0, 0, 0));
    copied(fd, answer);
    return answer;
}

int close(int fd) {
    step();
    struct fd *it = fd_of(fd);
    if (it->kind == PIPE) left_by(&pipes[it->index]);
    if (it->kind == TAP && it->is_rw) held_ends--;
    if (it->kind == SINK && it->is_rw) sinks[it->index].ends--;
    if (it->kind == SINK && !it->is_rw && !taker_now(it->index)) sinks[it->index].held = 0;
    if (is_on && fd >= 0 && fd < FDS) fds[fd] = (struct fd){PLAIN, 0, 0};
    return (int)seen(RAW(SYS_close, fd, 0, 0, 0));
}

/* Bytes are written to a file, at a place, or where it stands (-1). */
static ssize_t written(int fd, const void *bytes, size_t count, off_t at) {
    struct fd *it = fd_of(fd);
    step();
    it = fd_of(fd);
    if (it->kind == WATCHED) {
        if (fails(name_of(it), 'w')) return -1;
        change();
        off_t place = at;
        if (at < 0) {
            int flags = (int)RAW(SYS_fcntl, fd, F_GETFL, 0, 0);
            struct stat found;
            RAW(SYS_fstat, fd, &found, 0, 0);
            place = flags & O_APPEND ? found.st_size : RAW(SYS_lseek, fd, 0, SEEK_CUR, 0);
        }
        note('W', it->index, place, count, bytes);
        files[it->index].changed = now;
    } else if (it->kind == ANSWERS) {
        note('A', it->index, 0, count, bytes);
        RAW(SYS_write, fd, bytes, count, 0);
        if (answered++ == last_answer) ends("killed by lines,");
        return count;
    } else if (it->kind == TAP) {
        return tapped(bytes, count);
    } else if (it->kind == SINK) {
        return sunk(fd, it->index, bytes, count);
    } else if (fd == 1 || fd == 2) {
        note('O', fd, 0, count, bytes);
    }
    return at < 0 ? seen(RAW(SYS_write, fd, bytes, count, 0))
                  : seen(RAW(SYS_pwrite64, fd, bytes, count, at));
}

ssize_t write(int fd, const void *bytes, size_t count) {
    return written(fd, bytes, count, -1);
}

ssize_t pwrite(int fd, const void *bytes, size_t count, off_t at) {
    return written(fd, bytes, count, at);
}

ssize_t pwrite64(int fd, const void *bytes, size_t count, off_t at) {
    return written(fd, bytes, count, at);
}

/* Several pieces are written as one. */
static ssize_t written_in_one(int fd, const struct iovec *pieces, int many, off_t at) {
    size_t count = 0, done = 0;
    for (int it = 0; it < many; it++) count += pieces[it].iov_len;
    char *bytes = malloc(count + 1);
    for (int it = 0; it < many; it++) {
        memcpy(bytes + done, pieces[it].iov_base, pieces[it].iov_len);
        done += pieces[it].iov_len;
    }
    ssize_t answer = written(fd, bytes, count, at);
    int why = errno;
    free(bytes);
    errno = why;
    return answer;
}

ssize_t writev(int fd, const struct iovec *pieces, int many) {
    return written_in_one(fd, pieces, many, -1);
}

ssize_t pwritev(int fd, const struct iovec *pieces, int many, off_t at) {
    return written_in_one(fd, pieces, many, at);
}

ssize_t pwritev64(int fd, const struct iovec *pieces, int many, off_t at) {
    return written_in_one(fd, pieces, many, at);
}

ssize_t read(int fd, void *bytes, size_t count) {
    step();
    struct fd *it = fd_of(fd);
    if (it->kind == PIPE) return read_pipe(&pipes[it->index], it->is_rw, bytes, count);
    if (it->kind == WATCHED && fails(name_of(it), 'r')) return -1;
    return seen(RAW(SYS_read, fd, bytes, count, 0));
}

ssize_t pread(int fd, void *bytes, size_t count, off_t at) {
    step();
    if (fd_of(fd)->kind == WATCHED) takes_time(name_of(fd_of(fd)), 'r');
    struct fd *it = fd_of(fd);
    if (it->kind == WATCHED && fails(name_of(it), 'r')) return -1;
    if (it->kind == WATCHED) note('R', it->index, at, 0, NULL);
    return seen(RAW(SYS_pread64, fd, bytes, count, at));
}

ssize_t pread64(int fd, void *bytes, size_t count, off_t at) {
    return pread(fd, bytes, count, at);
}

ssize_t readv(int fd, const struct iovec *pieces, int many) {
    for (int it = 0; it < many; it++)
        if (pieces[it].iov_len) return read(fd, pieces[it].iov_base, pieces[it].iov_len);
    return 0;
}

static int synced(int fd, long number) {
    step();
    struct fd *it = fd_of(fd);
    if (it->kind != WATCHED && it->kind != FOLDER) return (int)seen(RAW(number, fd, 0, 0, 0));
    int index = it->index, is_folder = it->kind == FOLDER;
    uint64_t began = log_records;
    takes_time(files[index].name, 's');
    if (fails(files[index].name, 's')) return -1;
    change();
    if (is_folder) note('F', index, began, strlen(files[index].name), files[index].name);
    else note('S', index, began, 0, NULL);
    return 0;
}

int fsync(int fd) {
    return synced(fd, SYS_fsync);
}

int fdatasync(int fd) {
    return synced(fd, SYS_fdatasync);
}

int ftruncate(int fd, off_t size) {
    step();
    struct fd *it = fd_of(fd);
    if (it->kind == WATCHED) {
        if (fails(name_of(it), 't')) return -1;
        change();
        note('T', it->index, size, 0, NULL);
        files[it->index].changed = now;
    }
    return (int)seen(RAW(SYS_ftruncate, fd, size, 0, 0));
}

int ftruncate64(int fd, off_t size) {
    return ftruncate(fd, size);
}

int fallocate(int fd, int mode, off_t from, off_t count) {
    (void)fd, (void)mode, (void)from, (void)count;
    errno = EOPNOTSUPP;
    return -1;
}

/* What changes names: two of them, with a byte 0 between. */
static void note_names(char kind, const char *from, const char *to) {
    char both[1024];
    int count = snprintf(both, sizeof both, "%s%c%s", named(from), 0, to ? named(to) : "");
    note(kind, 0, 0, to ? count : (int)strlen(named(from)), both);
}

static void has_name(const char *path) {
    struct stat found;
    if (RAW(SYS_lstat, path, &found, 0, 0)) return;
    struct file *it = file_of(&found);
    if (it) snprintf(it->name, sizeof it->name, "%s", named(path));
}

int rename(const char *from, const char *to) {
    step();
    if (is_on && fails(named(from), 'n')) return -1;
    if (is_on) change();
    int answer = (int)seen(RAW(SYS_rename, from, to, 0, 0));
    if (answer == 0 && is_on) {
        note_names('N', from, to);
        has_name(to);
    }
    return answer;
}

int link(const char *from, const char *to) {
    step();
    if (is_on && fails(named(from), 'n')) return -1;
    if (is_on) change();
    int answer = (int)seen(RAW(SYS_link, from, to, 0, 0));
    if (answer == 0 && is_on) {
        note_names('L', from, to);
        has_name(to);
    }
    return answer;
}

int unlink(const char *path) {
    step();
    struct stat found;
    if (is_on && RAW(SYS_lstat, path, &found, 0, 0) == 0) change();
    int answer = (int)seen(RAW(SYS_unlink, path, 0, 0, 0));
    if (answer == 0 && is_on) note_names('U', path, NULL);
    return answer;
}

int mkdir(const char *path, mode_t mode) {
    step();
    int answer = (int)seen(RAW(SYS_mkdir, path, mode, 0, 0));
    if (answer == 0 && is_on) note_names('M', path, NULL);
    return answer;
}

/* A file's times are those of the world. */
static uint64_t changed_at(uint64_t dev, uint64_t ino) {
    struct stat one = {.st_dev = dev, .st_ino = ino};
    struct file *it = file_of(&one);
    return (it ? it->changed : 0) + epoch;
}

int statx(int fd, const char *path, int flags, unsigned mask, struct statx *out) {
    step();
    int answer = (int)seen(raw(SYS_statx, fd, (long)path, flags, mask, (long)out, 0));
    if (answer == 0 && is_on) {
        uint64_t at = changed_at(makedev(out->stx_dev_major, out->stx_dev_minor), out->stx_ino);
        struct statx_timestamp then = {.tv_sec = at / 1000000, .tv_nsec = at % 1000000 * 1000};
        out->stx_mtime = out->stx_ctime = out->stx_atime = out->stx_btime = then;
    }
    return answer;
}

int flock(int fd, int how) {
    step();
    for (;;) {
        int answer = (int)seen(RAW(SYS_flock, fd, how | LOCK_NB, 0, 0));
        if (answer == 0 || errno != EWOULDBLOCK || (how & LOCK_NB) || !is_on) return answer;
        spend(1000);
    }
}

/* ------------------------------------------------------------------------------------------------
 * clocks and waits */

static void time_of(clockid_t clock, struct timespec *out) {
    uint64_t at = now + (clock == CLOCK_REALTIME || clock == CLOCK_REALTIME_COARSE ? epoch : BOOT);
    out->tv_sec = at / 1000000;
    out->tv_nsec = at % 1000000 * 1000;
}

int clock_gettime(clockid_t clock, struct timespec *out) {
    if (!is_on) return (int)seen(RAW(SYS_clock_gettime, clock, out, 0, 0));
    step();
    time_of(clock, out);
    return 0;
}

int gettimeofday(struct timeval *out, void *zone) {
    (void)zone;
    struct timespec at;
    clock_gettime(CLOCK_REALTIME, &at);
    *out = (struct timeval){at.tv_sec, at.tv_nsec / 1000};
    return 0;
}

time_t time(time_t *out) {
    struct timespec at;
    clock_gettime(CLOCK_REALTIME, &at);
    if (out) *out = at.tv_sec;
    return at.tv_sec;
}

static uint64_t micros_of(const struct timespec *it) {
    if (it->tv_sec > 1000000000000ll) return NEVER;
    return (uint64_t)it->tv_sec * 1000000 + (it->tv_nsec + 999) / 1000;
}

static uint64_t after(const struct timespec *it) {
    uint64_t micros = micros_of(it);
    return micros == NEVER ? NEVER : now + micros;
}

int nanosleep(const struct timespec *how_long, struct timespec *left) {
    (void)left;
    if (!is_on || !self) return (int)seen(RAW(SYS_nanosleep, how_long, left, 0, 0));
    step();
    block(NULL, after(how_long));
    return 0;
}

int clock_nanosleep(clockid_t clock, int flags, const struct timespec *until,
                    struct timespec *left) {
    if (!is_on || !self)
        return (int)-RAW(SYS_clock_nanosleep, clock, flags, until, left);
    step();
    if (flags & TIMER_ABSTIME) {
        uint64_t base = clock == CLOCK_REALTIME ? epoch : BOOT, at = micros_of(until);
        block(NULL, at == NEVER ? NEVER : at > base ? at - base : 0);
    } else block(NULL, after(until));
    return 0;
}

int sched_yield(void) {
    step();
    if (is_on && self) pass();
    return 0;
}

static long do_futex(int *word, int op, int value, const struct timespec *until, int *other,
                     int mask) {
    int what = op & FUTEX_CMD_MASK;
    step();
    if (what == FUTEX_WAIT || what == FUTEX_WAIT_BITSET) {
        if (__atomic_load_n(word, __ATOMIC_SEQ_CST) != value) {
            errno = EAGAIN;
            return -1;
        }
        uint64_t due = NEVER;
        if (until && what == FUTEX_WAIT) due = after(until);
        else if (until) {
            uint64_t base = op & FUTEX_CLOCK_REALTIME ? epoch : BOOT, at = micros_of(until);
            due = at == NEVER ? NEVER : at > base ? at - base : 0;
        }
        if (block(word, due)) return 0;
        errno = ETIMEDOUT;
        return -1;
    }
    if (what == FUTEX_WAKE || what == FUTEX_WAKE_BITSET) return wake(word, value);
    (void)other, (void)mask;
    ends("a futex call of another kind,");
    return -1;
}

long syscall(long number, ...) {
    va_list rest;
    va_start(rest, number);
    long a = va_arg(rest, long), b = va_arg(rest, long), c = va_arg(rest, long);
    long d = va_arg(rest, long), e = va_arg(rest, long), f = va_arg(rest, long);
    va_end(rest);
    if (is_on && self) {
        if (number == SYS_futex)
            return do_futex((int *)a, (int)b, (int)c, (struct timespec *)d, (int *)e, (int)f);
        if (number == SYS_getrandom) {
            for (long at = 0; at < b; at++) ((char *)a)[at] = (char)pick(256);
            return b;
        }
    }
    return seen(raw(number, a, b, c, d, e, f));
}

ssize_t getrandom(void *bytes, size_t count, unsigned flags) {
    (void)flags;
    for (size_t at = 0; at < count; at++) ((char *)bytes)[at] = (char)pick(256);
    return count;
}

/* ------------------------------------------------------------------------------------------------
 * threads begin and end */

/* How a thread begins, which is chosen for the first time, and how it ends. */
static void in_thread(void) {
    struct thread *me = self;
    me->answer = me->run(me->with);
    me->state = OVER;
    if (me->is_detached) me->handle = 0;
    wake(&me->state, THREADS);
    go_to(chosen());
}

/* The stack of a thread, below which nothing is; that of one that is over serves again. */
static int has_stack(struct thread *it, const pthread_attr_t *how) {
    size_t room = 8 << 20;
    if (how) pthread_attr_getstacksize(how, &room);
    if (!it->stack || it->room < room) {
        it->stack = (char *)raw(SYS_mmap, 0, room, PROT_READ | PROT_WRITE,
                                MAP_PRIVATE | MAP_ANONYMOUS | MAP_NORESERVE, -1, 0);
        if ((long)it->stack < 0 && (long)it->stack > -4096) return it->stack = NULL, 0;
        RAW(SYS_mprotect, it->stack, 4096, PROT_NONE, 0);
        it->room = room;
    }
    /* What it begins with: six registers, and where it goes on, called from nowhere. */
    void **top = (void **)(it->stack + it->room);
    *--top = NULL;
    *--top = (void *)in_thread;
    it->at = top - 6;
    return 1;
}

int pthread_create(pthread_t *thread, const pthread_attr_t *how, void *(*run)(void *), void *with) {
    static int (*real)(pthread_t *, const pthread_attr_t *, void *(*)(void *), void *);
    if (!real) real = dlsym(RTLD_NEXT, "pthread_create");
    if (!is_on || !self) return real(thread, how, run, with);
    step();
    int at = 0;
    while (at < thread_count && !(threads[at].state == OVER && !threads[at].handle)) at++;
    if (at == THREADS) ends("too many threads,");
    if (at == thread_count) thread_count++;
    struct thread *it = &threads[at];
    *it = (struct thread){.state = OVER, .stack = it->stack, .room = it->room};
    if (!has_stack(it, how)) return EAGAIN;
    it->state = READY;
    it->run = run;
    it->with = with;
    it->weight = uneven && pick(uneven) == 0 ? 1 : 100;
    it->handle = *thread = (pthread_t)it;
    return 0;
}

pthread_t pthread_self(void) {
    static pthread_t (*real)(void);
    if (is_on && self && self->handle) return self->handle;
    if (!real) real = dlsym(RTLD_NEXT, "pthread_self");
    return real();
}

static struct thread *thread_of(pthread_t handle) {
    for (int at = 0; at < thread_count; at++)
        if (threads[at].handle && threads[at].handle == handle) return &threads[at];
    return NULL;
}

int pthread_join(pthread_t handle, void **answer) {
    static int (*real)(pthread_t, void **);
    if (!real) real = dlsym(RTLD_NEXT, "pthread_join");
    struct thread *it = is_on && self ? thread_of(handle) : NULL;
    if (!it) return real(handle, answer);
    step();
    while (it->state != OVER) block(&it->state, NEVER);
    if (answer) *answer = it->answer;
    it->handle = 0;
    return 0;
}

int pthread_detach(pthread_t handle) {
    static int (*real)(pthread_t);
    if (!real) real = dlsym(RTLD_NEXT, "pthread_detach");
    struct thread *it = is_on && self ? thread_of(handle) : NULL;
    if (!it) return real(handle);
    it->is_detached = 1;
    if (it->state == OVER) it->handle = 0;
    return 0;
}
