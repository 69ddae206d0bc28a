/* no_sanitizer.c: what a library without a proof asks of the sanitizer of addresses, for a program that has none, as Python.
 *
 * Such code looks into the shadow of an address, at a fixed place, before it uses it. The shadow is reserved here, and is
 * free for all but what the library's own stack marks in it; a mark that it meets ends the process. Objects of the heap
 * aren't marked: clib_check's programs, which have the true sanitizer, look at these. */
#define _GNU_SOURCE
#include <stdint.h>
#include <stdlib.h>
#include <string.h>
#include <sys/mman.h>
#include <unistd.h>

int __asan_option_detect_stack_use_after_return = 0;

__attribute__((constructor(101))) static void reserve(void) {
    void *at = (void *)0x7fff8000;
    size_t all = 0x10007fff8000 - 0x7fff8000;
    int how = MAP_PRIVATE | MAP_ANONYMOUS | MAP_NORESERVE | MAP_FIXED_NOREPLACE;
    if (mmap(at, all, PROT_READ | PROT_WRITE, how, -1, 0) != at) abort();
}

static void found(void) {
    static const char text[] = "a library without a proof used an address that isn't its own\n";
    if (write(2, text, sizeof text - 1)) abort();
    abort();
}
#define FINDS(NAME) void NAME(void) { found(); }
FINDS(__asan_report_load1) FINDS(__asan_report_load2) FINDS(__asan_report_load4) FINDS(__asan_report_load8)
FINDS(__asan_report_load16) FINDS(__asan_report_load_n) FINDS(__asan_report_store1) FINDS(__asan_report_store2)
FINDS(__asan_report_store4) FINDS(__asan_report_store8) FINDS(__asan_report_store16) FINDS(__asan_report_store_n)
#define NOTHING(NAME) void NAME(void) {}
NOTHING(__asan_init) NOTHING(__asan_version_mismatch_check_v8) NOTHING(__asan_handle_no_return)
NOTHING(__asan_register_elf_globals) NOTHING(__asan_unregister_elf_globals) NOTHING(__asan_alloca_poison)
NOTHING(__asan_allocas_unpoison) NOTHING(__asan_set_shadow_f5) NOTHING(__asan_set_shadow_f8) NOTHING(__asan_set_shadow_00)
#define NO_STACK(N) void *__asan_stack_malloc_##N(void) { return NULL; } void __asan_stack_free_##N(void) {}
NO_STACK(0) NO_STACK(1) NO_STACK(2) NO_STACK(3) NO_STACK(4) NO_STACK(5) NO_STACK(6) NO_STACK(7) NO_STACK(8) NO_STACK(9) NO_STACK(10)
void *__asan_memmove(void *to, const void *from, size_t n) { return memmove(to, from, n); }
void *__asan_memcpy(void *to, const void *from, size_t n) { return memcpy(to, from, n); }
void *__asan_memset(void *to, int byte, size_t n) { return memset(to, byte, n); }
