/* Counts the bytes that a program holds, and writes their number to standard error at each SIGUSR1.
   Preloaded by bench/measure_segment.py. */
#define _GNU_SOURCE
#include <dlfcn.h>
#include <malloc.h>
#include <signal.h>
#include <stdatomic.h>
#include <stddef.h>
#include <stdio.h>
#include <unistd.h>

extern void *__libc_malloc(size_t);
extern void *__libc_realloc(void *, size_t);
extern void __libc_free(void *);
extern void *__libc_memalign(size_t, size_t);

static atomic_long live;

static void *counted(void *block) {
    if (block)
        live += (long)malloc_usable_size(block);
    return block;
}

void *malloc(size_t size) { return counted(__libc_malloc(size)); }

void *memalign(size_t alignment, size_t size) { return counted(__libc_memalign(alignment, size)); }

void *aligned_alloc(size_t alignment, size_t size) { return memalign(alignment, size); }

int posix_memalign(void **block, size_t alignment, size_t size) {
    *block = memalign(alignment, size);
    return *block ? 0 : 12;
}

void free(void *block) {
    if (block)
        live -= (long)malloc_usable_size(block);
    __libc_free(block);
}

void *realloc(void *block, size_t size) {
    long before = block ? (long)malloc_usable_size(block) : 0;
    void *moved = __libc_realloc(block, size);
    if (moved)
        live += (long)malloc_usable_size(moved) - before;
    return moved;
}

static void report(int signal) {
    (void)signal;
    char text[32];
    int length = snprintf(text, sizeof text, "%ld\n", (long)live);
    if (write(2, text, (size_t)length) < 0)
        _exit(2);
}

__attribute__((constructor)) static void listen_for_signals(void) {
    struct sigaction action = {.sa_handler = report, .sa_flags = SA_RESTART};
    sigaction(SIGUSR1, &action, NULL);
}
