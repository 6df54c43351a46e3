/* Preloaded under the program by tests/program_runs.py, this makes the reads of standard input, the
   writes to standard output and the requests for memory go as the environment says when it is loaded.
   What isn't named goes well.

   FAULTY_READ_SIZES=15,7  the first read gives at most 15 bytes, and all after it at most 7
   FAULTY_READ_SIGNALS=1   each read that gives something is interrupted once before
   FAULTY_READS=9          each read after 9 fails, with the error FAULTY_ERROR
   FAULTY_WRITE_SIZE=3000  each write takes at most 3000 bytes
   FAULTY_WRITE_SIGNALS=1  each write is interrupted once before
   FAULTY_WRITES=4         each write after 4 fails, with the error FAULTY_ERROR
   FAULTY_REQUEST=12       the 12th request for memory is refused; with FAULTY_REQUESTS=1, all after too
   FAULTY_NOTES=5          notes each of these calls as a line on descriptor 5

   An error is the number that errno is set to. */
#define _GNU_SOURCE
#include <errno.h>
#include <stddef.h>
#include <stdio.h>
#include <stdlib.h>
#include <sys/syscall.h>
#include <unistd.h>

extern void *__libc_malloc(size_t size);
extern void *__libc_realloc(void *block, size_t size);

enum { NEVER = -1 };

static const char *sizes;
static long size_of_read = NEVER, reads_left = NEVER, size_of_write = NEVER, writes_left = NEVER;
static long requests_left = NEVER, notes = NEVER, error = EIO;
static int are_reads_interrupted, was_read_interrupted, are_writes_interrupted, was_write_interrupted;
static int are_all_after_refused;

static long number(const char *name, long if_unnamed) {
    const char *text = getenv(name);
    return text ? strtol(text, NULL, 10) : if_unnamed;
}

__attribute__((constructor)) static void look_at_environment(void) {
    sizes = getenv("FAULTY_READ_SIZES");
    are_reads_interrupted = number("FAULTY_READ_SIGNALS", 0) != 0;
    reads_left = number("FAULTY_READS", NEVER);
    size_of_write = number("FAULTY_WRITE_SIZE", NEVER);
    writes_left = number("FAULTY_WRITES", NEVER);
    are_writes_interrupted = number("FAULTY_WRITE_SIGNALS", 0) != 0;
    error = number("FAULTY_ERROR", EIO);
    are_all_after_refused = number("FAULTY_REQUESTS", 0) != 0;
    notes = number("FAULTY_NOTES", NEVER);
    requests_left = number("FAULTY_REQUEST", NEVER);
}

static void note(const char *what, long count) {
    if (notes == NEVER)
        return;
    char text[64];
    int kept = errno;
    int length = snprintf(text, sizeof text, "%s %ld\n", what, count);
    syscall(SYS_write, (int)notes, text, (size_t)length);
    errno = kept;
}

static ssize_t fail(const char *what, int why) {
    note(what, why);
    errno = why;
    return -1;
}

/* How much the next read may give: the last number that is named holds for all that follow. */
static void take_size(void) {
    if (sizes && *sizes) {
        char *rest;
        size_of_read = strtol(sizes, &rest, 10);
        sizes = *rest ? rest + 1 : rest;
    }
}

static size_t at_most(size_t length, long most) {
    return most != NEVER && (size_t)most < length ? (size_t)most : length;
}

ssize_t read(int descriptor, void *into, size_t length) {
    if (descriptor != 0)
        return syscall(SYS_read, descriptor, into, length);
    was_read_interrupted = are_reads_interrupted && !was_read_interrupted;
    if (was_read_interrupted)
        return fail("read interrupted", EINTR);
    if (reads_left == 0)
        return fail("read failed", (int)error);
    reads_left -= reads_left > 0;
    take_size();
    ssize_t given = syscall(SYS_read, descriptor, into, at_most(length, size_of_read));
    note("read", given);
    return given;
}

ssize_t write(int descriptor, const void *from, size_t length) {
    if (descriptor != 1)
        return syscall(SYS_write, descriptor, from, length);
    was_write_interrupted = are_writes_interrupted && !was_write_interrupted;
    if (was_write_interrupted)
        return fail("write interrupted", EINTR);
    if (writes_left == 0)
        return fail("write failed", (int)error);
    writes_left -= writes_left > 0;
    ssize_t taken = syscall(SYS_write, descriptor, from, at_most(length, size_of_write));
    note("write", taken);
    return taken;
}

static int is_refused(size_t size) {
    requests_left -= requests_left > 0;
    if (requests_left != 0)
        return 0;
    if (!are_all_after_refused)
        requests_left = NEVER;
    note("request refused", (long)size);
    errno = ENOMEM;
    return 1;
}

void *malloc(size_t size) { return is_refused(size) ? NULL : __libc_malloc(size); }

void *realloc(void *block, size_t size) { return is_refused(size) ? NULL : __libc_realloc(block, size); }
