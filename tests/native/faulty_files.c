/* Preloaded under the program `birch` by tests/birch_runs/kept_faults.py, this makes a call on the files of a folder go
   as the environment says when it is loaded. All other calls go well.

   FAULTY_FOLDER=/tmp/it   calls count that name a path which begins so, or go to a file that was opened by one
   FAULTY_CALL=12          the 12th of these calls fails, with the error FAULTY_ERROR
   FAULTY_END=1            it ends the process instead; a write has written half of its bytes before
   FAULTY_NOTES=5          notes that call as a line on descriptor 5

   An error is the number that errno is set to. */
#define _GNU_SOURCE
#include <errno.h>
#include <fcntl.h>
#include <signal.h>
#include <stdarg.h>
#include <stdlib.h>
#include <string.h>
#include <sys/syscall.h>
#include <unistd.h>

enum { MOST_FILES = 1024, NEVER = -1 };

static const char *folder;
static long calls_left = NEVER, notes = NEVER, error = EIO;
static int does_end, is_of_folder[MOST_FILES];

static long number(const char *name, long if_unnamed) {
    const char *text = getenv(name);
    return text ? strtol(text, NULL, 10) : if_unnamed;
}

__attribute__((constructor)) static void look_at_environment(void) {
    folder = getenv("FAULTY_FOLDER");
    calls_left = number("FAULTY_CALL", NEVER);
    error = number("FAULTY_ERROR", EIO);
    does_end = number("FAULTY_END", 0) != 0;
    notes = number("FAULTY_NOTES", NEVER);
}

static int is_there(const char *path) { return folder && strncmp(path, folder, strlen(folder)) == 0; }

static int is_known(int descriptor) {
    return descriptor >= 0 && descriptor < MOST_FILES && is_of_folder[descriptor];
}

static void end(void) {
    kill(getpid(), SIGKILL);
    for (;;)
        pause();
}

/* Whether a call that counts fails. */
static int fails(const char *what) {
    calls_left -= calls_left > 0;
    if (calls_left != 0)
        return 0;
    calls_left = NEVER;
    if (notes != NEVER)
        syscall(SYS_write, (int)notes, what, strlen(what));
    if (does_end)
        end();
    errno = (int)error;
    return 1;
}

static int open_at(int at, const char *path, int flags, int mode) {
    int counts = is_there(path);
    if (counts && fails("open\n"))
        return -1;
    int opened = (int)syscall(SYS_openat, at, path, flags, mode);
    if (opened >= 0 && opened < MOST_FILES)
        is_of_folder[opened] = counts;
    return opened;
}

int open(const char *path, int flags, ...) {
    va_list rest;
    va_start(rest, flags);
    int mode = va_arg(rest, int);
    va_end(rest);
    return open_at(AT_FDCWD, path, flags, mode);
}

int openat(int at, const char *path, int flags, ...) {
    va_list rest;
    va_start(rest, flags);
    int mode = va_arg(rest, int);
    va_end(rest);
    return open_at(at, path, flags, mode);
}

ssize_t read(int descriptor, void *into, size_t length) {
    if (is_known(descriptor) && fails("read\n"))
        return -1;
    return syscall(SYS_read, descriptor, into, length);
}

ssize_t pread(int descriptor, void *into, size_t length, off_t place) {
    if (is_known(descriptor) && fails("pread\n"))
        return -1;
    return syscall(SYS_pread64, descriptor, into, length, place);
}

ssize_t write(int descriptor, const void *from, size_t length) {
    if (is_known(descriptor)) {
        if (does_end && calls_left == 1)
            syscall(SYS_write, descriptor, from, length / 2);
        if (fails("write\n"))
            return -1;
    }
    return syscall(SYS_write, descriptor, from, length);
}

int fsync(int descriptor) {
    return is_known(descriptor) && fails("fsync\n") ? -1 : (int)syscall(SYS_fsync, descriptor);
}

int flock(int descriptor, int how) {
    return is_known(descriptor) && fails("flock\n") ? -1 : (int)syscall(SYS_flock, descriptor, how);
}

int rename(const char *from, const char *to) {
    return is_there(from) && fails("rename\n") ? -1 : (int)syscall(SYS_rename, from, to);
}

int unlink(const char *path) { return is_there(path) && fails("unlink\n") ? -1 : (int)syscall(SYS_unlink, path); }

int mkdir(const char *path, mode_t mode) {
    return is_there(path) && fails("mkdir\n") ? -1 : (int)syscall(SYS_mkdir, path, mode);
}
