// Preloaded under a program of cases, this refuses the requests for memory that a case names. It is a
// tool of the tests: no crate knows of it.
//
// A case says what to refuse by a request that no allocator can grant, of 2^61 + n bytes: the n-th
// request from then on is refused, or none where n is 0. With 2^60 added, all requests after that
// one are refused too. A request of 2^61 + 2^59 bytes asks whether the last refusal of one request alone
// is still to come: where it is, the next request is refused. From a request of 2^61 + 2^58 + n bytes on
// each of more than n bytes is refused. Without this library such a request just fails.
#include <errno.h>
#include <stddef.h>

extern void *__libc_malloc(size_t size);
extern void *__libc_realloc(void *block, size_t size);

static const size_t SWITCH = (size_t)1 << 61;
static const size_t AND_ALL_AFTER = (size_t)1 << 60;
static const size_t IF_AWAITED = (size_t)1 << 59;
static const size_t OF_MORE = (size_t)1 << 58;

// how many requests are left until one is refused, counting it; 0 where none is to be
static size_t until_refused;
static int are_all_after;
// how many bytes a request may have
static size_t most_bytes = (size_t)-1;
// whether a case has that one refused alone, and whether the last one of which it had that is still to come
static int is_alone, is_awaited;

static void turn(size_t size) {
    most_bytes = size & OF_MORE ? size & 0xffffffff : (size_t)-1;
    if (size & OF_MORE) {
        size = SWITCH;
    }
    are_all_after = (size & AND_ALL_AFTER) != 0;
    until_refused = size & IF_AWAITED ? (size_t)is_awaited : size & 0xffffffff;
    is_alone = until_refused != 0 && !(size & (AND_ALL_AFTER | IF_AWAITED));
    is_awaited = is_awaited || is_alone;
}

static int is_refused(size_t size) {
    if (size & SWITCH) {
        turn(size);
        return 1;
    }
    if (size > most_bytes) {
        return 1;
    }
    if (until_refused != 1) {
        until_refused -= until_refused != 0;
        return 0;
    }
    is_awaited = is_awaited && !is_alone;
    until_refused = are_all_after;
    return 1;
}

void *malloc(size_t size) {
    if (is_refused(size)) {
        errno = ENOMEM;
        return NULL;
    }
    return __libc_malloc(size);
}

void *realloc(void *block, size_t size) {
    if (is_refused(size)) {
        errno = ENOMEM;
        return NULL;
    }
    return __libc_realloc(block, size);
}
