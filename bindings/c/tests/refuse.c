/* Linked with -Wl,--wrap=malloc,--wrap=realloc: refuses the request of the number that FAIL_AT names, and passes all
 * others on, so that valgrind sees them. */
#include <stddef.h>
#include <stdlib.h>

void *__real_malloc(size_t size);
void *__real_realloc(void *block, size_t size);
void *__wrap_malloc(size_t size);
void *__wrap_realloc(void *block, size_t size);

static long seen = 0;

static int is_refused(void) {
    const char *at = getenv("FAIL_AT");
    return at && ++seen == atol(at);
}

void *__wrap_malloc(size_t size) { return is_refused() ? NULL : __real_malloc(size); }
void *__wrap_realloc(void *block, size_t size) { return is_refused() ? NULL : __real_realloc(block, size); }
