/* With refuse.c: one request for memory is refused, and still all is right, and nothing is lost. The status is 1 where
 * something is wrong, 2 where no request was refused. */
#include "birchagain.h"
#include <stdio.h>
#include <string.h>

#define BYTES(s) (const uint8_t *)(s), strlen(s)
#define ROOM 8192

static unsigned refused = 0, wrong = 0;

/* Whether a call was done; else it was refused for want of memory. */
static int done(uint32_t status) {
    refused += status == BIRCHAGAIN_NO_MEMORY;
    wrong += status != BIRCHAGAIN_DONE && status != BIRCHAGAIN_NO_MEMORY;
    return status == BIRCHAGAIN_DONE;
}

/* Calls again what was refused: one request alone is. */
#define INSIST(call) do { if (!done(call) && !done(call)) return 1; } while (0)

/* An index has three documents, of which one is deleted. */
static void holds(birchagain_index *index) {
    uint64_t count = 0, found = 99;
    wrong += birchagain_documents(index, &count) != BIRCHAGAIN_DONE || count != 3;
    if (done(birchagain_count(index, BIRCHAGAIN_SCRIPT, BYTES("term a"), &found))) wrong += found != 2;
    else wrong += found != 99;
}

int main(void) {
    static const uint64_t none[] = {0};
    static uint8_t first[ROOM], second[ROOM];
    birchagain_index index = {0}, other = {0};
    size_t size = 0, again = 0;
    INSIST(birchagain_open(&index));
    INSIST(birchagain_add_text(&index, BYTES("a b a a-long-word-that-takes-memory")));
    INSIST(birchagain_add_text(&index, BYTES("a c")));
    INSIST(birchagain_end_segment(&index));
    INSIST(birchagain_add_text(&index, BYTES("a d")));
    INSIST(birchagain_end_segment(&index));
    INSIST(birchagain_delete(&index, 1));
    INSIST(birchagain_weigh(&index, BYTES("another-long-word-that-takes-memory"), 5));
    if (!done(birchagain_to_bytes(&index, 1, none, 0, first, ROOM, &size))) {
        wrong += size != 0 || first[0] != 0;
        holds(&index);
        INSIST(birchagain_to_bytes(&index, 1, none, 0, first, ROOM, &size));
    }
    holds(&index);
    if (!done(birchagain_from_bytes(&other, first, size))) {
        wrong += other.at != NULL;
        INSIST(birchagain_from_bytes(&other, first, size));
    }
    holds(&other);
    if (!done(birchagain_from_bytes(&other, first, size))) holds(&other);
    INSIST(birchagain_to_bytes(&other, 1, none, 0, second, ROOM, &again));
    wrong += again != size || memcmp(first, second, size) != 0;
    birchagain_free(&index);
    birchagain_free(&other);
    printf("refused %u, wrong %u\n", refused, wrong);
    return wrong ? 1 : refused ? 0 : 2;
}
