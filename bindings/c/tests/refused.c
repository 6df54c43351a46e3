/* With refuse.c: one request for memory is refused, and still all is right, and nothing is lost. The status is 1 where
 * something is wrong, 2 where no request was refused. */
#include "birchagain.h"
#include <stdio.h>
#include <string.h>

#define BYTES(s) (const uint8_t *)(s), strlen(s)

static unsigned refused = 0, wrong = 0;

/* Whether a call was done; else it was refused for want of memory. */
static int done(uint32_t status) {
    refused += status == BIRCHAGAIN_NO_MEMORY;
    wrong += status != BIRCHAGAIN_DONE && status != BIRCHAGAIN_NO_MEMORY;
    return status == BIRCHAGAIN_DONE;
}

/* An index has so many documents, so many of them have the words, and so many are left. */
static void holds(birchagain_index *index, uint64_t documents, uint64_t with_a, uint64_t with_d, uint64_t alive) {
    static const size_t ends[] = {1, 2};
    uint64_t count = 0, found = 99, held[2] = {99, 99}, page[2] = {99, 99};
    birchagain_hit best[3];
    size_t filled = 99, paged = 99;
    wrong += birchagain_documents(index, &count) != BIRCHAGAIN_DONE || count != documents;
    if (done(birchagain_frequencies(index, BYTES("ad"), ends, 2, held, 2))) wrong += held[0] != with_a || held[1] != with_d;
    else wrong += held[0] != 99 || held[1] != 99;
    if (done(birchagain_count(index, BIRCHAGAIN_TYPED, BYTES("\"b a\" OR d^2"), &found))) wrong += found != alive;
    else wrong += found != 99;
    if (done(birchagain_top(index, BIRCHAGAIN_SCRIPT, BYTES("bool 0 2 ? term a ? term d"), best, 3, &filled)))
        wrong += filled != (alive < 3 ? alive : 3);
    else wrong += filled != 99;
    if (done(birchagain_page(index, BIRCHAGAIN_TYPED, BYTES("a-lon* d"), 1, page, 2, &paged)))
        wrong += page[0] < 1 || page[1] <= page[0] || paged > 2;
    else wrong += page[0] != 99 || paged != 99;
}

/* The words of a query, and that it is understood. */
static void says(void) {
    uint8_t bytes[64] = "?";
    size_t ends[9], size = 99, words = 99, place = 99;
    if (done(birchagain_query_words(BIRCHAGAIN_TYPED, BYTES("a AND (\"b c\" -d*)"), bytes, 64, ends, 9, &size, &words)))
        wrong += size != 3 || words != 3;
    else wrong += size != 99 || words != 99 || bytes[0] != '?';
    done(birchagain_check_query(BIRCHAGAIN_SCRIPT, BYTES("bool 0 2 + term a ? boost 2 all"), &place));
    wrong += place != 99;
}

int main(void) {
    static const size_t ends[] = {1, 2, 4}, placed_ends[] = {1, 30}, place_ends[] = {2, 3};
    static const uint32_t places[] = {0, 5, 2};
    birchagain_index index = {0};
    uint64_t texts = 0, words = 0, alive;
    if (!done(birchagain_open(&index))) {
        wrong += index.at != NULL;
        if (!done(birchagain_open(&index))) return 1;
    }
    for (int d = 0; d < 12; d++) {
        texts += done(birchagain_add_text(&index, BYTES("a b a c a-long-word-that-takes-memory")));
        words += done(birchagain_add_words(&index, BYTES("dbdd"), ends, 3));
        if (d % 4 == 1)
            words += done(birchagain_add_placed(&index, BYTES("da word that takes memory, too"), placed_ends, 2, places, 3,
                                                place_ends, 2, 7));
        if (d % 4 == 3) done(birchagain_end_segment(&index));
        if (d % 3 == 1) holds(&index, texts + words, texts, words, texts + words);
    }
    done(birchagain_weigh(&index, BYTES("another-long-word-that-takes-memory"), 5));
    alive = texts + words;
    alive -= done(birchagain_delete(&index, 0));
    alive -= done(birchagain_delete(&index, texts + words - 1));
    done(birchagain_refresh(&index));
    holds(&index, texts + words, texts, words, alive);
    says();
    birchagain_free(&index);
    printf("refused %u, wrong %u\n", refused, wrong);
    return wrong ? 1 : refused ? 0 : 2;
}
