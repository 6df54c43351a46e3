/* Adds three documents, weighs three words by how rare they are among these, and searches for the best, and for all. */
#include "birchagain.h"
#include <stdio.h>
#include <stdlib.h>
#include <string.h>

/* Ends the program where a call was refused, and says why. */
static void done(uint32_t status) {
    char text[128];
    size_t length;
    if (status == BIRCHAGAIN_DONE) return;
    length = birchagain_status_text(status, (uint8_t *)text, sizeof text);
    fprintf(stderr, "%.*s\n", (int)(length < sizeof text ? length : sizeof text), text);
    exit(1);
}

int main(void) {
    static const char *const texts[] = {"an old apple tree", "an apple a day", "woodpeckers nest in old trees"};
    static const char words[] = "oldappleowl";
    static const size_t ends[] = {3, 8, 11};
    static const char query[] = "old apple", beginning[] = "tre*";
    birchagain_index index = {0};
    birchagain_hit best[3];
    uint64_t documents, held[3], page[3];
    size_t k, filled;

    done(birchagain_open(&index));
    for (k = 0; k < 3; k++) done(birchagain_add_text(&index, (const uint8_t *)texts[k], strlen(texts[k])));
    done(birchagain_documents(&index, &documents));
    done(birchagain_frequencies(&index, (const uint8_t *)words, strlen(words), ends, 3, held, 3));
    for (k = 0; k < 3; k++) {
        size_t start = k == 0 ? 0 : ends[k - 1];
        uint64_t weight = birchagain_rarity(documents, held[k]);
        printf("%.*s: in %d of %d, weighs %d\n", (int)(ends[k] - start), words + start, (int)held[k], (int)documents, (int)weight);
        done(birchagain_weigh(&index, (const uint8_t *)words + start, ends[k] - start, (int64_t)weight));
    }
    done(birchagain_top(&index, BIRCHAGAIN_TYPED, (const uint8_t *)query, strlen(query), best, 3, &filled));
    for (k = 0; k < filled; k++) printf("%d  %s\n", (int)best[k].score, texts[best[k].document]);
    done(birchagain_page(&index, BIRCHAGAIN_TYPED, (const uint8_t *)beginning, strlen(beginning), 0, page, 3, &filled));
    for (k = 0; k < filled; k++) printf("%s: %s\n", beginning, texts[page[k]]);
    birchagain_free(&index);
    return 0;
}
