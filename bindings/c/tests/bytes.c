/* An index as bytes, and back: what it holds, and what bytes are refused. Prints each check that fails, and then how many
 * there were. */
#include "birchagain.h"
#include <stdio.h>
#include <stdlib.h>
#include <string.h>

static int checks = 0, failed = 0;
#define CHECK(e) do { checks++; if (!(e)) { failed++; printf("line %d: %s\n", __LINE__, #e); } } while (0)
#define BYTES(s) (const uint8_t *)(s), strlen(s)

static const uint64_t none[] = {0};

typedef struct bytes {
    uint8_t *at;
    size_t length;
} bytes;

/* The bytes of an index, without those of the files of these numbers. */
static bytes packed(birchagain_index *index, const uint64_t *known, size_t known_length) {
    bytes it = {malloc(1), 0};
    CHECK(birchagain_to_bytes(index, 7, known, known_length, it.at, 0, &it.length) == BIRCHAGAIN_NO_ROOM && it.length > 16);
    it.at = realloc(it.at, it.length);
    CHECK(birchagain_to_bytes(index, 7, known, known_length, it.at, it.length, &it.length) == BIRCHAGAIN_DONE);
    return it;
}

static uint64_t number_at(const uint8_t *at) {
    uint64_t number = 0;
    for (int k = 8; k-- > 0;) number = number << 8 | at[k];
    return number;
}

/* How many files some bytes are, and how many of them have bytes. */
static void count_files(bytes it, int *files, int *whole) {
    *files = *whole = 0;
    for (size_t at = 16; at < it.length; at += 16 + number_at(it.at + at) + number_at(it.at + at + 8)) {
        *files += 1;
        *whole += number_at(it.at + at + 8) > 0;
    }
}

/* An index of three segments, of which the second has a deleted document. */
static void fill(birchagain_index *index) {
    CHECK(birchagain_open(index) == BIRCHAGAIN_DONE);
    CHECK(birchagain_add_text(index, BYTES("a b a")) == BIRCHAGAIN_DONE && birchagain_add_text(index, BYTES("b")) == BIRCHAGAIN_DONE);
    CHECK(birchagain_end_segment(index) == BIRCHAGAIN_DONE);
    CHECK(birchagain_add_text(index, BYTES("a c")) == BIRCHAGAIN_DONE && birchagain_add_text(index, BYTES("c c")) == BIRCHAGAIN_DONE);
    CHECK(birchagain_end_segment(index) == BIRCHAGAIN_DONE && birchagain_delete(index, 3) == BIRCHAGAIN_DONE);
    CHECK(birchagain_add_text(index, BYTES("d")) == BIRCHAGAIN_DONE && birchagain_end_segment(index) == BIRCHAGAIN_DONE);
    CHECK(birchagain_weigh(index, BYTES("a"), 2000) == BIRCHAGAIN_DONE);
}

/* The index has what `fill` made. */
static void holds(birchagain_index *index) {
    static const size_t ends[] = {1, 2, 3, 4};
    uint64_t out = 0, held[4] = {9, 9, 9, 9};
    birchagain_hit best[3];
    size_t filled = 0;
    CHECK(birchagain_documents(index, &out) == BIRCHAGAIN_DONE && out == 5);
    CHECK(birchagain_frequencies(index, BYTES("abcd"), ends, 4, held, 4) == BIRCHAGAIN_DONE);
    CHECK(held[0] == 2 && held[1] == 2 && held[2] == 2 && held[3] == 1);
    CHECK(birchagain_count(index, BIRCHAGAIN_SCRIPT, BYTES("term c"), &out) == BIRCHAGAIN_DONE && out == 1);
    CHECK(birchagain_count(index, BIRCHAGAIN_SCRIPT, BYTES("phrase 0 2 b a"), &out) == BIRCHAGAIN_DONE && out == 1);
    /* 2000 * 2 / (2 + 3), and 2000 / (1 + 2) */
    CHECK(birchagain_top(index, BIRCHAGAIN_SCRIPT, BYTES("term a"), best, 3, &filled) == BIRCHAGAIN_DONE && filled == 2);
    CHECK(best[0].document == 0 && best[0].score == 800 && best[1].document == 2 && best[1].score == 666);
}

static void there_and_back(void) {
    birchagain_index index = {0}, other = {0};
    bytes it, again;
    fill(&index);
    it = packed(&index, none, 0);
    holds(&index);
    CHECK(birchagain_from_bytes(&other, it.at, it.length) == BIRCHAGAIN_DONE);
    holds(&other);
    again = packed(&other, none, 0);
    CHECK(again.length == it.length && memcmp(again.at, it.at, it.length) == 0);
    birchagain_free(&index);
    /* the one that was read goes on alone */
    CHECK(birchagain_from_bytes(&other, again.at, again.length) == BIRCHAGAIN_DONE);
    memset(again.at, 0, again.length);
    holds(&other);
    CHECK(birchagain_add_text(&other, BYTES("e")) == BIRCHAGAIN_DONE && birchagain_delete(&other, 0) == BIRCHAGAIN_DONE);
    birchagain_free(&other);
    free(it.at);
    free(again.at);
}

/* Of what is known by its number the names alone are written. */
static void known(void) {
    birchagain_index index = {0};
    uint64_t numbers[] = {7, 8, 9, 10};
    bytes it;
    int files, whole;
    fill(&index);
    it = packed(&index, none, 0);
    count_files(it, &files, &whole);
    CHECK(files == 5 && whole == 5);
    free(it.at);
    it = packed(&index, numbers, 4);
    count_files(it, &files, &whole);
    CHECK(files == 5 && whole == 1);
    free(it.at);
    /* a deletion makes one file new, another segment one more */
    CHECK(birchagain_delete(&index, 0) == BIRCHAGAIN_DONE && birchagain_add_text(&index, BYTES("x")) == BIRCHAGAIN_DONE);
    CHECK(birchagain_end_segment(&index) == BIRCHAGAIN_DONE);
    it = packed(&index, numbers, 4);
    count_files(it, &files, &whole);
    CHECK(files == 7 && whole == 3);
    birchagain_index other = {0};
    CHECK(birchagain_from_bytes(&other, it.at, it.length) == BIRCHAGAIN_DAMAGED && other.at == NULL);
    free(it.at);
    birchagain_free(&index);
}

/* What is refused changes nothing, and writes nothing. */
static void refused(void) {
    birchagain_index index = {0}, held = {0};
    uint8_t out[4] = {1, 2, 3, 4};
    size_t size = 9;
    bytes it;
    CHECK(birchagain_to_bytes(&index, 7, none, 0, out, 4, &size) == BIRCHAGAIN_EMPTY && size == 9 && out[0] == 1);
    fill(&index);
    CHECK(birchagain_to_bytes(&index, 7, none, 0, out, 4, &size) == BIRCHAGAIN_NO_ROOM && size > 4 && out[0] == 1 && out[3] == 4);
    it = packed(&index, none, 0);
    size = 9;
    CHECK(birchagain_add_text(&index, BYTES("new")) == BIRCHAGAIN_DONE);
    CHECK(birchagain_to_bytes(&index, 7, none, 0, out, 4, &size) == BIRCHAGAIN_OPEN_SEGMENT && size == 9 && out[0] == 1);
    CHECK(birchagain_end_segment(&index) == BIRCHAGAIN_DONE);
    CHECK(birchagain_to_bytes(&index, UINT64_MAX, none, 0, out, 4, &size) == BIRCHAGAIN_NO_NUMBER && size == 9);
    birchagain_free(&index);
    fill(&held);
    CHECK(birchagain_from_bytes(&held, it.at, 15) == BIRCHAGAIN_OTHER_FILE);
    it.at[0] ^= 1;
    CHECK(birchagain_from_bytes(&held, it.at, it.length) == BIRCHAGAIN_OTHER_FILE);
    it.at[0] ^= 1;
    it.at[8] = 2;
    CHECK(birchagain_from_bytes(&held, it.at, it.length) == BIRCHAGAIN_OTHER_VERSION);
    it.at[8] = 1;
    CHECK(birchagain_from_bytes(&held, it.at, 16) == BIRCHAGAIN_DAMAGED);
    CHECK(birchagain_from_bytes(&held, it.at, it.length - 1) == BIRCHAGAIN_DAMAGED);
    it.at[it.length - 1] ^= 1;
    CHECK(birchagain_from_bytes(&held, it.at, it.length) == BIRCHAGAIN_DAMAGED);
    holds(&held);
    birchagain_free(&held);
    free(it.at);
}

/* Without a segment, and of segments without documents. */
static void empty(void) {
    birchagain_index index = {0};
    uint64_t out = 9;
    bytes it;
    CHECK(birchagain_open(&index) == BIRCHAGAIN_DONE);
    it = packed(&index, none, 0);
    CHECK(birchagain_from_bytes(&index, it.at, it.length) == BIRCHAGAIN_DONE);
    free(it.at);
    CHECK(birchagain_documents(&index, &out) == BIRCHAGAIN_DONE && out == 0);
    CHECK(birchagain_end_segment(&index) == BIRCHAGAIN_DONE && birchagain_end_segment(&index) == BIRCHAGAIN_DONE);
    it = packed(&index, none, 0);
    CHECK(birchagain_from_bytes(&index, it.at, it.length) == BIRCHAGAIN_DONE);
    CHECK(birchagain_documents(&index, &out) == BIRCHAGAIN_DONE && out == 0);
    free(it.at);
    birchagain_free(&index);
}

int main(void) {
    there_and_back();
    known();
    refused();
    empty();
    printf("bytes: %d as wanted, %d not\n", checks - failed, failed);
    return failed != 0;
}
