/* Each call, with what it does and what it refuses. Prints each check that fails, and then how many there were. */
#include "birchagain.h"
#include <stdio.h>
#include <string.h>

static int checks = 0, failed = 0;
#define CHECK(e) do { checks++; if (!(e)) { failed++; printf("line %d: %s\n", __LINE__, #e); } } while (0)
#define BYTES(s) (const uint8_t *)(s), strlen(s)
#define TYPED(s) BIRCHAGAIN_TYPED, BYTES(s)
#define SCRIPT(s) BIRCHAGAIN_SCRIPT, BYTES(s)

static const size_t one[] = {1}, two[] = {1, 2};
static const uint32_t zero = 0;
static uint32_t norms[257];

/* How many documents hold this word; 99 where that is refused. */
static uint64_t held(birchagain_index *index, const char *word) {
    size_t end = strlen(word);
    uint64_t out = 99;
    birchagain_frequencies(index, BYTES(word), &end, 1, &out, 1);
    return out;
}

static uint64_t documents(birchagain_index *index) {
    uint64_t out = 99;
    birchagain_documents(index, &out);
    return out;
}

/* A call on an empty index is refused, and writes nothing. */
static void empty(void) {
    birchagain_index index = {0};
    birchagain_hit hit = {7, 8};
    uint64_t out = 7;
    size_t filled = 9;
    CHECK(birchagain_add_text(&index, BYTES("a b")) == BIRCHAGAIN_EMPTY);
    CHECK(birchagain_add_words(&index, BYTES("a"), one, 1) == BIRCHAGAIN_EMPTY);
    CHECK(birchagain_add_placed(&index, BYTES("a"), one, 1, &zero, 1, one, 1, 1) == BIRCHAGAIN_EMPTY);
    CHECK(birchagain_delete(&index, 0) == BIRCHAGAIN_EMPTY);
    CHECK(birchagain_end_segment(&index) == BIRCHAGAIN_EMPTY);
    CHECK(birchagain_refresh(&index) == BIRCHAGAIN_EMPTY);
    CHECK(birchagain_documents(&index, &out) == BIRCHAGAIN_EMPTY && out == 7);
    CHECK(birchagain_weigh(&index, BYTES("a"), 5) == BIRCHAGAIN_EMPTY);
    CHECK(birchagain_set_norms(&index, norms, 256) == BIRCHAGAIN_EMPTY);
    CHECK(birchagain_frequencies(&index, BYTES("a"), one, 1, &out, 1) == BIRCHAGAIN_EMPTY && out == 7);
    CHECK(birchagain_count(&index, SCRIPT("all"), &out) == BIRCHAGAIN_EMPTY && out == 7);
    CHECK(birchagain_top(&index, SCRIPT("all"), &hit, 1, &filled) == BIRCHAGAIN_EMPTY && filled == 9
          && hit.document == 7);
    CHECK(birchagain_page(&index, TYPED("a"), 0, &out, 1, &filled) == BIRCHAGAIN_EMPTY && filled == 9 && out == 7);
    birchagain_free(&index);
    CHECK(index.at == NULL);
}

/* Documents are added, deleted and counted over several segments. */
static void added(void) {
    birchagain_index index = {0}, moved;
    uint64_t out[2] = {7, 7};
    CHECK(birchagain_open(&index) == BIRCHAGAIN_DONE && documents(&index) == 0);
    CHECK(birchagain_add_text(&index, BYTES("a b  a")) == BIRCHAGAIN_DONE);
    CHECK(birchagain_add_words(&index, BYTES("ac"), two, 2) == BIRCHAGAIN_DONE);
    CHECK(birchagain_add_words(&index, BYTES(""), one, 0) == BIRCHAGAIN_DONE);
    CHECK(held(&index, "a") == 2 && held(&index, "c") == 1);
    CHECK(birchagain_end_segment(&index) == BIRCHAGAIN_DONE);
    CHECK(birchagain_add_text(&index, BYTES("b d\xc3\xa9")) == BIRCHAGAIN_DONE);
    CHECK(birchagain_refresh(&index) == BIRCHAGAIN_DONE);
    CHECK(documents(&index) == 4 && held(&index, "b") == 2 && held(&index, "d\xc3\xa9") == 1 && held(&index, "d") == 0);
    CHECK(birchagain_delete(&index, 3) == BIRCHAGAIN_DONE && birchagain_delete(&index, 0) == BIRCHAGAIN_DONE);
    CHECK(birchagain_delete(&index, 0) == BIRCHAGAIN_DONE && birchagain_delete(&index, 4) == BIRCHAGAIN_NO_DOCUMENT);
    CHECK(documents(&index) == 4 && held(&index, "b") == 2);
    CHECK(birchagain_frequencies(&index, BYTES("ab"), two, 2, out, 2) == BIRCHAGAIN_DONE && out[0] == 2 && out[1] == 2);
    moved = index;
    memset(&index, 0, sizeof index);
    CHECK(documents(&moved) == 4 && birchagain_open(&moved) == BIRCHAGAIN_DONE && documents(&moved) == 0);
    birchagain_free(&moved);
    birchagain_free(&moved);
    CHECK(birchagain_refresh(&moved) == BIRCHAGAIN_EMPTY);
}

/* What is refused changes nothing. */
static void refused(void) {
    static const size_t falling[] = {3, 2}, past[] = {1, 3}, again[] = {1, 1};
    birchagain_index index = {0};
    uint64_t out[2] = {7, 7};
    CHECK(birchagain_open(&index) == BIRCHAGAIN_DONE && birchagain_add_text(&index, BYTES("a")) == BIRCHAGAIN_DONE);
    CHECK(birchagain_add_text(&index, BYTES("a \xff")) == BIRCHAGAIN_NOT_TEXT);
    CHECK(birchagain_add_words(&index, BYTES("a b"), falling, 2) == BIRCHAGAIN_NOT_WORDS);
    CHECK(birchagain_add_words(&index, BYTES("ab"), past, 2) == BIRCHAGAIN_NOT_WORDS);
    CHECK(birchagain_add_words(&index, BYTES("ab"), again, 2) == BIRCHAGAIN_NOT_WORDS);
    CHECK(birchagain_add_words(&index, BYTES("\xc3\xa9"), two, 2) == BIRCHAGAIN_NOT_TEXT);
    CHECK(birchagain_delete(&index, 1) == BIRCHAGAIN_NO_DOCUMENT && birchagain_delete(&index, UINT64_MAX) == BIRCHAGAIN_NO_DOCUMENT);
    CHECK(birchagain_weigh(&index, BYTES("a"), -1) == BIRCHAGAIN_NEGATIVE_WEIGHT);
    CHECK(birchagain_weigh(&index, BYTES("\xff"), 1) == BIRCHAGAIN_NOT_TEXT);
    CHECK(birchagain_weigh(&index, BYTES("a"), 0) == BIRCHAGAIN_DONE && birchagain_weigh(&index, BYTES("a"), INT64_MAX) == BIRCHAGAIN_DONE);
    CHECK(birchagain_frequencies(&index, BYTES("ab"), two, 2, out, 1) == BIRCHAGAIN_UNEVEN_ROWS && out[0] == 7);
    CHECK(birchagain_frequencies(&index, BYTES("a "), two, 2, out, 2) == BIRCHAGAIN_NOT_WORDS && out[0] == 7 && out[1] == 7);
    CHECK(documents(&index) == 1 && held(&index, "a") == 1);
    birchagain_free(&index);
}

/* What documents of a length count as. */
static void lengths(void) {
    birchagain_index index = {0};
    birchagain_hit best[2] = {{7, 7}, {7, 7}};
    size_t filled = 9;
    for (int id = 0; id < 257; id++) norms[id] = 3;
    norms[2] = 9;
    CHECK(birchagain_open(&index) == BIRCHAGAIN_DONE && birchagain_add_text(&index, BYTES("a")) == BIRCHAGAIN_DONE
          && birchagain_add_text(&index, BYTES("a b")) == BIRCHAGAIN_DONE);
    CHECK(birchagain_set_norms(&index, norms, 256) == BIRCHAGAIN_BAD_NORMS);
    CHECK(birchagain_top(&index, TYPED("a"), best, 2, &filled) == BIRCHAGAIN_DONE && best[0].score == 500 && best[1].score == 333);
    for (int id = 3; id < 257; id++) norms[id] = 9;
    CHECK(birchagain_set_norms(&index, norms, 255) == BIRCHAGAIN_UNEVEN_ROWS
          && birchagain_set_norms(&index, norms, 257) == BIRCHAGAIN_UNEVEN_ROWS);
    CHECK(birchagain_set_norms(&index, norms, 256) == BIRCHAGAIN_DONE);
    CHECK(birchagain_top(&index, TYPED("a"), best, 2, &filled) == BIRCHAGAIN_DONE && best[0].score == 250 && best[1].score == 100);
    birchagain_free(&index);
}

/* How many documents match a typed query; from 1000 on its status where it is refused. */
static uint64_t typed(birchagain_index *index, const char *query) {
    uint64_t out = 7;
    uint32_t status = birchagain_count(index, TYPED(query), &out);
    return status == BIRCHAGAIN_DONE ? out : 1000 + status;
}

/* The score of the best document for a typed query; -1 where there is none. */
static int64_t best_score(birchagain_index *index, const char *query) {
    birchagain_hit best = {0, -1};
    size_t filled;
    birchagain_top(index, TYPED(query), &best, 1, &filled);
    return best.score;
}

/* Words with places, and a length of the document's own. */
static void placed(void) {
    /* `a` at 0 and 4, `new york` at 1, `b` at 1 and 6 */
    static const size_t ends[] = {1, 9, 10}, place_ends[] = {2, 3, 5};
    static const uint32_t places[] = {0, 4, 1, 1, 6};
    birchagain_index index = {0};
    CHECK(birchagain_open(&index) == BIRCHAGAIN_DONE);
    CHECK(birchagain_add_placed(&index, BYTES("anew yorkb"), ends, 3, places, 5, place_ends, 3, 8) == BIRCHAGAIN_DONE);
    CHECK(birchagain_add_placed(&index, BYTES(""), one, 0, places, 0, one, 0, 0) == BIRCHAGAIN_DONE && documents(&index) == 2);
    CHECK(held(&index, "a") == 1 && held(&index, "b") == 1 && held(&index, "new") == 0 && held(&index, "york") == 0);
    CHECK(typed(&index, "new*") == 1 && typed(&index, "york*") == 0 && typed(&index, "\"a new\"*") == 1
          && typed(&index, "\"b new\"*") == 0);
    CHECK(typed(&index, "\"a b\"") == 1 && typed(&index, "\"b a\"") == 0 && typed(&index, "\"b a\"~2") == 1);
    /* two places of the length 8 score 2 / (2 + 8), of the length 0 all, and one of the length 255 scores 1 / (1 + 255) */
    CHECK(best_score(&index, "a") == 200);
    CHECK(birchagain_delete(&index, 0) == BIRCHAGAIN_DONE
          && birchagain_add_placed(&index, BYTES("anew yorkb"), ends, 3, places, 5, place_ends, 3, 0) == BIRCHAGAIN_DONE
          && best_score(&index, "a") == 1000);
    CHECK(birchagain_add_placed(&index, BYTES("c"), one, 1, places, 1, one, 1, 255) == BIRCHAGAIN_DONE
          && best_score(&index, "c") == 3);
    birchagain_free(&index);
}

/* What is no document of words with places. */
static void refused_placed(void) {
    static const size_t falling[] = {2, 1}, past[] = {1, 3}, again[] = {1, 1}, none[] = {0, 2};
    static const uint32_t places[] = {1, 0}, high[] = {4294967294u, 4294967295u};
    birchagain_index index = {0};
    CHECK(birchagain_open(&index) == BIRCHAGAIN_DONE);
    CHECK(birchagain_add_placed(&index, BYTES("ab"), two, 2, places, 2, two, 1, 2) == BIRCHAGAIN_UNEVEN_ROWS
          && birchagain_add_placed(&index, BYTES("ab"), two, 1, places, 2, two, 2, 2) == BIRCHAGAIN_UNEVEN_ROWS);
    CHECK(birchagain_add_placed(&index, BYTES("ab"), falling, 2, places, 2, two, 2, 2) == BIRCHAGAIN_NOT_WORDS
          && birchagain_add_placed(&index, BYTES("ab"), past, 2, places, 2, two, 2, 2) == BIRCHAGAIN_NOT_WORDS
          && birchagain_add_placed(&index, BYTES("ab"), again, 2, places, 2, two, 2, 2) == BIRCHAGAIN_NOT_WORDS);
    CHECK(birchagain_add_placed(&index, BYTES("ab"), two, 2, places, 2, falling, 2, 2) == BIRCHAGAIN_NOT_WORDS
          && birchagain_add_placed(&index, BYTES("ab"), two, 2, places, 2, past, 2, 2) == BIRCHAGAIN_NOT_WORDS);
    CHECK(birchagain_add_placed(&index, BYTES("\xc3\xa9"), two, 2, places, 2, two, 2, 2) == BIRCHAGAIN_NOT_TEXT);
    CHECK(birchagain_add_placed(&index, BYTES("ab"), two, 2, places, 2, none, 2, 2) == BIRCHAGAIN_BAD_DOCUMENT
          && birchagain_add_placed(&index, BYTES("aa"), two, 2, places, 2, two, 2, 2) == BIRCHAGAIN_BAD_DOCUMENT);
    CHECK(birchagain_add_placed(&index, BYTES("a"), one, 1, places, 2, two + 1, 1, 2) == BIRCHAGAIN_BAD_DOCUMENT
          && birchagain_add_placed(&index, BYTES("ab"), two, 2, high, 2, two, 2, 2) == BIRCHAGAIN_BAD_DOCUMENT);
    CHECK(documents(&index) == 0 && birchagain_add_placed(&index, BYTES("a"), one, 1, high, 1, one, 1, 2) == BIRCHAGAIN_DONE);
    CHECK(documents(&index) == 1 && held(&index, "a") == 1);
    birchagain_free(&index);
}

/* Queries, over examples/weights.txt of the project. */
static void found(void) {
    birchagain_index index = {0};
    birchagain_hit best[3] = {{7, 7}, {7, 7}, {7, 7}};
    uint64_t out = 7;
    size_t filled = 9;
    CHECK(birchagain_open(&index) == BIRCHAGAIN_DONE);
    CHECK(birchagain_add_text(&index, BYTES("a b")) == BIRCHAGAIN_DONE && birchagain_add_text(&index, BYTES("a")) == BIRCHAGAIN_DONE);
    CHECK(birchagain_end_segment(&index) == BIRCHAGAIN_DONE && birchagain_add_text(&index, BYTES("a a b")) == BIRCHAGAIN_DONE);
    CHECK(birchagain_weigh(&index, BYTES("b"), 500) == BIRCHAGAIN_DONE);
    CHECK(birchagain_count(&index, SCRIPT("term a"), &out) == BIRCHAGAIN_DONE && out == 3);
    CHECK(birchagain_top(&index, SCRIPT("bool 0 2 ? term a ? term b"), best, 2, &filled) == BIRCHAGAIN_DONE
          && filled == 2);
    CHECK(best[0].document == 2 && best[0].score == 525 && best[1].document == 1 && best[1].score == 500 && best[2].score == 7);
    CHECK(birchagain_top(&index, SCRIPT("term b"), best, 3, &filled) == BIRCHAGAIN_DONE && filled == 2
          && best[2].document == 7);
    CHECK(birchagain_top(&index, SCRIPT("term b"), best, 0, &filled) == BIRCHAGAIN_DONE && filled == 0);
    CHECK(birchagain_delete(&index, 2) == BIRCHAGAIN_DONE
          && birchagain_count(&index, SCRIPT("term b"), &out) == BIRCHAGAIN_DONE && out == 1);
    CHECK(birchagain_count(&index, SCRIPT("oops"), &out) == BIRCHAGAIN_NOT_UNDERSTOOD
          && birchagain_count(&index, SCRIPT("term \xff"), &out) == BIRCHAGAIN_NOT_UNDERSTOOD);
    CHECK(birchagain_count(&index, SCRIPT("phrase 0 1 a"), &out) == BIRCHAGAIN_TOO_FEW_TERMS
          && birchagain_count(&index, SCRIPT("prefix 5 0"), &out) == BIRCHAGAIN_EMPTY_PREFIX);
    CHECK(birchagain_count(&index, SCRIPT("max 1001 1 term a"), &out) == BIRCHAGAIN_TIE_BREAKER && out == 1);
    CHECK(birchagain_weigh(&index, BYTES("a"), INT64_MAX) == BIRCHAGAIN_DONE);
    CHECK(birchagain_top(&index, SCRIPT("phrase 0 2 a b"), best, 3, &filled) == BIRCHAGAIN_SCORE_BOUND
          && filled == 0 && best[2].document == 7);
    birchagain_free(&index);
}

/* The language that people type. */
static void found_typed(void) {
    birchagain_index index = {0};
    birchagain_hit best[4];
    size_t filled = 9;
    uint64_t out = 7;
    CHECK(birchagain_open(&index) == BIRCHAGAIN_DONE);
    CHECK(birchagain_add_text(&index, BYTES("an old apple tree")) == BIRCHAGAIN_DONE);
    CHECK(birchagain_add_text(&index, BYTES("an apple a day")) == BIRCHAGAIN_DONE
          && birchagain_end_segment(&index) == BIRCHAGAIN_DONE);
    CHECK(birchagain_add_text(&index, BYTES("woodpeckers nest in old trees")) == BIRCHAGAIN_DONE);
    CHECK(typed(&index, "old") == 2 && typed(&index, "old apple") == 3 && typed(&index, "old AND apple") == 1);
    CHECK(typed(&index, "tree*") == 2 && typed(&index, "\"old tree\"") == 0 && typed(&index, "\"old tree\"~1") == 1);
    CHECK(typed(&index, "\"old tree\"*") == 1 && typed(&index, "\"old\"~3") == 2
          && typed(&index, "\" old  trees \"") == 1);
    CHECK(typed(&index, "*") == 3 && typed(&index, "") == 0 && typed(&index, "\"\"") == 0
          && typed(&index, "\" \"*") == 0);
    CHECK(typed(&index, "-old") == 0 && typed(&index, "* -old") == 1 && typed(&index, "+apple old") == 2
          && typed(&index, "Old") == 0);
    CHECK(typed(&index, "title:old") == 1000 + BIRCHAGAIN_NAMES_FIELD
          && typed(&index, "old \xff") == 1000 + BIRCHAGAIN_NOT_UNDERSTOOD);
    CHECK(typed(&index, "\"old") == 1000 + BIRCHAGAIN_OPEN_QUOTE
          && typed(&index, "(a)(b)") == 1000 + BIRCHAGAIN_TOUCHING);
    CHECK(birchagain_count(&index, 2, BYTES("old"), &out) == BIRCHAGAIN_NO_LANGUAGE && out == 7);
    /* 1000 / (1 + 4), three times that, and of five words 3 * (1000 / (1 + 5)) */
    CHECK(birchagain_top(&index, TYPED("old^3 apple"), best, 4, &filled) == BIRCHAGAIN_DONE && filled == 3);
    CHECK(best[0].document == 0 && best[0].score == 800 && best[1].document == 2 && best[1].score == 498
          && best[2].score == 200);
    birchagain_free(&index);
}

/* A page at a time, and the texts of queries. */
static void paged(void) {
    birchagain_index index = {0};
    uint64_t page[3] = {7, 7, 7};
    size_t filled = 9;
    CHECK(birchagain_open(&index) == BIRCHAGAIN_DONE);
    for (int d = 0; d < 9; d++) {
        const char *text = d % 2 ? "odd" : "even";
        CHECK(birchagain_add_text(&index, BYTES(text)) == BIRCHAGAIN_DONE);
        if (d % 4 == 3) CHECK(birchagain_end_segment(&index) == BIRCHAGAIN_DONE);
    }
    CHECK(birchagain_delete(&index, 2) == BIRCHAGAIN_DONE);
    CHECK(birchagain_page(&index, TYPED("even"), 0, page, 3, &filled) == BIRCHAGAIN_DONE && filled == 3);
    CHECK(page[0] == 0 && page[1] == 4 && page[2] == 6);
    CHECK(birchagain_page(&index, TYPED("even"), 7, page, 3, &filled) == BIRCHAGAIN_DONE && filled == 1
          && page[0] == 8 && page[1] == 4);
    CHECK(birchagain_page(&index, SCRIPT("term even"), 8, page, 0, &filled) == BIRCHAGAIN_DONE && filled == 0
          && page[0] == 8);
    CHECK(birchagain_page(&index, TYPED("even"), UINT64_MAX, page, 3, &filled) == BIRCHAGAIN_DONE && filled == 0);
    filled = 9;
    CHECK(birchagain_page(&index, TYPED("even)"), 0, page, 3, &filled) == BIRCHAGAIN_STRAY_PARENTHESIS
          && filled == 9 && page[0] == 8);
    birchagain_free(&index);
}

static void texts(void) {
    static const char query[] = "old +\"apple tree\"~2 -(an old) nes* \"in the nes\"*";
    uint8_t bytes[64];
    size_t ends[9], size = 99, words = 99, place = 99;
    memset(bytes, '.', sizeof bytes);
    CHECK(birchagain_query_words(TYPED(query), bytes, 64, ends, 9, &size, &words) == BIRCHAGAIN_DONE && size == 22
          && words == 7);
    CHECK(memcmp(bytes, "oldappletreeanoldinthe.", 23) == 0 && ends[0] == 3 && ends[2] == 12 && ends[6] == 22);
    memset(bytes, '.', sizeof bytes);
    size = words = 99;
    CHECK(birchagain_query_words(TYPED(query), bytes, 64, ends, 6, &size, &words) == BIRCHAGAIN_NO_ROOM
          && size == 22 && words == 7);
    size = words = 99;
    CHECK(birchagain_query_words(TYPED(query), bytes, 21, ends, 7, &size, &words) == BIRCHAGAIN_NO_ROOM
          && size == 22 && words == 7);
    CHECK(bytes[0] == '.'
          && birchagain_query_words(TYPED("*"), bytes, 0, ends, 0, &size, &words) == BIRCHAGAIN_DONE
          && size + words == 0);
    size = words = 99;
    CHECK(birchagain_query_words(SCRIPT("term"), bytes, 64, ends, 9, &size, &words) == BIRCHAGAIN_NOT_UNDERSTOOD
          && size + words == 198);
    CHECK(birchagain_query_words(SCRIPT("max 5 2 term a prefix 9 2 b c"), bytes, 64, ends, 9, &size, &words) == BIRCHAGAIN_DONE && words == 2);
    CHECK(bytes[0] == 'a' && bytes[1] == 'b' && ends[0] == 1 && ends[1] == 2);
    CHECK(birchagain_check_query(TYPED("old apple"), &place) == BIRCHAGAIN_DONE && place == 99);
    CHECK(birchagain_check_query(TYPED("d\xc3\xa9 ap*le"), &place) == BIRCHAGAIN_WILDCARD && place == 6);
    place = 99;
    CHECK(birchagain_check_query(TYPED("a:b"), &place) == BIRCHAGAIN_NAMES_FIELD && place == 99);
    CHECK(birchagain_check_query(SCRIPT("ap*le"), &place) == BIRCHAGAIN_NOT_UNDERSTOOD && place == 99);
    CHECK(birchagain_check_query(UINT32_MAX, BYTES("all"), &place) == BIRCHAGAIN_NO_LANGUAGE && place == 99);
}

/* Answers of two indexes. */
static void merged(void) {
    const birchagain_hit one[] = {{4, 9}, {2, 5}, {3, 5}}, other[] = {{0, 7}, {1, 5}}, rising[] = {{0, 1}, {1, 2}};
    birchagain_hit out[6];
    size_t filled = 9;
    memset(out, 7, sizeof out);
    CHECK(birchagain_merge(one, 3, other, 2, 10, out, 4, &filled) == BIRCHAGAIN_DONE && filled == 4);
    CHECK(out[0].document == 4 && out[1].document == 10 && out[1].score == 7 && out[2].document == 2 && out[3].document == 3);
    CHECK(birchagain_merge(one, 3, other, 2, 10, out, 6, &filled) == BIRCHAGAIN_DONE && filled == 5 && out[4].document == 11);
    CHECK(out[4].score == 5 && birchagain_merge(one, 0, other, 0, 10, out, 6, &filled) == BIRCHAGAIN_DONE && filled == 0);
    filled = 9;
    CHECK(birchagain_merge(one, 3, rising, 2, UINT64_MAX, out, 6, &filled) == BIRCHAGAIN_NOT_RANKED && filled == 9);
    CHECK(birchagain_merge(rising, 2, other, 2, 0, out, 6, &filled) == BIRCHAGAIN_NOT_RANKED && filled == 9);
    CHECK(birchagain_merge(one, 3, other, 2, UINT64_MAX, out, 6, &filled) == BIRCHAGAIN_NUMBER_TOO_HIGH && filled == 9);
    CHECK(out[0].document == 4 && birchagain_merge(one, 3, other, 1, UINT64_MAX, out, 2, &filled) == BIRCHAGAIN_DONE);
    CHECK(filled == 2 && out[1].document == UINT64_MAX && out[1].score == 7);
}

/* So many documents that blocks, parts and segments are filled. */
static void many(void) {
    birchagain_index index = {0};
    CHECK(birchagain_open(&index) == BIRCHAGAIN_DONE);
    for (int d = 0; d < 5000; d++) {
        char text[64];
        snprintf(text, sizeof text, "all w%d x%d", d % 7, d % 100);
        CHECK(birchagain_add_text(&index, BYTES(text)) == BIRCHAGAIN_DONE);
        if (d % 1700 == 1699) CHECK(birchagain_end_segment(&index) == BIRCHAGAIN_DONE);
        if (d % 500 == 0) CHECK(held(&index, "all") == (uint64_t)d + 1);
    }
    CHECK(held(&index, "x3") == 50 && held(&index, "w6") == 714 && documents(&index) == 5000);
    CHECK(typed(&index, "w6 AND x3") == 7 && typed(&index, "x3*") == 550 && typed(&index, "w*") == 5000);
    birchagain_free(&index);
}

static void told(void) {
    static const char text[] = "there is no document of that number";
    uint8_t out[64];
    memset(out, '.', sizeof out);
    CHECK(birchagain_status_text(BIRCHAGAIN_NO_DOCUMENT, out, 5) == strlen(text) && memcmp(out, "there..", 7) == 0);
    CHECK(birchagain_status_text(BIRCHAGAIN_NO_DOCUMENT, out, sizeof out) == strlen(text) && memcmp(out, text, strlen(text)) == 0);
    CHECK(out[strlen(text)] == '.' && birchagain_status_text(65, out, 0) > 0);
    CHECK(birchagain_rarity(3, 2) == 470 && birchagain_rarity(0, 0) == 693 && birchagain_rarity(1, 9) == 287);
}

int main(void) {
    empty();
    added();
    refused();
    lengths();
    placed();
    refused_placed();
    found();
    found_typed();
    paged();
    texts();
    merged();
    many();
    told();
    printf("calls: %d as wanted, %d not\n", checks - failed, failed);
    return failed != 0;
}
