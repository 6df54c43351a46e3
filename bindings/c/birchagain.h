/* Finds documents by their words: the calls of the library birchagain, as C sees them. docs/LIBRARY.md leads through them.
 *
 * An index is a struct of one pointer, which lies in your memory. All zero bytes are an empty one, so begin with
 *
 *     birchagain_index index = {0};
 *
 * Memory. `birchagain_open` makes what the pointer is to, and `birchagain_free` frees it; no other memory passes from
 * one side to the other. What a call is handed it copies or only reads, and keeps no pointer to it. What a call answers
 * stands in arrays of yours.
 *
 * Statuses. A call answers a status: 0 is done. After any other the index holds what it held, and words weigh what they
 * did; an array that was to be filled has what it had. Each call names below which it may answer, beside
 * BIRCHAGAIN_NO_MEMORY and BIRCHAGAIN_EMPTY, which all may: a call on an empty index answers BIRCHAGAIN_EMPTY, so one
 * behind `birchagain_free` is refused, and never undefined.
 *
 * Threads. One call at a time on an index, those that only read too. Other threads may use it in turn, ordered by a lock
 * or a join, and any number of indexes may be used at once.
 *
 * What you owe, since nothing checks it:
 *   - A pointer is to a live struct or array. It is not null, not even where the length of an array is 0.
 *   - What a call is handed does not overlap, but for arrays that it only reads.
 *   - `at` is left alone. A struct may be moved; of two copies one alone is used, and none once the other was freed.
 *   - No call from a signal handler, nor from the forked child of a process with threads.
 *   - malloc, realloc and free are those of one allocator.
 */
#ifndef BIRCHAGAIN_H
#define BIRCHAGAIN_H
#include <stddef.h>
#include <stdint.h>

#ifdef __cplusplus
extern "C" {
#endif

typedef struct birchagain_index {
    void *at; /* never read or written by C */
} birchagain_index;

/* a document that was found, by its number, and its score */
typedef struct birchagain_hit {
    uint64_t document;
    int64_t score;
} birchagain_hit;

enum {
    BIRCHAGAIN_DONE = 0,
    BIRCHAGAIN_TOO_FEW_TERMS = 1, /* a phrase has fewer than two words */
    BIRCHAGAIN_EMPTY_PREFIX = 2,  /* a phrase prefix has no word */
    BIRCHAGAIN_TIE_BREAKER = 8,   /* it is above 1000 thousandths */
    BIRCHAGAIN_SCORE_BOUND = 9,   /* a score might pass 9223372036854775807 */
    BIRCHAGAIN_NO_MEMORY = 13,
    BIRCHAGAIN_TOO_MANY_DOCUMENTS = 14, /* the open segment has 2147483647 */
    BIRCHAGAIN_BAD_DOCUMENT = 15,       /* it has more than 4294967295 words, or one twice, or bad places */
    BIRCHAGAIN_BAD_NORMS = 17,          /* a norm is less than the one before it */
    BIRCHAGAIN_TOO_MANY_SEGMENTS = 18,  /* there are 4294967295 */
    BIRCHAGAIN_EMPTY = 64,              /* the index was never opened, or was freed */
    BIRCHAGAIN_NOT_UNDERSTOOD = 65,     /* a query does not fit its language, or is not UTF-8 */
    BIRCHAGAIN_NOT_TEXT = 66,           /* a text or a word is not UTF-8 */
    BIRCHAGAIN_NO_DOCUMENT = 67,        /* there is no document of that number */
    BIRCHAGAIN_NOT_WORDS = 68,          /* ends that do not ascend within their array, or a word that has a space */
    BIRCHAGAIN_NEGATIVE_WEIGHT = 69,
    BIRCHAGAIN_UNEVEN_ROWS = 70,        /* two arrays that are to have one length have not */
    BIRCHAGAIN_NAMES_FIELD = 71,        /* a typed query names a field, and documents have none */
    BIRCHAGAIN_NO_LANGUAGE = 72,        /* there is no language of that number */
    BIRCHAGAIN_NOT_RANKED = 73,         /* a hit scores more than the one before it */
    BIRCHAGAIN_NUMBER_TOO_HIGH = 74,    /* a document would have a number above 18446744073709551615 */
    BIRCHAGAIN_OTHER_FILE = 80,         /* bytes are no index at all */
    BIRCHAGAIN_OTHER_VERSION = 81,      /* they are one of another version, or have a file of one */
    BIRCHAGAIN_DAMAGED = 82,            /* something of them is missing, or not what was written */
    BIRCHAGAIN_OTHER_BLOCKS = 83,       /* their postings are cut into blocks of another length than 128 */
    BIRCHAGAIN_OPEN_SEGMENT = 84,       /* the segment that takes documents has some: end it first */
    BIRCHAGAIN_NO_NUMBER = 85,          /* no number is left for a file, or a segment has more than 2^60 bytes */
    BIRCHAGAIN_NO_ROOM = 86,            /* an array is too small for what it is to be filled with */
    /* what of docs/QUERIES.md a typed query is refused for */
    BIRCHAGAIN_STRAY_ESCAPE = 101,
    BIRCHAGAIN_OPEN_QUOTE = 102,
    BIRCHAGAIN_OPEN_PARENTHESIS = 103,
    BIRCHAGAIN_STRAY_PARENTHESIS = 104,
    BIRCHAGAIN_TOO_DEEP = 105,
    BIRCHAGAIN_WILDCARD = 106,
    BIRCHAGAIN_FUZZY = 107,
    BIRCHAGAIN_SLOP_WITHOUT_NUMBER = 108,
    BIRCHAGAIN_SLOP_TOO_GREAT = 109,
    BIRCHAGAIN_STRAY_BOOST = 110,
    BIRCHAGAIN_BOOST_WITHOUT_NUMBER = 111,
    BIRCHAGAIN_BOOST_NOT_WHOLE = 112,
    BIRCHAGAIN_BOOST_TOO_GREAT = 113,
    BIRCHAGAIN_FIELD_WITHOUT_NAME = 114,
    BIRCHAGAIN_FIELD_WITHOUT_VALUE = 115,
    BIRCHAGAIN_ANY_VALUE = 116,
    BIRCHAGAIN_SIGN_WITHOUT_CLAUSE = 117,
    BIRCHAGAIN_OPERATOR_WITHOUT_SIDE = 118,
    BIRCHAGAIN_RANGE = 119,
    BIRCHAGAIN_SET = 120,
    BIRCHAGAIN_REGEX = 121,
    BIRCHAGAIN_TOUCHING = 122
};

/* Puts an index without documents at `index`. What it held is freed. */
uint32_t birchagain_open(birchagain_index *index);

/* Frees what it holds; it is empty then. Harmless where it is empty. */
void birchagain_free(birchagain_index *index);

/* Adds a document: a text in UTF-8, whose words ASCII spaces part. It gets the next number, from 0 up.
 * BIRCHAGAIN_NOT_TEXT, BIRCHAGAIN_TOO_MANY_DOCUMENTS, BIRCHAGAIN_BAD_DOCUMENT. */
uint32_t birchagain_add_text(birchagain_index *index, const uint8_t *text, size_t text_length);

/* The same by its words, which stand in `bytes` one behind the other: the first begins at 0, and each ends where `ends`
 * says. Words have one byte at least.
 * BIRCHAGAIN_NOT_WORDS, BIRCHAGAIN_NOT_TEXT, BIRCHAGAIN_TOO_MANY_DOCUMENTS, BIRCHAGAIN_BAD_DOCUMENT. */
uint32_t birchagain_add_words(birchagain_index *index, const uint8_t *bytes, size_t bytes_length, const size_t *ends,
                              size_t words);

/* The same by its words with their places, counted from 0 up, by which phrases find words. A word stands once, and may have
 * spaces: then the beginning of a word finds it, as `new*`, but `birchagain_frequencies` and words of queries have none. The
 * places of each word stand in `places` behind those of the word before it, and end where `place_ends` says: one at least,
 * ascending, below 4294967295. There may be gaps, and words that share a place. `length` is the document's length, as
 * `birchagain_set_norms` counts it, whatever the number of its words. All four arrays are only read.
 * BIRCHAGAIN_UNEVEN_ROWS where there are not as many ends of places as of words, BIRCHAGAIN_NOT_WORDS, BIRCHAGAIN_NOT_TEXT,
 * BIRCHAGAIN_TOO_MANY_DOCUMENTS, BIRCHAGAIN_BAD_DOCUMENT. */
uint32_t birchagain_add_placed(birchagain_index *index, const uint8_t *bytes, size_t bytes_length, const size_t *ends,
                               size_t words, const uint32_t *places, size_t places_length, const size_t *place_ends,
                               size_t place_ends_length, uint8_t length);

/* Deletes a document. It keeps its number, as all others do; to delete it again is done, too.
 * BIRCHAGAIN_NO_DOCUMENT. */
uint32_t birchagain_delete(birchagain_index *index, uint64_t document);

/* Ends the segment that takes documents, and opens another. Documents keep their numbers.
 * BIRCHAGAIN_TOO_MANY_SEGMENTS. */
uint32_t birchagain_end_segment(birchagain_index *index);

/* Builds what was added, so that the next call that reads need not. What the index holds stays the same. */
uint32_t birchagain_refresh(birchagain_index *index);

/* Writes at `out` how many documents were added, deleted ones too. */
uint32_t birchagain_documents(birchagain_index *index, uint64_t *out);

/* A word weighs so much from now on, from 0 up; one that was given no weight weighs 1000.
 * BIRCHAGAIN_NEGATIVE_WEIGHT, BIRCHAGAIN_NOT_TEXT. */
uint32_t birchagain_weigh(birchagain_index *index, const uint8_t *word, size_t word_length, int64_t weight);

/* From now on a document counts as so many words as the norm of its length says, from 0 up: one of n words as norms[n], and
 * one of 255 or more as norms[255]. At first that is n. With floor(1 + 1.5 n / mean) lengths count by their mean, as BM25
 * has them.
 * BIRCHAGAIN_UNEVEN_ROWS where these are not 256, BIRCHAGAIN_BAD_NORMS. */
uint32_t birchagain_set_norms(birchagain_index *index, const uint32_t *norms, size_t norms_length);

/* Fills `out` with how many documents hold each word, deleted ones too. The words stand in `bytes` as
 * `birchagain_add_words` takes them, and `out` has as many numbers. Builds what was added.
 * BIRCHAGAIN_UNEVEN_ROWS, BIRCHAGAIN_NOT_WORDS, BIRCHAGAIN_NOT_TEXT. */
uint32_t birchagain_frequencies(birchagain_index *index, const uint8_t *bytes, size_t bytes_length, const size_t *ends,
                                size_t words, uint64_t *out, size_t out_length);

/* A query is a text in UTF-8, in a language of these. Deleted documents are never found. A call builds what was added, so
 * that what the index holds stays the same. Beside the statuses below each call that takes a query may answer
 * BIRCHAGAIN_NO_LANGUAGE, BIRCHAGAIN_NOT_UNDERSTOOD, and for a typed text BIRCHAGAIN_NAMES_FIELD and those from
 * BIRCHAGAIN_STRAY_ESCAPE on. Each that takes an index too may answer BIRCHAGAIN_SCORE_BOUND, and for a text of scripts
 * BIRCHAGAIN_TOO_FEW_TERMS, BIRCHAGAIN_EMPTY_PREFIX and BIRCHAGAIN_TIE_BREAKER. */
enum {
    /* what people type, docs/QUERIES.md: words letter by letter, phrases cut at ASCII spaces, no fields */
    BIRCHAGAIN_TYPED = 0,
    /* a `Q` of docs/SCRIPT.md */
    BIRCHAGAIN_SCRIPT = 1
};

/* Writes at `out` how many documents match. */
uint32_t birchagain_count(birchagain_index *index, uint32_t language, const uint8_t *query, size_t query_length,
                          uint64_t *out);

/* Fills the front of `out` with the best documents that match, as many as there is room for: by score downwards, and of one
 * score by number upwards. Writes at `filled` how many these are: fewer than there is room for where there are no more. */
uint32_t birchagain_top(birchagain_index *index, uint32_t language, const uint8_t *query, size_t query_length,
                        birchagain_hit *out, size_t out_length, size_t *filled);

/* Fills the front of `out` with the documents that match, by number upwards, from the number `from` on, as many as there
 * is room for. Writes at `filled` how many these are: fewer than there is room for where there are no more. The next page
 * is from the last of them and 1. Nothing is kept between pages; each builds its query anew, so have room for hundreds. */
uint32_t birchagain_page(birchagain_index *index, uint32_t language, const uint8_t *query, size_t query_length,
                         uint64_t from, uint64_t *out, size_t out_length, size_t *filled);

/* Fills the fronts of `bytes` and `ends` with the words of a query that weigh anything, as `birchagain_frequencies` takes
 * them: all but the beginnings of others, in the order in which they stand, and each as often as it does. Writes at
 * `bytes_filled` how many bytes these are, and at `words` how many words. Neither is above `query_length`. Touches no index.
 * BIRCHAGAIN_NO_ROOM: then both numbers say how much room is wanted, and both arrays have what they had. */
uint32_t birchagain_query_words(uint32_t language, const uint8_t *query, size_t query_length, uint8_t *bytes,
                                size_t bytes_length, size_t *ends, size_t ends_length, size_t *bytes_filled,
                                size_t *words);

/* Whether a query is understood. Where it answers BIRCHAGAIN_STRAY_ESCAPE or above, it writes at `place` how many bytes
 * stand before what isn't understood. Touches no index. */
uint32_t birchagain_check_query(uint32_t language, const uint8_t *query, size_t query_length, size_t *place);

/* Fills the front of `out` with the best of two answers to one query, as many as there is room for: each as `birchagain_top`
 * gives it, of one index each. The documents of the second are numbered from `offset` on: the number of documents of the first
 * index. Where words weigh the same in both, they are the best of an index that has the documents of both. Touches no index.
 * BIRCHAGAIN_NOT_RANKED, BIRCHAGAIN_NUMBER_TOO_HIGH. */
uint32_t birchagain_merge(const birchagain_hit *first, size_t first_length, const birchagain_hit *second, size_t second_length,
                          uint64_t offset, birchagain_hit *out, size_t out_length, size_t *filled);

/* An index as bytes are files: of each segment one, one more where documents of it are deleted, and a last one, the manifest.
 * docs/FORMAT.md says what they are, and how they stand one behind the other. Each but the manifest has a number of its
 * own, by which it is named and which the index keeps: a later call gives the same file the same name. */

/* Fills the front of `out` with the index, and writes at `size` how many bytes that takes. Where there is no room for them
 * it writes that number alone, and answers BIRCHAGAIN_NO_ROOM: so hand in an array of one byte and the length 0 to ask for
 * it. New files get numbers from `moment` on, for which the time in nanoseconds does. `known` has numbers of files that
 * you have already, ascending: they stand there by their names, without bytes. With none, `birchagain_from_bytes` makes the
 * index again. What the index holds stays the same.
 * BIRCHAGAIN_OPEN_SEGMENT, BIRCHAGAIN_NO_NUMBER, BIRCHAGAIN_NO_ROOM. */
uint32_t birchagain_to_bytes(birchagain_index *index, uint64_t moment, const uint64_t *known, size_t known_length,
                             uint8_t *out, size_t out_length, size_t *size);

/* Puts the index that these bytes are at `index`: the documents, what is deleted of them, and what words weigh. What it held
 * is freed. Where the bytes are refused it holds what it held; an empty one is not refused.
 * BIRCHAGAIN_OTHER_FILE, BIRCHAGAIN_OTHER_VERSION, BIRCHAGAIN_DAMAGED, BIRCHAGAIN_OTHER_BLOCKS. */
uint32_t birchagain_from_bytes(birchagain_index *index, const uint8_t *bytes, size_t bytes_length);

/* What a word weighs that so many of the documents hold, by BM25: the natural logarithm of
 * 1 + (documents - held + 0.5) / (held + 0.5), in thousandths, rounded down: at most 45747. Touches no index, and may be
 * called from any thread at any time. */
uint64_t birchagain_rarity(uint64_t documents, uint64_t held);

/* Writes at the front of `out` what a status says, in English, as far as there is room for it, with no zero byte behind
 * it, and answers how many bytes all of it has. Touches no index, and may be called from any thread at any time. */
size_t birchagain_status_text(uint32_t status, uint8_t *out, size_t out_length);

#ifdef __cplusplus
}
#endif
#endif
