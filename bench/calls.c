/* calls DOCUMENTS QUERIES: what calls of the library take from C, in nanoseconds of the processor, each the least of
 * some rounds. The files have a document a line, and a query a line. Prints the least call, the least query, and the
 * best ten of the queries. */
#define _POSIX_C_SOURCE 200809L
#include "birchagain.h"
#include <stdio.h>
#include <stdlib.h>
#include <string.h>
#include <time.h>

enum { ROUNDS = 5, CALLS = 200000, QUERIES = 1000, BEST = 10 };

static birchagain_index held;
static char *queries[QUERIES];
static size_t asked;

static double now(void) {
    struct timespec at;
    clock_gettime(CLOCK_PROCESS_CPUTIME_ID, &at);
    return at.tv_sec * 1e9 + at.tv_nsec;
}

static void must(uint32_t status) {
    if (status != BIRCHAGAIN_DONE) {
        fprintf(stderr, "calls: status %u\n", status);
        exit(1);
    }
}

static void best_of(const char *query) {
    birchagain_hit best[BEST];
    size_t filled;
    must(birchagain_top(&held, BIRCHAGAIN_SCRIPT, (const uint8_t *)query, strlen(query), best, BEST, &filled));
}

static double least_call(void) {
    uint64_t count;
    for (int turn = 0; turn < CALLS; turn++) must(birchagain_documents(&held, &count));
    return CALLS;
}

static double least_query(void) {
    for (int turn = 0; turn < CALLS; turn++) best_of("none");
    return CALLS;
}

static double all_queries(void) {
    for (size_t at = 0; at < asked; at++) best_of(queries[at]);
    return asked;
}

static void measure(const char *name, double (*run)(void)) {
    double least = 1e18;
    for (int round = 0; round < ROUNDS; round++) {
        double before = now(), calls = run(), took = (now() - before) / calls;
        if (took < least) least = took;
    }
    printf("%s %.1f\n", name, least);
}

static FILE *opened(const char *path) {
    FILE *file = fopen(path, "r");
    if (!file) {
        perror(path);
        exit(1);
    }
    return file;
}

int main(int count, char **words) {
    if (count != 3) return 2;
    char *line = NULL;
    size_t room = 0;
    ssize_t length;
    must(birchagain_open(&held));
    FILE *file = opened(words[1]);
    while ((length = getline(&line, &room, file)) > 0) {
        must(birchagain_add_text(&held, (const uint8_t *)line, length - 1));
    }
    fclose(file);
    must(birchagain_refresh(&held));
    file = opened(words[2]);
    while (asked < QUERIES && (length = getline(&line, &room, file)) > 0) queries[asked++] = strndup(line, length - 1);
    fclose(file);
    measure("call", least_call);
    measure("query", least_query);
    measure("best", all_queries);
    birchagain_free(&held);
    return 0;
}
