/* no_memory FILE ROUNDS: sessions in which the nth malloc, calloc or realloc fails, for each n until none does, or ROUNDS of
 * them were tried. Only numbers may come back, and after each the file must open, with what was committed. Linked with
 * -Wl,--wrap=malloc,--wrap=realloc,--wrap=calloc. It counts what the calls answered. */
#include <stdio.h>
#include <stdlib.h>
#include <unistd.h>

#include "rstore.h"

static long left = -1;
static int failed;
void *__real_malloc(size_t n);
void *__real_realloc(void *p, size_t n);
void *__real_calloc(size_t k, size_t n);
static int fails(void) {
    if (left > 0 && --left == 0) { failed = 1; return 1; }
    return 0;
}
void *__wrap_malloc(size_t n) { return fails() ? NULL : __real_malloc(n); }
void *__wrap_realloc(void *p, size_t n) { return fails() ? NULL : __real_realloc(p, n); }
void *__wrap_calloc(size_t k, size_t n) { return fails() ? NULL : __real_calloc(k, n); }

static long answers[128];
static int told(int error) { answers[error]++; return error; }
static int wrong(const char *what, int error) {
    fprintf(stderr, "no_memory: %s: %d %s\n", what, error, rstore_errstr(error));
    return 1;
}

int main(int argc, char **argv) {
    static rstore_row many[300];
    long rounds = 0, most;
    if (argc != 3) return 2;
    most = atol(argv[2]);
    for (int k = 0; k < 300; k++) many[k] = (rstore_row){(uint64_t)k, {k, k, 0}, {k + 5, k + 5, 0}, 1, 2};
    for (long n = 1; n <= most; n++) {
        rstore *db;
        rstore_row *rows;
        rstore_near *near;
        rstore_pair *pairs;
        rstore_layer *layers;
        rstore_node *nodes;
        rstore_row row;
        uint64_t pages, id, after = 50;
        uint32_t tag = 6;
        size_t count;
        int found;
        int committed = 0, error;
        unlink(argv[1]);
        failed = 0;
        left = n;
        if (!told(rstore_open(argv[1], RSTORE_CREATE, 8, &db))) {
            told(rstore_create_layer(db, "a", 2, 4));
            told(rstore_create_layer(db, "b", 2, 4));
            for (int k = 0; k < 100; k++) told(rstore_insert(db, "a", (uint64_t)k, (int32_t[]){k, k, k + 3, k + 3}, 2, 5));
            told(rstore_load(db, "b", 2, many, 300));
            for (int k = 0; k < 50; k++) told(rstore_delete(db, "a", (uint64_t)k));
            for (int k = 50; k < 60; k++) told(rstore_move(db, "a", (uint64_t)k, (int32_t[]){0, 0, 1, 1}, 2));
            if (!told(rstore_window(db, "b", (int32_t[]){0, 0, 99, 99}, 2, NULL, &rows, &count))) rstore_free(rows);
            if (!told(rstore_nearest(db, "b", 9, (int32_t[]){7, 7}, 2, &near, &count))) rstore_free(near);
            if (!told(rstore_nearest_rows(db, "b", 9, (int32_t[]){7, 7}, 2, NULL, &near, &rows, &count)))
                rstore_free(near), rstore_free(rows);
            if (!told(rstore_nearest_rows(db, "a", 2, (int32_t[]){7, 7}, 2, &tag, &near, &rows, &count)))
                rstore_free(near), rstore_free(rows);
            told(rstore_range_after(db, "b", RSTORE_WINDOW, (int32_t[]){0, 0, 99, 99}, 2, NULL, &after, &row, 1, &count));
            told(rstore_last(db, "b", 200, &id, &found));
            told(rstore_range_unordered(db, "b", RSTORE_WINDOW, (int32_t[]){0, 0, 99, 99}, 2, NULL, &row, 1, &count));
            if (!told(rstore_join(db, "a", "b", 9, &pairs, &count))) rstore_free(pairs);
            if (!told(rstore_join_files(db, "a", db, "b", 9, NULL, 2, &pairs, &count, NULL))) rstore_free(pairs);
            if (!told(rstore_layers(db, &layers, &count))) rstore_free(layers);
            if (!told(rstore_nodes(db, "b", &nodes, &count))) rstore_free(nodes);
            told(rstore_id_pages(db, "b", &pages));
            committed = !told(rstore_commit(db));
            told(rstore_check(db));
            told(rstore_close(db));
        }
        left = -1;
        rounds = n;
        /* and all is well again */
        if ((error = rstore_open(argv[1], RSTORE_CREATE, 64, &db))) {
            /* a file whose making was refused may be left, of which opening says so */
            if (committed || error != RSTORE_NOT_CLOSED) return wrong("opening again", error);
        } else {
            if ((error = rstore_check(db))) return wrong("check", error);
            if ((error = rstore_close(db))) return wrong("close", error);
        }
        if (!failed) break;
    }
    printf("%ld rounds:", rounds);
    for (int k = 0; k < 128; k++) if (answers[k]) printf(" %d %ld times,", k, answers[k]);
    puts(" and no crash");
    unlink(argv[1]);
    return 0;
}
