/* many FILE: many questions in one call beside single ones: random boxes of two and three axes, each kind of query, with tags
 * and without, questions that are refused, no questions, misuse, and each allocation failing in turn. It is linked with
 * -Wl,--wrap=realloc. */
#include <stdio.h>
#include <stdlib.h>
#include <string.h>

#include "rstore.h"

#define NEED(what) do { if (!(what)) { fprintf(stderr, "many.c:%d: %s\n", __LINE__, #what); exit(1); } } while (0)
enum { OBJECTS = 3000, QUESTIONS = 200 };
static uint64_t seed = 88172645463325252u;
static long left = -1; /* reallocations that are granted, or all */

void *__real_realloc(void *at, size_t size);
void *__wrap_realloc(void *at, size_t size);
void *__wrap_realloc(void *at, size_t size) {
    if (left == 0) return NULL;
    if (left > 0) left--;
    return __real_realloc(at, size);
}

static int32_t dice(int32_t below) {
    seed ^= seed << 13, seed ^= seed >> 7, seed ^= seed << 17;
    return (int32_t)(seed % (uint64_t)below);
}

static rstore_row objects[OBJECTS];
static int32_t boxes[QUESTIONS * 6];
static uint32_t tags[QUESTIONS];

static int single(rstore *db, const char *layer, uint32_t axes, const int32_t *box, int kind, const uint32_t *tag,
                  rstore_row **rows, size_t *count) {
    switch (kind) {
    case RSTORE_WINDOW: return rstore_window(db, layer, box, axes, tag, rows, count);
    case RSTORE_INSIDE: return rstore_inside(db, layer, box, axes, tag, rows, count);
    case RSTORE_AROUND: return rstore_around(db, layer, box, axes, tag, rows, count);
    default: return rstore_point(db, layer, box, axes, tag, rows, count);
    }
}

/* The identifiers of the same rows in the caller's room, and those that had none there. */
static void into_room(rstore *db, const char *layer, uint32_t axes, int kind, const int32_t *box, const uint32_t *tag,
                      const rstore_row *rows, size_t count) {
    uint64_t some[7] = {0};
    size_t all, rest = count < 3 ? 0 : count - 3;
    NEED(!rstore_ids_into(db, layer, kind, box, axes, tag, some, 4, &all) && all == count);
    for (size_t k = 0; k < 7; k++) NEED(some[k] == (k < 4 && k < count ? rows[k].id : 0));
    NEED(rstore_more_ids(db, 3, some, 7) == (rest < 7 ? rest : 7));
    for (size_t k = 0; k < 7 && k < rest; k++) NEED(some[k] == rows[3 + k].id);
}

/* Range queries of a kind: each has the rows that a single one has. */
static void ranges(rstore *db, const char *layer, uint32_t axes, int kind, const uint32_t *asked) {
    static size_t offsets[QUESTIONS + 1], more[QUESTIONS + 1], counts[QUESTIONS];
    uint64_t *ids;
    rstore_row *rows, *one;
    size_t step = kind == RSTORE_POINT ? axes : 2 * (size_t)axes, count;
    for (size_t q = 0; q < QUESTIONS; q++)
        for (uint32_t a = 0; a < axes; a++) {
            int32_t low = dice(1000), wide = dice(kind == RSTORE_AROUND ? 5 : q % 10 ? 90 : 1000);
            boxes[q * step + a] = low;
            if (kind != RSTORE_POINT) boxes[q * step + axes + a] = low + wide;
        }
    NEED(!rstore_windows(db, layer, kind, boxes, axes, QUESTIONS, asked, &ids, offsets, NULL));
    NEED(!rstore_windows_rows(db, layer, kind, boxes, axes, QUESTIONS, asked, &rows, more, NULL));
    NEED(!rstore_counts(db, layer, kind, boxes, axes, QUESTIONS, asked, counts, NULL));
    NEED(!memcmp(offsets, more, sizeof offsets) && !offsets[0]);
    for (size_t q = 0; q < QUESTIONS; q++) {
        NEED(!single(db, layer, axes, boxes + q * step, kind, asked ? asked + q : NULL, &one, &count));
        NEED(count == counts[q] && count == offsets[q + 1] - offsets[q]);
        for (size_t k = 0; k < count; k++) {
            NEED(ids[offsets[q] + k] == one[k].id);
            NEED(!memcmp(rows + offsets[q] + k, one + k, sizeof *one));
        }
        into_room(db, layer, axes, kind, boxes + q * step, asked ? asked + q : NULL, one, count);
        rstore_free(one);
    }
    rstore_free(ids);
    rstore_free(rows);
}

static void neighbours(rstore *db, const char *layer, uint32_t axes) {
    static size_t offsets[QUESTIONS + 1];
    rstore_near *near, *one;
    size_t count;
    for (uint64_t k = 1; k <= 10000; k *= 100) {
        NEED(!rstore_nearest_many(db, layer, k, boxes, axes, QUESTIONS, &near, offsets, NULL));
        for (size_t q = 0; q < QUESTIONS; q++) {
            NEED(!rstore_nearest(db, layer, k, boxes + q * axes, axes, &one, &count));
            NEED(count == (k < OBJECTS ? k : OBJECTS) && count == offsets[q + 1] - offsets[q]);
            NEED(!memcmp(one, near + offsets[q], count * sizeof *one));
            rstore_free(one);
        }
        rstore_free(near);
    }
}

static void gets(rstore *db, const char *layer) {
    static rstore_row found[OBJECTS];
    static uint64_t asked[OBJECTS];
    for (size_t k = 0; k < OBJECTS; k++) asked[k] = objects[k].id;
    asked[5] = 1;
    NEED(!rstore_get_many(db, layer, asked, OBJECTS, found, NULL) && !found[5].axes && found[5].id == 1);
    for (size_t k = 6; k < OBJECTS; k++) NEED(found[k].id == objects[k].id && !memcmp(found[k].low, objects[k].low, 28));
}

/* Each allocation fails in turn: the call is refused by RSTORE_MEMORY, and hands nothing out. */
static int no_memory(rstore *db, const char *layer, uint32_t axes) {
    static size_t offsets[QUESTIONS + 1];
    int refused = 0;
    for (long grants = 0;; grants++, refused++) {
        uint64_t *ids = NULL;
        rstore_row *rows = NULL;
        rstore_near *near = NULL;
        size_t at;
        left = grants;
        int a = rstore_windows(db, layer, RSTORE_POINT, boxes, axes, QUESTIONS, NULL, &ids, offsets, &at);
        int b = rstore_windows_rows(db, layer, RSTORE_POINT, boxes, axes, QUESTIONS, NULL, &rows, offsets, &at);
        int c = rstore_nearest_many(db, layer, 3, boxes, axes, QUESTIONS, &near, offsets, &at);
        left = -1;
        NEED((!a || a == RSTORE_MEMORY) && (!b || b == RSTORE_MEMORY) && (!c || c == RSTORE_MEMORY));
        NEED((!a || !ids) && (!b || !rows) && (!c || !near));
        rstore_free(ids), rstore_free(rows), rstore_free(near);
        if (!a && !b && !c && grants > 9) return refused;
    }
}

static void refusals(rstore *db) {
    static size_t offsets[QUESTIONS + 1];
    int32_t bad[] = {0, 0, 9, 9, 5, 5, 1, 9};
    uint64_t *ids = (uint64_t *)1;
    rstore_row *rows = (rstore_row *)1;
    rstore_near *near = NULL;
    size_t at = 99;
    NEED(rstore_windows(db, "two", RSTORE_WINDOW, bad, 2, 2, NULL, &ids, offsets, &at) == RSTORE_BAD_BOX && at == 1);
    at = 99;
    NEED(rstore_windows_rows(db, "two", RSTORE_WINDOW, bad, 2, 2, NULL, &rows, offsets, &at) == RSTORE_BAD_BOX && at == 1);
    NEED(ids == (uint64_t *)1 && rows == (rstore_row *)1);
    NEED(rstore_counts(db, "none", 0, bad, 2, 1, NULL, offsets, &at) == RSTORE_NO_LAYER && at == 0);
    NEED(rstore_counts(db, "three", 0, bad, 2, 1, NULL, offsets, NULL) == RSTORE_WRONG_DIMS);
    NEED(rstore_nearest_many(db, "two", 0, bad, 2, 1, &near, offsets, NULL) == RSTORE_BAD_COUNT);
    NEED(rstore_windows(db, "two", 4, bad, 2, 1, NULL, &ids, offsets, NULL) == RSTORE_MISUSE);
    NEED(rstore_windows(db, "two", 0, NULL, 2, 1, NULL, &ids, offsets, NULL) == RSTORE_MISUSE);
    NEED(rstore_windows(db, "two", 0, bad, 4, 1, NULL, &ids, offsets, NULL) == RSTORE_MISUSE);
    NEED(rstore_windows(db, "", 0, bad, 2, 1, NULL, &ids, offsets, NULL) == RSTORE_MISUSE);
    NEED(rstore_windows_rows(NULL, "two", 0, bad, 2, 1, NULL, &rows, offsets, NULL) == RSTORE_MISUSE);
    NEED(rstore_get_many(db, "two", NULL, 1, NULL, NULL) == RSTORE_MISUSE);
    NEED(!rstore_windows(db, "two", 0, NULL, 2, 0, NULL, &ids, offsets, NULL) && !ids && !offsets[0]);
    NEED(!rstore_windows_rows(db, "two", 0, NULL, 2, 0, NULL, &rows, offsets, NULL) && !rows);
    NEED(!rstore_nearest_many(db, "two", 3, NULL, 2, 0, &near, offsets, NULL) && !near);
    NEED(!rstore_get_many(db, "two", NULL, 0, NULL, NULL));
}

int main(int argc, char **argv) {
    rstore *db;
    if (argc != 2) return 2;
    NEED(!rstore_open(argv[1], RSTORE_CREATE, 0, &db));
    for (size_t q = 0; q < QUESTIONS; q++) tags[q] = (uint32_t)dice(3);
    for (uint32_t axes = 2; axes <= 3; axes++) {
        const char *layer = axes == 2 ? "two" : "three";
        NEED(!rstore_create_layer(db, layer, axes, 100));
        for (size_t k = 0; k < OBJECTS; k++) {
            memset(objects + k, 0, sizeof *objects);
            objects[k].id = 7 * k;
            objects[k].tag = (uint32_t)dice(3);
            for (uint32_t a = 0; a < axes; a++) {
                objects[k].low[a] = dice(1000);
                objects[k].high[a] = objects[k].low[a] + dice(40);
            }
        }
        NEED(!rstore_load(db, layer, axes, objects, OBJECTS));
        for (int kind = RSTORE_WINDOW; kind <= RSTORE_POINT; kind++) {
            ranges(db, layer, axes, kind, NULL);
            ranges(db, layer, axes, kind, tags);
        }
        neighbours(db, layer, axes);
        gets(db, layer);
        printf("%u axes: many questions in one call as one by one; memory refused %d times\n", axes, no_memory(db, layer, axes));
    }
    refusals(db);
    NEED(!rstore_close(db));
    return 0;
}
