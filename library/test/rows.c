/* rows FILE: worked rows of each question, also from a later one on, the refusals that a session meets by their numbers with
 * what comes with them, and what is found where the file is opened again and after it was not closed. */
#include <stdio.h>
#include <stdlib.h>
#include <string.h>
#include <sys/wait.h>
#include <unistd.h>

#include "rstore.h"

#define IS(wanted, call) do { long got = (long)(call); if (got != (long)(wanted)) { \
        fprintf(stderr, "rows.c:%d: %s is %ld, not %ld\n", __LINE__, #call, got, (long)(wanted)); exit(1); } } while (0)
#define OK(call) IS(RSTORE_OK, call)

static int is_row(const rstore_row *row, rstore_row wanted) { return !memcmp(row, &wanted, sizeof wanted); }

/* A layer `a` of two axes and its objects 1 to 3. */
static void fill(rstore *db) {
    OK(rstore_create_layer(db, "a", 2, 4));
    OK(rstore_insert(db, "a", 1, (int32_t[]){0, 0, 10, 10}, 2, 7));
    OK(rstore_insert(db, "a", 2, (int32_t[]){20, 20, 30, 30}, 2, 8));
    OK(rstore_insert(db, "a", 3, (int32_t[]){8, 8, 12, 12}, 2, 7));
}

static void questions(rstore *db) {
    rstore_row rows[3] = {{.id = 99}, {.id = 99}, {.id = 99}}, *found;
    rstore_near *near;
    rstore_pair *pairs;
    size_t count;
    uint32_t eight = 8;
    /* two rows, of which one has room; then the second, twice, and no third */
    OK(rstore_range_into(db, "a", RSTORE_WINDOW, (int32_t[]){5, 5, 9, 9}, 2, NULL, rows, 1, &count));
    IS(2, count);
    IS(1, is_row(&rows[0], (rstore_row){1, {0, 0, 0}, {10, 10, 0}, 7, 2}));
    IS(99, rows[1].id);
    for (int turn = 0; turn < 2; turn++) {
        IS(1, rstore_more(db, 1, rows, 2));
        IS(1, is_row(&rows[0], (rstore_row){3, {8, 8, 0}, {12, 12, 0}, 7, 2}));
        IS(99, rows[1].id);
    }
    IS(0, rstore_more(db, 2, rows, 2));
    /* with a tag */
    OK(rstore_window(db, "a", (int32_t[]){0, 0, 99, 99}, 2, &eight, &found, &count));
    IS(1, count);
    IS(2, found[0].id);
    rstore_free(found);
    OK(rstore_nearest(db, "a", 1, (int32_t[]){19, 19}, 2, &near, &count));
    IS(1, count == 1 && near[0].id == 2 && near[0].distance == 2 && near[0].distance_high == 0);
    rstore_free(near);
    OK(rstore_join(db, "a", "a", 0, &pairs, &count));
    static const rstore_pair wanted[5] = {{1, 1}, {1, 3}, {2, 2}, {3, 1}, {3, 3}};
    IS(5, count);
    IS(0, memcmp(pairs, wanted, sizeof wanted));
    rstore_free(pairs);
}

/* In any order; and joins of rows that are in no layer, and of two stores, whole and by windows. */
static void others(rstore *db) {
    static const rstore_pair wanted[5] = {{1, 1}, {1, 3}, {2, 2}, {3, 1}, {3, 3}};
    rstore_row rows[3] = {{.id = 99}, {.id = 99}, {.id = 99}}, given[3] = {
        {.id = 7, .low = {13, 13}, .high = {14, 14}}, {.id = 5, .low = {10, 12}, .high = {20, 12}}, {.id = 7, .low = {9, 9}, .high = {9, 9}}};
    rstore_pair *pairs;
    rstore *memory;
    size_t count;
    int second = 7, seen = 0;
    uint32_t seven = 7;
    OK(rstore_range_unordered(db, "a", RSTORE_WINDOW, (int32_t[]){5, 5, 9, 9}, 2, NULL, rows, 3, &count));
    IS(2, count);
    IS(4, rows[0].id + rows[1].id);
    IS(99, rows[2].id);
    OK(rstore_range_unordered(db, "a", RSTORE_INSIDE, (int32_t[]){0, 0, 99, 99}, 2, &seven, NULL, 0, &count));
    IS(2, count);
    IS(2, rstore_more(db, 0, rows, 3));
    IS(RSTORE_NO_LAYER, rstore_range_unordered(db, "b", RSTORE_POINT, (int32_t[]){9, 9}, 2, NULL, rows, 3, &count));
    IS(RSTORE_WRONG_DIMS, rstore_range_unordered(db, "a", RSTORE_POINT, (int32_t[]){9, 9, 9}, 3, NULL, rows, 3, &count));
    IS(RSTORE_BAD_BOX, rstore_range_unordered(db, "a", RSTORE_INSIDE, (int32_t[]){1, 3, 2, 2}, 2, NULL, rows, 3, &count));
    /* of two rows that have one identifier the first meets no box, but is within two of one */
    OK(rstore_join_rows(db, given, 3, 2, "a", 0, &pairs, &count));
    IS(1, count == 3 && pairs[0].first == 5 && pairs[0].second == 3 && pairs[1].first == 7 && pairs[1].second == 1
          && pairs[2].first == 7 && pairs[2].second == 3);
    rstore_free(pairs);
    OK(rstore_join_rows(db, given, 1, 2, "a", 1, &pairs, &count));
    IS(1, count == 0 && !pairs);
    OK(rstore_join_rows(db, given, 1, 2, "a", 2, &pairs, &count));
    IS(1, count == 1 && pairs[0].first == 7 && pairs[0].second == 3);
    rstore_free(pairs);
    OK(rstore_join_rows(db, NULL, 0, 2, "a", 2, &pairs, &count));
    IS(1, count == 0 && !pairs);
    IS(RSTORE_NO_LAYER, rstore_join_rows(db, given, 1, 2, "b", 2, &pairs, &count));
    IS(RSTORE_BAD_NAME, rstore_join_rows(db, given, 1, 2, "B", 2, &pairs, &count));
    IS(RSTORE_WRONG_DIMS, rstore_join_rows(db, given, 1, 3, "a", 2, &pairs, &count));
    given[1].low[0] = 21;
    IS(RSTORE_BAD_BOX, rstore_join_rows(db, given, 3, 2, "a", 2, &pairs, &count));
    /* the same objects in a store in memory */
    OK(rstore_open(NULL, RSTORE_CREATE, 8, &memory));
    OK(rstore_create_layer(memory, "c", 2, 4));
    OK(rstore_range_into(db, "a", RSTORE_WINDOW, (int32_t[]){0, 0, 99, 99}, 2, NULL, rows, 3, &count));
    OK(rstore_load(memory, "c", 2, rows, count));
    for (int turn = 0; turn < 3; turn++) {
        OK(rstore_join_files(turn == 1 ? memory : db, turn == 1 ? "c" : "a", turn ? db : memory, turn ? "a" : "c", 0, NULL, 2,
                             &pairs, &count, &second));
        IS(1, count == 5 && second == 0 && !memcmp(pairs, wanted, sizeof wanted));
        rstore_free(pairs);
    }
    /* low corners at 0, 8 and 20: a window's border belongs to it */
    static const int32_t windows[4][4] = {{INT32_MIN, INT32_MIN, 7, 7}, {8, 8, 20, 20}, {21, 21, INT32_MAX, INT32_MAX}, {1, 1, 7, 7}};
    for (int k = 0; k < 4; k++) {
        OK(rstore_join_files(db, "a", memory, "c", 0, windows[k], 2, &pairs, &count, NULL));
        for (size_t n = 0; n < count; n++) IS(1, pairs[n].first == 1 ? k == 0 : k == 1);
        seen += (int)count;
        rstore_free(pairs);
    }
    IS(5, seen);
    IS(RSTORE_NO_LAYER, rstore_join_files(db, "b", memory, "c", 0, NULL, 2, &pairs, &count, &second));
    IS(0, second);
    IS(RSTORE_NO_LAYER, rstore_join_files(db, "a", memory, "a", 0, NULL, 2, &pairs, &count, &second));
    IS(1, second);
    IS(RSTORE_WRONG_DIMS, rstore_join_files(db, "a", memory, "c", 0, NULL, 3, &pairs, &count, &second));
    IS(0, second);
    IS(RSTORE_BAD_BOX, rstore_join_files(db, "a", memory, "c", 0, (int32_t[]){1, 3, 2, 2}, 2, &pairs, &count, &second));
    OK(rstore_close(memory));
}

/* Pages of an answer: the rows behind an identifier, of which one has room; and behind the last. */
static void pages(rstore *db) {
    rstore_row row = {.id = 99};
    uint32_t seven = 7;
    uint64_t one = 1, three = 3;
    size_t count;
    static const int32_t all[4] = {0, 0, 99, 99};
    OK(rstore_range_after(db, "a", RSTORE_WINDOW, all, 2, NULL, NULL, &row, 1, &count));
    IS(1, count == 3 && row.id == 1);
    OK(rstore_range_after(db, "a", RSTORE_WINDOW, all, 2, NULL, &one, &row, 1, &count));
    IS(1, count == 2 && is_row(&row, (rstore_row){2, {20, 20, 0}, {30, 30, 0}, 8, 2}));
    IS(1, rstore_more(db, 1, &row, 1));
    IS(3, row.id);
    OK(rstore_range_after(db, "a", RSTORE_WINDOW, all, 2, &seven, &one, NULL, 0, &count));
    IS(1, count);
    row.id = 99;
    OK(rstore_range_after(db, "a", RSTORE_POINT, (int32_t[]){9, 9}, 2, NULL, &three, &row, 1, &count));
    IS(1, count == 0 && row.id == 99);
    IS(RSTORE_NO_LAYER, rstore_range_after(db, "b", RSTORE_WINDOW, all, 2, NULL, &one, &row, 1, &count));
    IS(RSTORE_BAD_BOX, rstore_range_after(db, "a", RSTORE_INSIDE, (int32_t[]){1, 3, 2, 2}, 2, NULL, &one, &row, 1, &count));
}

/* The greatest identifier: of all, at most some, and none; the rows of a query before stay. */
static void last(rstore *db) {
    rstore_row row;
    uint64_t id = 99;
    size_t count;
    int found = 7;
    OK(rstore_range_into(db, "a", RSTORE_WINDOW, (int32_t[]){0, 0, 9, 9}, 2, NULL, NULL, 0, &count));
    OK(rstore_last(db, "a", UINT64_MAX, &id, &found));
    IS(1, found == 1 && id == 3);
    OK(rstore_last(db, "a", 2, &id, &found));
    IS(1, found == 1 && id == 2);
    OK(rstore_last(db, "a", 0, &id, &found));
    IS(1, found == 0 && id == 2);
    IS(1, count == 2 && rstore_more(db, 1, &row, 1) == 1 && row.id == 3);
    found = 7;
    IS(RSTORE_NO_LAYER, rstore_last(db, "b", UINT64_MAX, &id, &found));
    IS(7, found);
    OK(rstore_create_layer(db, "b", 3, 4));
    OK(rstore_last(db, "b", UINT64_MAX, &id, &found));
    IS(1, found == 0 && id == 2);
    OK(rstore_insert(db, "b", UINT64_MAX, (int32_t[]){INT32_MIN, 1, INT32_MAX, INT32_MIN, 1, INT32_MAX}, 3, 0));
    OK(rstore_last(db, "b", UINT64_MAX, &id, &found));
    IS(1, found == 1 && id == UINT64_MAX);
    OK(rstore_drop_layer(db, "b"));
}

/* The nearest with their objects: all, those with a tag, for which it looks further, and none. */
static void near_rows(rstore *db) {
    rstore_near *near;
    rstore_row *rows;
    size_t count;
    uint32_t seven = 7, nine = 9;
    OK(rstore_nearest_rows(db, "a", 2, (int32_t[]){19, 19}, 2, NULL, &near, &rows, &count));
    IS(1, count == 2 && near[0].id == 2 && near[0].distance == 2 && near[1].id == 3 && near[1].distance == 98);
    IS(1, is_row(&rows[0], (rstore_row){2, {20, 20, 0}, {30, 30, 0}, 8, 2}) && rows[1].id == 3 && rows[1].tag == 7);
    rstore_free(near), rstore_free(rows);
    OK(rstore_nearest_rows(db, "a", 1, (int32_t[]){19, 19}, 2, &seven, &near, &rows, &count));
    IS(1, count == 1 && near[0].id == 3 && near[0].distance == 98 && rows[0].id == 3 && rows[0].high[1] == 12);
    rstore_free(near), rstore_free(rows);
    OK(rstore_nearest_rows(db, "a", 5, (int32_t[]){19, 19}, 2, &nine, &near, &rows, &count));
    IS(1, count == 0 && !near && !rows);
    IS(RSTORE_BAD_COUNT, rstore_nearest_rows(db, "a", 0, (int32_t[]){19, 19}, 2, NULL, &near, &rows, &count));
    IS(RSTORE_BAD_COUNT, rstore_nearest_rows(db, "a", 1000001, (int32_t[]){19, 19}, 2, &nine, &near, &rows, &count));
    IS(RSTORE_WRONG_DIMS, rstore_nearest_rows(db, "a", 1, (int32_t[]){1, 2, 3}, 3, NULL, &near, &rows, &count));
}

static void refusals(rstore *db) {
    rstore_row row = {.id = 5}, twice[2] = {{.id = 5}, {.id = 5}};
    uint64_t count = 0;
    IS(RSTORE_DUPLICATE, rstore_insert(db, "a", 3, (int32_t[]){1, 1, 2, 2}, 2, 0));
    IS(RSTORE_BAD_BOX, rstore_insert(db, "a", 4, (int32_t[]){1, 3, 2, 2}, 2, 0));
    OK(rstore_create_layer(db, "b", 3, 100));
    IS(RSTORE_DUPLICATE_IN_LOAD, rstore_load(db, "b", 3, twice, 2));
    IS(5, rstore_detail(db));
    OK(rstore_load(db, "b", 3, &row, 1));
    IS(5, rstore_detail(db)); /* of the last error */
    OK(rstore_count(db, "b", &count));
    IS(1, count);
    OK(rstore_get(db, "b", 5, &row));
    IS(3, row.axes);
    OK(rstore_delete(db, "b", 5));
    IS(RSTORE_NO_OBJECT, rstore_get(db, "b", 5, &row));
    IS(0, rstore_detail(db));
    OK(rstore_drop_layer(db, "b"));
    IS(RSTORE_NO_LAYER, rstore_count(db, "b", &count));
    OK(rstore_move(db, "a", 1, (int32_t[]){1, 1, 2, 2}, 2));
    OK(rstore_check(db));
}

/* The greatest distance, of 2^66 - 2^35 + ..: more than 64 bits. */
static void far(rstore *db) {
    rstore_near *near;
    size_t count;
    OK(rstore_create_layer(db, "far", 3, 4));
    OK(rstore_insert(db, "far", 9, (int32_t[]){INT32_MAX, INT32_MAX, INT32_MAX, INT32_MAX, INT32_MAX, INT32_MAX}, 3, 0));
    OK(rstore_nearest(db, "far", 5, (int32_t[]){INT32_MIN, INT32_MIN, INT32_MIN}, 3, &near, &count));
    IS(1, count == 1 && near[0].id == 9 && near[0].distance_high == 2 && near[0].distance == 18446744047939747843u);
    rstore_free(near);
    OK(rstore_drop_layer(db, "far"));
}

/* What a layer is told as, and that a store which is only read takes no change. */
static void only_read(const char *path, uint64_t count_of_a) {
    rstore *db;
    rstore_layer *layers;
    size_t count;
    OK(rstore_open(path, RSTORE_READ_ONLY, 8, &db));
    IS(0, rstore_detail(db));
    IS(RSTORE_READ_ONLY_STORE, rstore_delete(db, "a", 1));
    OK(rstore_layers(db, &layers, &count));
    IS(1, count == 1 && layers[0].count == count_of_a && layers[0].axes == 2 && layers[0].fanout == 4);
    static const char name[32] = "a";
    IS(0, memcmp(layers[0].name, name, sizeof name));
    rstore_free(layers);
    OK(rstore_close(db));
}

int main(int argc, char **argv) {
    rstore *db;
    uint64_t count;
    if (argc != 2) return 2;
    OK(rstore_open(argv[1], RSTORE_CREATE, 8, &db));
    fill(db);
    questions(db);
    others(db);
    pages(db);
    last(db);
    near_rows(db);
    refusals(db);
    far(db);
    OK(rstore_commit(db));
    OK(rstore_close(db));
    only_read(argv[1], 3);
    /* a child commits, changes more, and ends without a closing: the next opening says so, once */
    pid_t child = fork();
    if (child == 0) {
        OK(rstore_open(argv[1], RSTORE_EXISTING, 8, &db));
        OK(rstore_delete(db, "a", 1));
        OK(rstore_commit(db));
        OK(rstore_delete(db, "a", 2));
        _exit(0);
    }
    int status;
    IS(child, waitpid(child, &status, 0));
    IS(0, status);
    for (int recovered = 1; recovered >= 0; recovered--) {
        OK(rstore_open(argv[1], RSTORE_EXISTING, 8, &db));
        IS(recovered, rstore_detail(db));
        OK(rstore_count(db, "a", &count));
        IS(2, count);
        OK(rstore_close(db));
    }
    only_read(argv[1], 2);
    puts("each row, number and detail is as worked");
    return 0;
}
