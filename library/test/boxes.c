/* boxes FILE [QUICK]: random boxes beside plain scans of a list, with 4, 10 and 100 entries to a node, in a file with 8,
 * 64 and 4096 pages held: 100,000 boxes of two axes that are loaded, uniform and in clusters, and as many that are
 * inserted, of which 750 range queries of five kinds are asked, each third with a tag; 20,000 boxes whose nearest are the
 * first of a sort, and whose joins with themselves and with others, in a tree that is taller or lower, at a distance too,
 * and as rows and by windows, are those of a double loop; and 80,000 insertions, moves and deletions of boxes of two axes,
 * and 20,000 of three, down to a tree that is one empty leaf. On the way the file is checked, closed and opened, and has all
 * objects. */
#include <stdbool.h>
#include <stdio.h>
#include <stdlib.h>
#include <string.h>
#include <unistd.h>

#include "rstore.h"

#define NEED(call) do { int error = (call); if (error) die(#call, error); } while (0)
#define HOLDS(what, number) do { if (!(what)) die(#what, (long)(number)); } while (0)

static void die(const char *what, long number) {
    fprintf(stderr, "boxes: %s: %ld %s\n", what, number, rstore_errstr((int)number));
    exit(1);
}

/* ---- boxes that look random */
static uint64_t state;
static int32_t roll(uint32_t bits) {
    state = state * 6364136223846793005u + 1442695040888963407u;
    return (int32_t)((uint32_t)(state >> 33) & bits);
}
enum spread { UNIFORM, CLUSTERED };
/* Anywhere among 2^20 places, or near one of eight on each axis. */
static int32_t place(enum spread spread) {
    return spread == UNIFORM ? roll(0xfffff) : roll(7) * 130000 + roll(0xfff) - roll(0xfff);
}
static rstore_row box(enum spread spread, uint32_t axes, uint32_t bits) {
    rstore_row row = {.axes = axes};
    for (uint32_t k = 0; k < axes; k++) row.low[k] = place(spread), row.high[k] = row.low[k] + roll(bits);
    return row;
}
static uint32_t tag_for(uint64_t id) { return (uint32_t)(id % 5) * 0x3579bdf1; }
static rstore_row object(uint64_t id, enum spread spread, uint32_t axes) {
    rstore_row row = box(spread, axes, 0x3ff);
    row.id = id, row.tag = tag_for(id);
    return row;
}
static rstore_row *objects(uint64_t count, enum spread spread, uint32_t axes) {
    rstore_row *rows = malloc(count * sizeof *rows);
    HOLDS(rows, 0);
    state = count;
    for (uint64_t id = 0; id < count; id++) rows[id] = object(id, spread, axes);
    return rows;
}

/* ---- a plain list */
static bool passes(const rstore_row *row, int kind, const rstore_row *asked) {
    for (uint32_t k = 0; k < row->axes; k++) {
        if (kind == RSTORE_INSIDE ? row->low[k] < asked->low[k] || row->high[k] > asked->high[k]
            : kind == RSTORE_AROUND ? row->low[k] > asked->low[k] || row->high[k] < asked->high[k]
            : row->low[k] > asked->high[k] || row->high[k] < asked->low[k]) return false;
    }
    return true;
}
static const int32_t *numbers(const rstore_row *row, int kind) {
    static int32_t box[6];
    for (uint32_t k = 0; k < row->axes; k++) box[k] = row->low[k], box[row->axes + k] = row->high[k];
    if (kind == RSTORE_POINT) memcpy(box, row->low, row->axes * sizeof *box);
    return box;
}
/* Whether the rows are those objects of the list which a query asks for, in its order. */
static size_t are_rows(const rstore_row *rows, size_t count, const rstore_row *list, size_t length, int kind,
                       const rstore_row *asked, const uint32_t *tag) {
    size_t found = 0;
    for (size_t k = 0; k < length; k++) {
        if (!passes(&list[k], kind, asked) || (tag && *tag != list[k].tag)) continue;
        HOLDS(found < count && !memcmp(&rows[found], &list[k], sizeof *rows), list[k].id);
        found++;
    }
    HOLDS(found == count, count);
    return found;
}

/* ---- a file with layers */
static const char *path;
static rstore *db;
static const uint32_t fanouts[3] = {4, 10, 100}, pages[3] = {8, 64, 4096};

static void make(int which) {
    unlink(path);
    NEED(rstore_open(path, RSTORE_CREATE, pages[which], &db));
}
static void reopen(int which) {
    NEED(rstore_close(db));
    NEED(rstore_open(path, RSTORE_EXISTING, pages[which], &db));
}
static void insert(const char *layer, const rstore_row *row) {
    NEED(rstore_insert(db, layer, row->id, numbers(row, RSTORE_WINDOW), row->axes, row->tag));
}
/* The file is sound, and the layer has just these objects. */
static void is_whole(const char *layer, const rstore_row *list, size_t length, uint32_t axes) {
    const rstore_row all = {0, {INT32_MIN, INT32_MIN, INT32_MIN}, {INT32_MAX, INT32_MAX, INT32_MAX}, 0, axes};
    rstore_row *rows;
    size_t count;
    NEED(rstore_check(db));
    NEED(rstore_window(db, layer, numbers(&all, RSTORE_WINDOW), axes, NULL, &rows, &count));
    are_rows(rows, count, list, length, RSTORE_WINDOW, &all, NULL);
    rstore_free(rows);
}
/* A window of either size, a box to lie in, one to be around, or a point, by turns, and in each third turn a tag. */
static void ask_all(const char *layer, const rstore_row *list, size_t length, enum spread spread) {
    static const int kinds[5] = {RSTORE_WINDOW, RSTORE_WINDOW, RSTORE_INSIDE, RSTORE_AROUND, RSTORE_POINT};
    size_t sum = 0, count;
    rstore_row *rows;
    state = length;
    for (size_t turn = 0; turn < 750; turn++) {
        int kind = kinds[turn % 5];
        rstore_row asked = kind == RSTORE_AROUND || kind == RSTORE_POINT ? list[turn * 131 % length]
                                                                        : box(spread, list->axes, turn % 5 ? 0x7fff : 0xfff);
        if (kind == RSTORE_POINT) memcpy(asked.high, asked.low, sizeof asked.low);
        uint32_t tag = tag_for(turn), *tagged = turn % 3 ? NULL : &tag;
        int (*const calls[4])(rstore *, const char *, const int32_t *, uint32_t, const uint32_t *, rstore_row **, size_t *) =
            {rstore_window, rstore_inside, rstore_around, rstore_point};
        NEED(calls[kind](db, layer, numbers(&asked, kind), list->axes, tagged, &rows, &count));
        sum += are_rows(rows, count, list, length, kind, &asked, tagged);
        rstore_free(rows);
    }
    HOLDS(sum > 200, sum); /* else they say little */
}

/* ---- many boxes, loaded and inserted */
static void loaded(int which, enum spread spread, uint64_t many) {
    rstore_row *list = objects(many, spread, 2);
    make(which);
    NEED(rstore_create_layer(db, "a", 2, fanouts[which]));
    NEED(rstore_load(db, "a", 2, list, many));
    is_whole("a", list, many, 2);
    reopen(which);
    ask_all("a", list, many, spread);
    NEED(rstore_close(db));
    free(list);
}
static void inserted(int which, uint64_t many, uint64_t part) {
    rstore_row *list = objects(many, UNIFORM, 2);
    make(which);
    NEED(rstore_create_layer(db, "a", 2, fanouts[which]));
    for (uint64_t id = 0; id < many; id++) {
        insert("a", &list[id]);
        if (id % part == part - 1) is_whole("a", list, id + 1, 2);
    }
    reopen(which);
    is_whole("a", list, many, 2);
    ask_all("a", list, many, UNIFORM);
    NEED(rstore_close(db));
    free(list);
}

/* ---- the nearest, and joins */
struct near { uint64_t far, id; };
static int by_distance(const void *a, const void *b) {
    const struct near *x = a, *y = b;
    return x->far != y->far ? (x->far > y->far) - (x->far < y->far) : (x->id > y->id) - (x->id < y->id);
}
static uint64_t gap(int32_t low, int32_t high, int32_t other_low, int32_t other_high) {
    int64_t gap = low > other_high ? (int64_t)low - other_high : other_low > high ? (int64_t)other_low - high : 0;
    return (uint64_t)gap;
}
static uint64_t apart(const rstore_row *a, const rstore_row *b) {
    uint64_t sum = 0;
    for (uint32_t k = 0; k < a->axes; k++) {
        uint64_t far = gap(a->low[k], a->high[k], b->low[k], b->high[k]);
        sum += far * far;
    }
    return sum;
}
static void nearest_are_first(const char *layer, const rstore_row *list, size_t length, enum spread spread) {
    static const size_t counts[3] = {1, 10, 100};
    struct near *all = malloc(length * sizeof *all);
    rstore_near *rows;
    size_t count;
    HOLDS(all, 0);
    state = 3;
    for (int turn = 0; turn < 60; turn++) {
        rstore_row at = {.axes = 2, .low = {place(UNIFORM), place(spread)}};
        memcpy(at.high, at.low, sizeof at.low);
        for (size_t k = 0; k < length; k++) all[k] = (struct near){apart(&list[k], &at), list[k].id};
        qsort(all, length, sizeof *all, by_distance);
        NEED(rstore_nearest(db, layer, counts[turn % 3], at.low, 2, &rows, &count));
        HOLDS(count == counts[turn % 3], count);
        for (size_t k = 0; k < count; k++)
            HOLDS(rows[k].id == all[k].id && rows[k].distance == all[k].far && rows[k].distance_high == 0, k);
        rstore_free(rows);
    }
    free(all);
}
static int by_both(const void *a, const void *b) {
    const rstore_pair *x = a, *y = b;
    if (x->first != y->first) return (x->first > y->first) - (x->first < y->first);
    return (x->second > y->second) - (x->second < y->second);
}
/* The same pairs by the rows of the first layer, and by the windows of four parts, which have no pair in common. */
static void is_join_of_rows(const char *a, const rstore_row *left, size_t lefts, const char *b, uint64_t within,
                            const rstore_pair *wanted, size_t found) {
    rstore_pair *pairs, *all = malloc(found * sizeof *all);
    size_t count, used = 0;
    HOLDS(all, 0);
    NEED(rstore_join_rows(db, left, lefts, 2, b, within, &pairs, &count));
    HOLDS(count == found && !memcmp(pairs, wanted, found * sizeof *pairs), count);
    rstore_free(pairs);
    for (int part = 0; part < 4; part++) {
        int32_t x = left[lefts / 2].low[0], y = left[lefts / 3].low[1];
        int32_t window[4] = {part & 1 ? x : INT32_MIN, part & 2 ? y : INT32_MIN, part & 1 ? INT32_MAX : x - 1,
                             part & 2 ? INT32_MAX : y - 1};
        NEED(rstore_join_files(db, a, db, b, within, window, 2, &pairs, &count, NULL));
        HOLDS(used + count <= found, count);
        if (count) memcpy(all + used, pairs, count * sizeof *pairs);
        used += count;
        rstore_free(pairs);
    }
    qsort(all, used, sizeof *all, by_both);
    HOLDS(used == found && !memcmp(all, wanted, found * sizeof *all), used);
    free(all);
}
static void is_join(const char *a, const rstore_row *left, size_t lefts, const char *b, const rstore_row *right,
                    size_t rights, uint64_t within) {
    rstore_pair *pairs;
    size_t count, found = 0;
    NEED(rstore_join(db, a, b, within, &pairs, &count));
    for (size_t k = 0; k < lefts; k++)
        for (size_t j = 0; j < rights; j++)
            if (apart(&left[k], &right[j]) <= within) {
                HOLDS(found < count && pairs[found].first == left[k].id && pairs[found].second == right[j].id, found);
                found++;
            }
    HOLDS(found == count && count > 0, count);
    is_join_of_rows(a, left, lefts, b, within, pairs, count);
    rstore_free(pairs);
}
/* The first tree is the taller one and has few boxes, the second one has many. */
static void searched(enum spread spread, size_t few, size_t many) {
    rstore_row *tall = objects(few, spread, 2), *low = objects(many, spread, 2);
    make(1);
    NEED(rstore_create_layer(db, "tall", 2, 4));
    NEED(rstore_create_layer(db, "low", 2, 100));
    NEED(rstore_create_layer(db, "ten", 2, 10));
    for (size_t k = 0; k < few; k++) insert("tall", &tall[k]);
    NEED(rstore_load(db, "low", 2, low, many));
    NEED(rstore_load(db, "ten", 2, low, many));
    nearest_are_first("ten", low, many, spread);
    for (int k = 0; k < 2; k++) {
        is_join("tall", tall, few, "low", low, many, k ? 1000003 : 0);
        is_join("low", low, many, "tall", tall, few, k ? 1000003 : 0);
    }
    is_join("low", low, many, "low", low, many, 0);
    NEED(rstore_close(db));
    free(tall), free(low);
}

/* ---- changes by chance */
static int by_id(const void *a, const void *b) {
    const rstore_row *x = a, *y = b;
    return (x->id > y->id) - (x->id < y->id);
}
/* Half are insertions, and a quarter each moves and deletions, in so many parts of a thousand; then all is deleted. */
static void changed_and_emptied(int which, uint32_t axes, int parts) {
    rstore_row *list = malloc((size_t)parts * 1000 * sizeof *list), *sorted = malloc((size_t)parts * 1000 * sizeof *list);
    size_t length = 0;
    HOLDS(list && sorted, 0);
    state = fanouts[which];
    make(which);
    NEED(rstore_create_layer(db, "a", axes, fanouts[which]));
    for (int part = 0; part < parts || length > 0; part++) {
        for (int turn = 0; turn < 1000; turn++) {
            int way = part < parts ? roll(3) : 0;
            size_t at = length ? (size_t)roll(0x7fffffff) % length : 0;
            rstore_row row = object((uint64_t)part * 1000 + (uint64_t)turn, UNIFORM, axes);
            if (way >= 2) {
                insert("a", &row);
                list[length++] = row;
            } else if (length && way == 1) {
                row.id = list[at].id, row.tag = list[at].tag;
                NEED(rstore_move(db, "a", row.id, numbers(&row, RSTORE_WINDOW), axes));
                list[at] = row;
            } else if (length) {
                NEED(rstore_delete(db, "a", list[at].id));
                list[at] = list[--length];
            }
        }
        memcpy(sorted, list, length * sizeof *list);
        qsort(sorted, length, sizeof *list, by_id);
        is_whole("a", sorted, length, axes);
        if (part % 20 == 19) reopen(which);
        HOLDS(part != parts - 1 || length > (size_t)parts * 180, length);
    }
    NEED(rstore_close(db));
    free(list), free(sorted);
    /* the level of the tree's root in the record of the first layer (docs/FORMAT.md) */
    FILE *file = fopen(path, "rb");
    HOLDS(file && !fseek(file, 2 * 4096 + 256 + 27, SEEK_SET) && fgetc(file) == 0, 0);
    fclose(file);
}

int main(int argc, char **argv) {
    if (argc < 2) return 2;
    path = argv[1];
    bool quick = argc > 2;
    uint64_t many = quick ? 10000 : 100000;
    for (int which = 0; which < 3; which++) {
        loaded(which, UNIFORM, many);
        loaded(which, CLUSTERED, many);
        inserted(which, many, many / 100);
        changed_and_emptied(which, 2, quick ? 8 : 80);
        changed_and_emptied(which, 3, quick ? 4 : 20);
    }
    searched(UNIFORM, quick ? 500 : 2000, quick ? 3000 : 20000);
    searched(CLUSTERED, quick ? 500 : 2000, quick ? 3000 : 20000);
    unlink(path);
    puts("random boxes are found as in plain lists");
    return 0;
}
