/* library_times BOXES ROUNDS FILE: times the calls of librstore over a text of boxes and windows (library.sh), in a file
 * with 4096 cached pages: a name and processor microseconds a call on a line, the least of the rounds. */
#define _POSIX_C_SOURCE 199309L
#include <stdio.h>
#include <stdlib.h>
#include <string.h>
#include <time.h>

#include "rstore.h"

enum { MOST = 2000000, WINDOWS = 20000 };
static rstore *db;
static rstore_row *rows;
static int32_t (*windows)[4];
static size_t count, window_count, total;

static double now(void) {
    struct timespec t;
    clock_gettime(CLOCK_PROCESS_CPUTIME_ID, &t);
    return (double)t.tv_sec * 1e6 + (double)t.tv_nsec / 1e3;
}

static void need(int error) {
    if (error) { fprintf(stderr, "library_times: %d %s\n", error, rstore_errstr(error)); exit(1); }
}

static void window(size_t k) {
    rstore_row *found;
    size_t n;
    need(rstore_window(db, "boxes", windows[k], 2, NULL, &found, &n));
    rstore_free(found);
    total += n;
}

static void window_into(size_t k) {
    rstore_row found[64];
    size_t n;
    need(rstore_range_into(db, "boxes", RSTORE_WINDOW, windows[k], 2, NULL, found, 64, &n));
    total += n;
}

static void nearest(size_t k) {
    rstore_near *found;
    size_t n;
    need(rstore_nearest(db, "boxes", 10, windows[k], 2, &found, &n));
    rstore_free(found);
    total += n;
}

static void get(size_t k) {
    rstore_row row;
    need(rstore_get(db, "boxes", rows[k].id, &row));
    total++;
}

static void count_all(size_t k) {
    uint64_t n;
    (void)k;
    need(rstore_count(db, "boxes", &n));
    total++;
}

static void insert(size_t k) {
    int32_t box[4] = {rows[k].low[0], rows[k].low[1], rows[k].high[0], rows[k].high[1]};
    need(rstore_insert(db, "more", rows[k].id, box, 2, 0));
}

static void take(size_t k) { need(rstore_delete(db, "more", rows[k].id)); }

static double timed(void (*act)(size_t), size_t calls) {
    double start = now();
    for (size_t k = 0; k < calls; k++) act(k);
    return (now() - start) / (double)calls;
}

static void report(const char *name, void (*act)(size_t), size_t calls, int rounds) {
    double best = 1e18;
    for (int round = 0; round < rounds; round++) {
        total = 0;
        double took = timed(act, calls);
        if (took < best) best = took;
    }
    printf("%s\t%.3f\t%.2f\n", name, best, (double)total / (double)calls);
}

int main(int argc, char **argv) {
    if (argc != 4) return 2;
    FILE *text = fopen(argv[1], "r");
    int rounds = atoi(argv[2]), a, b, c, d;
    char word[16], kind[16] = "";
    rows = calloc(MOST, sizeof *rows);
    windows = calloc(WINDOWS, sizeof *windows);
    if (!text || !rows || !windows) return 3;
    double best = 1e18;
    remove(argv[3]);
    need(rstore_open(argv[3], RSTORE_CREATE, 4096, &db));
    while (fscanf(text, "%15s %d %d %d %d", word, &a, &b, &c, &d) == 5) {
        if (!strcmp(word, "box") && count < MOST) {
            rows[count] = (rstore_row){count, {a, b, 0}, {c, d, 0}, 0, 2};
            count++;
            continue;
        }
        if (strcmp(word, kind) && window_count) {
            report(kind, window, window_count, rounds);
            if (!strcmp(kind, "ten")) report("ten, own room", window_into, window_count, rounds);
            if (!strcmp(kind, "ten")) report("nearest", nearest, window_count, rounds);
            window_count = 0;
        }
        if (!*kind) {
            for (int round = 0; round < rounds; round++) {
                if (round) need(rstore_drop_layer(db, "boxes"));
                need(rstore_create_layer(db, "boxes", 2, 100));
                double start = now();
                need(rstore_load(db, "boxes", 2, rows, count));
                double took = (now() - start) / (double)count;
                if (took < best) best = took;
            }
            printf("load\t%.3f\t0\n", best);
            need(rstore_commit(db));
        }
        strcpy(kind, word);
        if (window_count < WINDOWS) memcpy(windows[window_count++], (int32_t[]){a, b, c, d}, sizeof *windows);
    }
    report(kind, window, window_count, rounds);
    report("get", get, count, rounds);
    report("count", count_all, 100000, rounds);
    need(rstore_create_layer(db, "more", 2, 100));
    double took = 1e18, taken = 1e18;
    for (int round = 0; round < rounds; round++) {
        double insertion = timed(insert, count), removal = timed(take, count);
        if (insertion < took) took = insertion;
        if (removal < taken) taken = removal;
    }
    printf("insert\t%.3f\t0\ndelete\t%.3f\t0\n", took, taken);
    need(rstore_close(db));
    return 0;
}
