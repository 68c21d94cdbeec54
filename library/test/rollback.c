/* rollback FILE: sessions that are rolled back, beside a copy of what was committed last: after changes of all kinds,
 * over FILE and in memory, with the 8 pages that a cache must have and with many; where each allocation of a rollback
 * fails in turn, each read and each sync; of stores that failed, since the system refused their writes or reads; and
 * after a commit that was refused. Linked with -Wl,--wrap of malloc, realloc, calloc, pread, pwrite and fdatasync. */
#include <errno.h>
#include <stdbool.h>
#include <stdio.h>
#include <stdlib.h>
#include <string.h>
#include <sys/types.h>
#include <unistd.h>

#include "rstore.h"

/* ---- calls that fail: the nth from now on, and where it stays so each after it */
static long left_of[4];
static bool stays[4];
enum { ALLOCATION, READ, WRITE, SYNC };
static bool fails(int kind) {
    if (left_of[kind] <= 0) return false;
    if (left_of[kind] > 1) { left_of[kind]--; return false; }
    if (!stays[kind]) left_of[kind] = 0;
    errno = kind == ALLOCATION ? ENOMEM : EIO;
    return true;
}
static void fail(int kind, long nth, bool stay) { left_of[kind] = nth, stays[kind] = stay; }
void *__real_malloc(size_t n);
void *__real_realloc(void *p, size_t n);
void *__real_calloc(size_t k, size_t n);
ssize_t __real_pread(int fd, void *into, size_t count, off_t from);
ssize_t __real_pwrite(int fd, const void *bytes, size_t count, off_t to);
int __real_fdatasync(int fd);
void *__wrap_malloc(size_t n) { return fails(ALLOCATION) ? NULL : __real_malloc(n); }
void *__wrap_realloc(void *p, size_t n) { return fails(ALLOCATION) ? NULL : __real_realloc(p, n); }
void *__wrap_calloc(size_t k, size_t n) { return fails(ALLOCATION) ? NULL : __real_calloc(k, n); }
ssize_t __wrap_pread(int fd, void *into, size_t count, off_t from) {
    return fails(READ) ? -1 : __real_pread(fd, into, count, from);
}
ssize_t __wrap_pwrite(int fd, const void *bytes, size_t count, off_t to) {
    return fails(WRITE) ? -1 : __real_pwrite(fd, bytes, count, to);
}
int __wrap_fdatasync(int fd) { return fails(SYNC) ? -1 : __real_fdatasync(fd); }

#define IS(wanted, call) do { int got = (call), it = (wanted); if (got != it) { \
        fprintf(stderr, "rollback.c:%d: %s answered %d (%s), not %d\n", __LINE__, #call, got, rstore_errstr(got), it); \
        exit(1); } } while (0)

/* ---- what is in a layer */
enum { MOST = 4000 };
struct table { size_t count; rstore_row rows[MOST]; };
static struct table kept, trying, now;
static const int32_t all[4] = {-99999, -99999, 99999, 99999};

static void look(rstore *db, struct table *table) {
    rstore_row *rows;
    size_t count;
    IS(RSTORE_OK, rstore_check(db));
    IS(RSTORE_OK, rstore_window(db, "a", all, 2, NULL, &rows, &count));
    if (count > MOST) exit(2);
    if (count) memcpy(table->rows, rows, count * sizeof *rows);
    table->count = count;
    rstore_free(rows);
}
static bool same(const struct table *a, const struct table *b) {
    return a->count == b->count && !memcmp(a->rows, b->rows, a->count * sizeof *a->rows);
}
static void is(rstore *db, const struct table *wanted, int line) {
    look(db, &now);
    if (!same(&now, wanted)) {
        fprintf(stderr, "rollback.c:%d: %zu objects, and not the %zu that were kept\n", line, now.count, wanted->count);
        exit(1);
    }
}
static void keep(rstore *db) { IS(RSTORE_OK, rstore_commit(db)); look(db, &kept); }

static unsigned long long state = 1;
static unsigned roll(unsigned bound) {
    state = state * 6364136223846793005u + 1442695040888963407u;
    return (unsigned)(state >> 33) % bound;
}

/* Changes of all kinds, until one is refused by something else than the table: its number is answered. */
static int change(rstore *db, int count) {
    for (int k = 0; k < count; k++) {
        uint64_t id = roll(3000);
        int32_t x = (int32_t)roll(5000), y = (int32_t)roll(5000), box[4] = {x, y, x + (int32_t)roll(50), y + 3};
        int turn = (int)roll(5), error = turn < 3 ? rstore_insert(db, "a", id, box, 2, roll(4))
                                        : turn == 3 ? rstore_move(db, "a", id, box, 2) : rstore_delete(db, "a", id);
        if (error && error != RSTORE_DUPLICATE && error != RSTORE_NO_OBJECT) return error;
    }
    return RSTORE_OK;
}

/* A layer with objects is made anew each time, so that loads and layers are given up as well. */
static void layers(rstore *db) {
    static rstore_row rows[500];
    for (int k = 0; k < 500; k++) rows[k] = (rstore_row){(uint64_t)k, {k, k, 0}, {k + 5, k, 0}, 1, 2};
    IS(RSTORE_OK, rstore_create_layer(db, "b", 3, 4));
    IS(RSTORE_OK, rstore_create_layer(db, "c", 2, 100));
    IS(RSTORE_OK, rstore_load(db, "c", 2, rows, 500));
    IS(RSTORE_OK, rstore_drop_layer(db, "a"));
}

static rstore *made(const char *path, uint32_t cache) {
    rstore *db;
    if (path) unlink(path);
    IS(RSTORE_OK, rstore_open(path, RSTORE_CREATE, cache, &db));
    IS(RSTORE_OK, rstore_rollback(db)); /* of nothing */
    IS(RSTORE_OK, rstore_create_layer(db, "a", 2, 8));
    IS(RSTORE_OK, change(db, 3000));
    keep(db);
    return db;
}
/* The file has what was kept, and no journal. */
static void ended(const char *path) {
    char journal[4096];
    rstore *db;
    if (!path) return;
    snprintf(journal, sizeof journal, "%s-journal", path);
    IS(0, access(journal, F_OK) == 0);
    IS(RSTORE_OK, rstore_open(path, RSTORE_READ_ONLY, 8, &db));
    is(db, &kept, __LINE__);
    IS(RSTORE_OK, rstore_rollback(db)); /* it has nothing to give up */
    is(db, &kept, __LINE__);
    IS(RSTORE_OK, rstore_close(db));
}

/* The next opening finds what was kept, and ends the session. */
static void again(const char *path) {
    rstore *db;
    IS(RSTORE_OK, rstore_open(path, RSTORE_EXISTING, 8, &db));
    is(db, &kept, __LINE__);
    IS(RSTORE_OK, rstore_close(db));
    ended(path);
}

static void rounds(const char *path, uint32_t cache) {
    rstore *db = made(path, cache);
    size_t count;
    rstore_layer *found;
    for (int turn = 0; turn < 30; turn++) {
        IS(RSTORE_OK, change(db, (int)roll(turn % 5 ? 40 : 2000)));
        if (turn % 4 == 1) layers(db);
        if (turn % 4 == 3 && turn % 8 != 3) keep(db);
        else IS(RSTORE_OK, rstore_rollback(db));
        is(db, &kept, __LINE__);
        IS(RSTORE_OK, rstore_layers(db, &found, &count));
        IS(1, (int)count);
        rstore_free(found);
    }
    /* the rows of the last query stay */
    rstore_row row = {0};
    IS(RSTORE_OK, rstore_range_into(db, "a", RSTORE_WINDOW, all, 2, NULL, NULL, 0, &count));
    IS(RSTORE_OK, change(db, 10));
    IS(RSTORE_OK, rstore_rollback(db));
    IS(1, (int)rstore_more(db, 0, &row, 1));
    IS(0, memcmp(&row, &kept.rows[0], sizeof row));
    IS(RSTORE_OK, rstore_close(db));
    ended(path);
}

/* A rollback whose nth allocation, read or sync fails: it may be tried again, and closing keeps nothing. */
static long refused(const char *path, int kind, int number) {
    long n = 1;
    for (bool done = false; !done; n++) {
        rstore *db = made(path, 16);
        uint64_t count;
        IS(RSTORE_OK, change(db, 600));
        fail(kind, n, false);
        int error = rstore_rollback(db);
        done = left_of[kind] > 0;
        fail(kind, 0, false);
        if (done || !error) {
            IS(RSTORE_OK, error);
        } else {
            IS(number, error);
            IS(RSTORE_NOT_OPEN, rstore_count(db, "a", &count));
            IS(RSTORE_NOT_OPEN, change(db, 1));
            IS(RSTORE_NOT_OPEN, rstore_commit(db));
            IS(RSTORE_NOT_OPEN, rstore_check(db));
            /* a sync that failed is never made good (docs/LIBRARY.md): the handle is closed then */
            if (kind == SYNC) IS(RSTORE_DEVICE, rstore_rollback(db));
            if (kind == SYNC || n % 2) {
                IS(RSTORE_NOT_OPEN, rstore_close(db));
                again(path);
                continue;
            }
            IS(RSTORE_OK, rstore_rollback(db));
        }
        is(db, &kept, __LINE__);
        IS(RSTORE_OK, change(db, 200));
        keep(db);
        IS(RSTORE_OK, rstore_close(db));
        ended(path);
    }
    return n - 1;
}

/* A store that fails half way through a change, since the system refuses its writes or reads. */
static void failed(const char *path, int kind) {
    int failures = 0;
    for (int turn = 0; turn < 40; turn++) {
        rstore *db = made(path, 8);
        uint64_t count;
        fail(kind, 1 + (long)roll(60), true);
        int error = change(db, 4000);
        fail(kind, 0, false);
        if (error == RSTORE_STORE_FAILED) {
            failures++;
            IS(RSTORE_STORE_FAILED, rstore_count(db, "a", &count));
            IS(RSTORE_STORE_FAILED, rstore_commit(db));
        } else if (error != RSTORE_DEVICE) IS(RSTORE_OK, error);
        IS(RSTORE_OK, rstore_rollback(db));
        is(db, &kept, __LINE__);
        IS(RSTORE_OK, change(db, 100));
        keep(db);
        IS(RSTORE_OK, rstore_close(db));
        ended(path);
    }
    if (!failures) { fprintf(stderr, "rollback.c: no store failed\n"); exit(1); }
    printf("%d stores that failed go on, ", failures);
}

/* A commit whose nth sync fails, and each after it for a while: it is rolled back to the table before it, or after. */
static void uncommitted(const char *path) {
    int before = 0, after = 0;
    for (long n = 1; n < 12; n++) {
        for (int stay = 0; stay < 2; stay++) {
            rstore *db = made(path, 64);
            IS(RSTORE_OK, change(db, 300));
            look(db, &trying);
            fail(SYNC, n, stay);
            int error = rstore_commit(db), back;
            if (!error) {
                fail(SYNC, 0, false);
                kept = trying;
                is(db, &kept, __LINE__);
                IS(RSTORE_OK, rstore_close(db));
                ended(path);
                continue;
            }
            IS(RSTORE_DEVICE, error);
            back = rstore_rollback(db);
            fail(SYNC, 0, false);
            if (back) {
                IS(RSTORE_DEVICE, back);
                IS(RSTORE_NOT_OPEN, rstore_close(db));
                IS(RSTORE_OK, rstore_open(path, RSTORE_EXISTING, 8, &db));
            }
            look(db, &now);
            if (same(&now, &kept)) before++;
            else if (same(&now, &trying)) after++, kept = trying;
            else { fprintf(stderr, "rollback.c: another table after a commit that was refused\n"); exit(1); }
            /* where only the end of the session fails, all is kept, and the next opening ends it */
            if ((error = rstore_close(db))) IS(RSTORE_DEVICE, error);
            again(path);
        }
    }
    printf("%d commits that were refused are undone and %d done, ", before, after);
}

int main(int argc, char **argv) {
    if (argc != 2) return 2;
    rounds(argv[1], 8);
    rounds(argv[1], 4096);
    rounds(NULL, 8);
    rounds(NULL, 512);
    printf("rollbacks leave what was committed; ");
    printf("each of %ld allocations, ", refused(argv[1], ALLOCATION, RSTORE_MEMORY));
    printf("%ld reads ", refused(argv[1], READ, RSTORE_DEVICE));
    printf("and %ld syncs of one may fail; ", refused(argv[1], SYNC, RSTORE_DEVICE));
    failed(argv[1], WRITE);
    failed(argv[1], READ);
    uncommitted(argv[1]);
    puts("and none is lost");
    unlink(argv[1]);
    return 0;
}
