/* blocks FOLDER [QUICK]: stores over blocks of the caller's, which are an array here. After each commit the blocks are
 * those of a file that was closed, byte for byte as in a session over a file; between commits no block that was there
 * is written; whichever call of a function fails, what was committed last is there once the blocks are put back, and after
 * a rollback over the blocks as they were left what was committed last or was being committed. rstore_put, also where
 * memory is refused from any moment on, and rstore_abandon of a file. It says what it has tried.
 * Linked with -Wl,--wrap=malloc,--wrap=realloc,--wrap=calloc. */
#include <stdbool.h>
#include <stdio.h>
#include <stdlib.h>
#include <string.h>
#include <unistd.h>

#include "rstore.h"

#define IS(wanted, call) do { long long got = (long long)(call); if (got != (long long)(wanted)) { \
        fprintf(stderr, "blocks.c:%d: %s is %lld, not %lld\n", __LINE__, #call, got, (long long)(wanted)); exit(1); } \
    } while (0)

enum { MOST = 4000 };
typedef struct { unsigned char at[MOST][4096]; size_t count; } Image;
typedef struct { Image now, kept; long left; bool commits, sync_failed; rstore *other; } Disk;
static Disk disk;

static bool fails(Disk *d) {
    uint64_t count;
    if (d->other) IS(RSTORE_OK, rstore_count(d->other, "a", &count)); /* another handle within a call of this one */
    return d->left > 0 && --d->left == 0;
}
static int count_of(void *context, uint64_t *count) {
    Disk *d = context;
    return *count = d->now.count, fails(d);
}
static int read_one(void *context, uint64_t block, void *bytes) {
    Disk *d = context;
    if (fails(d)) return 1;
    if (block < d->now.count) memcpy(bytes, d->now.at[block], 4096);
    else memset(bytes, 0, 4096);
    return 0;
}
static int write_one(void *context, uint64_t block, const void *bytes) {
    Disk *d = context;
    if (fails(d)) return 1;
    if (block > d->now.count || block >= MOST || (!d->commits && block < d->kept.count)) {
        fprintf(stderr, "blocks.c: block %llu of %zu is written\n", (unsigned long long)block, d->now.count);
        exit(1);
    }
    memcpy(d->now.at[block], bytes, 4096);
    if (block == d->now.count) d->now.count++;
    return 0;
}
static int sync_all(void *context) {
    Disk *d = context;
    bool failed = fails(d);
    d->sync_failed |= failed;
    return failed;
}
static const rstore_blocks functions = { count_of, read_one, write_one, sync_all };

static void copy(Image *to, const Image *from) {
    memcpy(to->at, from->at, from->count * sizeof *from->at);
    to->count = from->count;
}
static void keep(Disk *d) { copy(&d->kept, &d->now); }
static void put_back(Disk *d) { copy(&d->now, &d->kept); }

static int commit(Disk *d, rstore *db) {
    d->commits = true;
    int error = rstore_commit(db);
    d->commits = false;
    if (!error) keep(d);
    return error;
}

/* The blocks as a file, which needs no journal. */
static void is_closed_file(const Image *image, const char *path, uint64_t objects) {
    rstore *db;
    uint64_t count;
    FILE *file = fopen(path, "wb");
    IS(image->count, fwrite(image->at, 4096, image->count, file));
    fclose(file);
    IS(RSTORE_OK, rstore_open(path, RSTORE_READ_ONLY, 0, &db));
    IS(0, rstore_detail(db));
    IS(RSTORE_OK, rstore_check(db));
    IS(RSTORE_OK, rstore_count(db, "a", &count));
    IS(objects, count);
    IS(RSTORE_OK, rstore_close(db));
}

static int insert(rstore *db, uint64_t id, unsigned seed) {
    int32_t x = (int32_t)(seed * 2654435761u >> 12), y = (int32_t)(seed * 40503u % 99991);
    int32_t box[4] = { x, y, x + 9, y + 7 };
    return rstore_insert(db, "a", id, box, 2, seed % 5);
}

/* The same session over blocks and over a file. */
static void beside_a_file(unsigned rounds) {
    rstore *db, *file, *other;
    IS(RSTORE_OK, rstore_open(NULL, RSTORE_CREATE, 8, &other));
    IS(RSTORE_OK, rstore_create_layer(other, "a", 2, 100));
    unlink("same.rst");
    IS(RSTORE_OK, rstore_open("same.rst", RSTORE_CREATE, 64, &file));
    IS(RSTORE_NOT_A_STORE, rstore_open_blocks(&functions, &disk, RSTORE_EXISTING, 64, &db));
    disk.commits = true;
    IS(RSTORE_OK, rstore_open_blocks(&functions, &disk, RSTORE_CREATE, 64, &db));
    disk.other = other;
    for (int which = 0; which < 2; which++) IS(RSTORE_OK, rstore_create_layer(which ? file : db, "a", 2, 20));
    for (unsigned k = 0; k < rounds; k++) {
        IS(RSTORE_OK, commit(&disk, db));
        IS(RSTORE_OK, rstore_commit(file));
        is_closed_file(&disk.now, "copy.rst", 400 * k);
        for (unsigned n = 0; n < 400; n++) {
            IS(RSTORE_OK, insert(db, 400 * k + n, 7 * (400 * k + n)));
            IS(RSTORE_OK, insert(file, 400 * k + n, 7 * (400 * k + n)));
        }
    }
    disk.commits = true;
    IS(RSTORE_OK, rstore_close(db));
    IS(RSTORE_OK, rstore_close(file));
    disk.other = NULL;
    IS(RSTORE_OK, rstore_close(other));
    is_closed_file(&disk.now, "copy.rst", 400 * rounds);
    IS(0, system("cmp -s same.rst copy.rst"));
    keep(&disk);
    printf("%u commits over blocks, the same as over a file\n", rounds);
}

/* A session over what is kept, in which a call of a function fails. Whether one did. */
static bool session(uint64_t *objects) {
    rstore *db = NULL;
    bool ok = true;
    disk.commits = false;
    if (rstore_open_blocks(&functions, &disk, RSTORE_EXISTING, 8, &db)) { put_back(&disk); return true; }
    for (int round = 0; round < 2 && ok; round++) {
        unsigned added = 0;
        for (unsigned n = 0; n < 60; n++) added += !insert(db, 1000000 + *objects + n, n);
        ok = !commit(&disk, db);
        if (ok) *objects += added;
    }
    rstore_abandon(db);
    put_back(&disk);
    return !ok;
}

static Image first; /* with which the sessions begin */

static uint64_t count_now(void) {
    rstore *db;
    uint64_t count = 0;
    IS(RSTORE_OK, rstore_open_blocks(&functions, &disk, RSTORE_EXISTING, 0, &db));
    IS(RSTORE_OK, rstore_count(db, "a", &count));
    rstore_abandon(db);
    return count;
}

static void each_call_fails(long most) {
    uint64_t objects, before = count_now(), at;
    rstore *db;
    copy(&first, &disk.now);
    long tried = 0, refused = 0;
    for (bool any = true; any && tried < most; tried++) {
        copy(&disk.now, &first), keep(&disk);
        objects = before, disk.left = tried + 1;
        refused += session(&objects);
        any = disk.left == 0, disk.left = 0;
        is_closed_file(&disk.now, "copy.rst", objects);
        IS(RSTORE_OK, rstore_open_blocks(&functions, &disk, RSTORE_EXISTING, 0, &db));
        IS(RSTORE_OK, rstore_count(db, "a", &at));
        IS(objects, at);
        rstore_abandon(db);
    }
    printf("%ld sessions in which a call of the caller's fails, %ld of them cut short\n", tried, refused);
}

/* Behind a sync that failed no other is asked for: neither a rollback that has to sync nor a commit goes well, and the
 * caller puts the blocks back. */
static void is_given_up(rstore *db, uint64_t before) {
    uint64_t count;
    int error = rstore_rollback(db);
    if (error) {
        IS(RSTORE_DEVICE, error);
        IS(RSTORE_NOT_OPEN, rstore_count(db, "a", &count));
    } else {
        IS(RSTORE_OK, insert(db, 2000000, 7));
        IS(RSTORE_DEVICE, rstore_commit(db));
    }
    rstore_abandon(db);
    put_back(&disk);
    is_closed_file(&disk.now, "copy.rst", before);
}

/* A session that is rolled back, after changes, or a commit, in which the nth call of a function fails; it goes on, and
 * commits. Whether one did fail. */
static bool rolled_back(long nth, uint64_t before) {
    rstore *db;
    uint64_t count, added = 0;
    bool commits = nth % 2;
    copy(&disk.now, &first), keep(&disk);
    disk.sync_failed = false;
    IS(RSTORE_OK, rstore_open_blocks(&functions, &disk, RSTORE_EXISTING, 8, &db));
    disk.left = nth;
    for (unsigned n = 0; n < 90; n++) added += !insert(db, 1000000 + n, n);
    disk.commits = true; /* also in the rollback: a commit that has begun is finished by it */
    int error = commits ? rstore_commit(db) : RSTORE_OK;
    bool failed = disk.left == 0;
    disk.left = 0;
    if (disk.sync_failed) {
        is_given_up(db, before);
        return true;
    }
    IS(RSTORE_OK, rstore_rollback(db));
    disk.commits = false;
    IS(RSTORE_OK, rstore_check(db));
    IS(RSTORE_OK, rstore_count(db, "a", &count));
    if (!commits || !error) IS(before + (commits ? added : 0), count);
    IS(true, count == before || count == before + added);
    keep(&disk);
    IS(RSTORE_OK, insert(db, 2000000, 7));
    IS(RSTORE_OK, commit(&disk, db));
    disk.commits = true;
    IS(RSTORE_OK, rstore_close(db));
    is_closed_file(&disk.now, "copy.rst", count + 1);
    return failed;
}

static void rollbacks(long most) {
    uint64_t before = count_now();
    long tried = 0, quiet = 0;
    copy(&first, &disk.now);
    for (; quiet < 2 && tried < most; tried++) quiet = rolled_back(tried + 1, before) ? 0 : quiet + 1;
    printf("%ld sessions over blocks that are rolled back, and go on\n", tried);
}

/* ---- memory that is refused from the nth allocation on */
static long allocations_left = -1;
void *__real_malloc(size_t n);
void *__real_realloc(void *p, size_t n);
void *__real_calloc(size_t k, size_t n);
static bool has_none(void) { return allocations_left >= 0 && (allocations_left ? allocations_left-- : 0) == 0; }
void *__wrap_malloc(size_t n) { return has_none() ? NULL : __real_malloc(n); }
void *__wrap_realloc(void *p, size_t n) { return has_none() ? NULL : __real_realloc(p, n); }
void *__wrap_calloc(size_t k, size_t n) { return has_none() ? NULL : __real_calloc(k, n); }

static void has_object(rstore *db, uint64_t id, int32_t x, uint32_t tag) {
    rstore_row row;
    IS(RSTORE_OK, rstore_get(db, "a", id, &row));
    IS(tag, row.tag);
    IS(x, row.low[0]);
    IS(RSTORE_OK, rstore_check(db));
}

/* A store whose object 40 was moved since the commit. */
static rstore *with_a_change(void) {
    rstore *db;
    IS(RSTORE_OK, rstore_open("put.rst", RSTORE_EXISTING, 8, &db));
    IS(RSTORE_OK, rstore_put(db, "a", 40, (int32_t[]){ 40, 0, 40, 1 }, 2, 5));
    IS(RSTORE_OK, rstore_commit(db));
    IS(RSTORE_OK, rstore_move(db, "a", 40, (int32_t[]){ 1, 1, 2, 2 }, 2));
    return db;
}

/* What rstore_put with another tag answers, where memory is refused from the nth allocation on. */
static int put_without(rstore *db, long nth) {
    uint64_t count;
    allocations_left = nth;
    int error = rstore_put(db, "a", 40, (int32_t[]){ 900, 900, 901, 901 }, 2, 77);
    allocations_left = -1;
    if (!error) has_object(db, 40, 900, 77);
    else if (error == RSTORE_MEMORY) has_object(db, 40, 1, 5);
    else IS(RSTORE_STORE_FAILED, error);
    if (error == RSTORE_STORE_FAILED) IS(error, rstore_count(db, "a", &count));
    if (error == RSTORE_STORE_FAILED) IS(error, rstore_commit(db));
    return error;
}

/* Ends that session, after a rollback or without it. What was half done is in no file. */
static void end_after(rstore *db, int error, bool rolls_back) {
    bool half = error == RSTORE_STORE_FAILED;
    if (rolls_back) IS(RSTORE_OK, rstore_rollback(db));
    if (rolls_back) has_object(db, 40, 40, 5);
    IS(half && !rolls_back ? RSTORE_STORE_FAILED : RSTORE_OK, rstore_close(db));
    IS(-1, access("put.rst-journal", F_OK));
    if (!half) return;
    IS(RSTORE_OK, rstore_open("put.rst", RSTORE_READ_ONLY, 0, &db));
    has_object(db, 40, 40, 5);
    IS(RSTORE_OK, rstore_close(db));
}

static void puts_without_memory(long most) {
    rstore *db;
    long refused = 0, half = 0, nth = 0;
    unlink("put.rst");
    IS(RSTORE_OK, rstore_open("put.rst", RSTORE_CREATE, 0, &db));
    IS(RSTORE_OK, rstore_create_layer(db, "a", 2, 4));
    for (int32_t n = 0; n < 300; n++)
        IS(RSTORE_OK, rstore_put(db, "a", (uint64_t)n, (int32_t[]){ n, 0, n, 1 }, 2, 5));
    IS(RSTORE_OK, rstore_close(db));
    for (int error = 1; error && nth < most; nth++) {
        for (int rolls_back = 0; rolls_back < 2; rolls_back++) {
            db = with_a_change();
            error = put_without(db, nth);
            end_after(db, error, rolls_back);
        }
        refused += error == RSTORE_MEMORY, half += error == RSTORE_STORE_FAILED;
    }
    printf("%ld puts without memory, %ld of them refused, %ld half done\n", nth, refused, half);
}

static void puts_and_abandons(void) {
    rstore *db;
    rstore_row row;
    uint64_t count;
    unlink("put.rst");
    IS(RSTORE_OK, rstore_open("put.rst", RSTORE_CREATE, 0, &db));
    IS(RSTORE_OK, rstore_create_layer(db, "a", 2, 4));
    IS(RSTORE_OK, rstore_put(db, "a", 7, (int32_t[]){ 1, 2, 3, 4 }, 2, 5));
    IS(RSTORE_OK, rstore_put(db, "a", 7, (int32_t[]){ 2, 3, 4, 5 }, 2, 5));
    IS(RSTORE_OK, rstore_put(db, "a", 7, (int32_t[]){ 3, 4, 5, 6 }, 2, 9));
    IS(RSTORE_OK, rstore_get(db, "a", 7, &row));
    IS(true, row.tag == 9 && row.low[0] == 3 && row.low[1] == 4 && row.high[0] == 5 && row.high[1] == 6);
    IS(RSTORE_BAD_BOX, rstore_put(db, "a", 7, (int32_t[]){ 3, 4, 2, 6 }, 2, 9));
    IS(RSTORE_WRONG_DIMS, rstore_put(db, "a", 7, (int32_t[]){ 1, 1, 1, 1, 1, 1 }, 3, 9));
    IS(RSTORE_NO_LAYER, rstore_put(db, "b", 7, (int32_t[]){ 1, 1, 1, 1 }, 2, 9));
    IS(RSTORE_MISUSE, rstore_put(db, "a", 7, NULL, 2, 9));
    IS(RSTORE_OK, rstore_commit(db));
    IS(RSTORE_OK, rstore_put(db, "a", 8, (int32_t[]){ 1, 2, 3, 4 }, 2, 0));
    rstore_abandon(db);
    rstore_abandon(NULL);
    IS(RSTORE_OK, rstore_open("put.rst", RSTORE_EXISTING, 0, &db));
    IS(RSTORE_OK, rstore_count(db, "a", &count));
    IS(1, count);
    IS(RSTORE_OK, rstore_check(db));
    IS(RSTORE_OK, rstore_close(db));
    rstore_blocks some = functions;
    some.read = NULL;
    IS(RSTORE_MISUSE, rstore_open_blocks(NULL, NULL, RSTORE_CREATE, 0, &db));
    IS(RSTORE_MISUSE, rstore_open_blocks(&some, NULL, RSTORE_CREATE, 0, &db));
    IS(RSTORE_MISUSE, rstore_open_blocks(&functions, NULL, RSTORE_READ_ONLY, 0, &db));
    IS(RSTORE_MISUSE, rstore_open_blocks(&functions, NULL, RSTORE_CREATE, 0, NULL));
}

int main(int argc, char **argv) {
    if (argc < 2 || chdir(argv[1])) return 2;
    beside_a_file(argc > 2 ? 4 : 30);
    each_call_fails(argc > 2 ? 100 : 100000);
    rollbacks(argc > 2 ? 100 : 100000);
    puts_and_abandons();
    puts_without_memory(argc > 2 ? 100 : 100000);
    return 0;
}
