/* stops [QUICK]: sessions over a file, its journal and their folder in memory, which are stopped at each call of the system,
 * from their opening to their clean end: one that makes the file, and one that changes two layers between five commits
 * and two rollbacks.
 * From the stop on each call fails. What it leaves of both files and of the folder is tried in 15 ways and more: each block
 * that was not synced is as it was written, as it was synced, filled with a byte or torn, appended ones are there, gone or
 * cut short, and of names that were not synced the old and the new one stand. What is left is opened to be only read, which
 * writes nothing and, once the store stood, finds a table, or a gate that was torn at the end of a session. Then it is
 * opened for writing, which is never refused once the store stood. Each table is that of the last commit, or of the one in
 * progress, all of it sound, and who writes finds the one that was read. The opening is stopped at each of its calls, too.
 * Linked with -Wl,--wrap of the calls below. */
#define _GNU_SOURCE
#include <errno.h>
#include <fcntl.h>
#include <stdarg.h>
#include <stdbool.h>
#include <stdio.h>
#include <stdlib.h>
#include <string.h>
#include <sys/stat.h>
#include <time.h>
#include <unistd.h>

#include "rstore.h"

/* ---- the disk: files by their bytes, as they are read and as they were synced, and a folder of three names */
enum { SIZE = 4096, BLOCKS = 320, FILES = 8, FOLDER = 900, FIRST = 1000, OPEN = 8, NAMES = 3 };
static const char *const names[NAMES] = {"/m/store", "/m/store-journal", "/m/store-journal-part"};

struct file {
    long size, synced_size;
    bool dirty[BLOCKS]; /* written since the last sync */
    unsigned char now[BLOCKS * SIZE], synced[BLOCKS * SIZE];
};
struct disk {
    int count;                     /* of files */
    int now[NAMES], synced[NAMES]; /* the file of each name, or -1 */
    struct file file[FILES];
};
static struct disk disk;
static int file_of[OPEN]; /* which file a descriptor has, or -1 */
static long calls, passes, writes;
static bool stopped;

static void die(const char *what, long number) {
    fprintf(stderr, "stops: %s %ld\n", what, number);
    exit(1);
}

/* Whether this call fails: that after so many, and each after it. */
static bool fails(void) {
    calls++;
    if (passes-- == 0) stopped = true;
    if (stopped) errno = EIO;
    return stopped;
}

static struct file *at(int fd) {
    if (fd < FIRST || fd >= FIRST + OPEN || file_of[fd - FIRST] < 0) die("no such file", fd);
    return &disk.file[file_of[fd - FIRST]];
}

/* Which of the names a path is, or -1. */
static int name_of(const char *path) {
    for (int name = 0; name < NAMES; name++) if (!strcmp(path, names[name])) return name;
    return -1;
}

int __real_open(const char *path, int how, ...);
int __wrap_open(const char *path, int how, ...) {
    int name = name_of(path), slot = 0;
    if (name < 0 && strcmp(path, "/m")) {
        va_list more;
        va_start(more, how);
        int mode = how & O_CREAT ? va_arg(more, int) : 0;
        va_end(more);
        return __real_open(path, how, mode);
    }
    if (fails()) return -1;
    if (name < 0) return FOLDER;
    if (disk.now[name] < 0) {
        if (!(how & O_CREAT)) { errno = ENOENT; return -1; }
        if (disk.count == FILES) die("too many files", disk.count);
        struct file *f = &disk.file[disk.now[name] = disk.count++];
        f->size = f->synced_size = 0;
        memset(f->dirty, 0, sizeof f->dirty);
    } else if (how & O_EXCL) { errno = EEXIST; return -1; }
    while (slot < OPEN && file_of[slot] >= 0) slot++;
    if (slot == OPEN) die("too many open", slot);
    file_of[slot] = disk.now[name];
    return FIRST + slot;
}
int __real_close(int fd);
int __wrap_close(int fd) {
    if (fd < FOLDER) return __real_close(fd);
    if (fd != FOLDER) at(fd), file_of[fd - FIRST] = -1;
    return 0;
}
int __wrap_flock(int fd, int how) {
    int others = 0;
    for (int slot = 0; slot < OPEN; slot++) others += file_of[slot] == file_of[fd - FIRST];
    if (others != 1 || !how) die("a file is open twice", fd);
    return fails() ? -1 : 0;
}
/* A file's number is its place on the disk. */
static int tell(const struct file *f, struct stat *found) {
    memset(found, 0, sizeof *found);
    found->st_mode = S_IFREG | 0600;
    found->st_size = f->size;
    found->st_ino = (ino_t)(f - disk.file) + 1;
    return 0;
}
int __wrap_fstat(int fd, struct stat *found) { return fails() ? -1 : tell(at(fd), found); }
int __wrap_stat(const char *path, struct stat *found) {
    int name = name_of(path);
    if (name < 0) die("a path that is none of the three", 0);
    if (fails()) return -1;
    if (disk.now[name] < 0) { errno = ENOENT; return -1; }
    return tell(&disk.file[disk.now[name]], found);
}
int __wrap_lstat(const char *path, struct stat *found) { return __wrap_stat(path, found); }
int __wrap_nanosleep(const struct timespec *time, struct timespec *left) { return (void)time, (void)left, 0; }
int __wrap_rename(const char *from, const char *to) {
    if (name_of(from) != 2 || name_of(to) != 1 || disk.now[2] < 0) die("a name that is not the copy's", 0);
    if (fails()) return -1;
    disk.now[1] = disk.now[2], disk.now[2] = -1;
    return 0;
}
char *__wrap_realpath(const char *path, char *into) { return into ? NULL : strdup(path); }
int __wrap_unlink(const char *path) {
    int name = name_of(path);
    if (name < 1) die("a file is removed", name);
    if (fails()) return -1;
    if (disk.now[name] < 0) { errno = ENOENT; return -1; }
    disk.now[name] = -1;
    return 0;
}
int __wrap_fsync(int fd) {
    if (fd != FOLDER) die("not the folder", fd);
    if (fails()) return -1;
    memcpy(disk.synced, disk.now, sizeof disk.now);
    return 0;
}
int __wrap_fdatasync(int fd) {
    struct file *f = at(fd);
    if (fails()) return -1;
    for (int k = 0; k < BLOCKS; k++)
        if (f->dirty[k]) memcpy(f->synced + k * SIZE, f->now + k * SIZE, SIZE), f->dirty[k] = false;
    f->synced_size = f->size;
    return 0;
}
ssize_t __wrap_pread(int fd, void *into, size_t count, off_t from) {
    struct file *f = at(fd);
    if (fails()) return -1;
    if (from >= f->size) return 0;
    if ((off_t)count > f->size - from) count = (size_t)(f->size - from);
    memcpy(into, f->now + from, count);
    return (ssize_t)count;
}
/* The write that is stopped has put a part of its bytes. */
ssize_t __wrap_pwrite(int fd, const void *bytes, size_t count, off_t to) {
    struct file *f = at(fd);
    bool before = stopped, failed = fails();
    if (before) return -1;
    if (to % SIZE || count != SIZE || to >= f->size + SIZE || to / SIZE >= BLOCKS) die("no write of a block", (long)to);
    writes++;
    f->dirty[to / SIZE] = true;
    long put = failed ? 1000 : SIZE;
    if (f->size < to) memset(f->now + f->size, 0, (size_t)(to - f->size));
    memcpy(f->now + to, bytes, (size_t)put);
    if (f->size < to + put) f->size = to + put;
    return failed ? -1 : (ssize_t)count;
}

/* ---- what a stop leaves */
enum { WRITTEN, SYNCED, FILLED, ZEROS, TORN, CHANCE };
static unsigned long long dice_state = 1;
static unsigned roll(unsigned bound) {
    dice_state = dice_state * 6364136223846793005u + 1442695040888963407u;
    return (unsigned)(dice_state >> 33) % bound;
}

/* Makes of a block, which was written since the last sync, what is left of it. */
static void leave_block(unsigned char *now, const unsigned char *synced, int how) {
    if (how == CHANCE) how = (int)roll(CHANCE);
    if (how == SYNCED) memcpy(now, synced, SIZE);
    if (how == FILLED || how == ZEROS) memset(now, how == FILLED ? 0xEE : 0, SIZE);
    if (how == TORN) memcpy(now + SIZE / 2, synced + SIZE / 2, SIZE / 2);
}

static void copy(struct file *to, const struct file *from) {
    to->size = from->size, to->synced_size = from->synced_size;
    memcpy(to->dirty, from->dirty, sizeof to->dirty);
    memcpy(to->now, from->now, (size_t)from->size);
    memcpy(to->synced, from->synced, (size_t)from->synced_size);
    if (from->size > from->synced_size) memset(to->synced + from->synced_size, 0, (size_t)(from->size - from->synced_size));
}
static void copy_disk(struct disk *to, const struct disk *from) {
    to->count = from->count;
    memcpy(to->now, from->now, sizeof to->now), memcpy(to->synced, from->synced, sizeof to->synced);
    for (int k = 0; k < from->count; k++) copy(&to->file[k], &from->file[k]);
}

/* Makes of a file what is left of it. One that was cut short has a part of its last block. */
static void leave_file(struct file *f, int how) {
    long kept = f->synced_size, more = f->size - kept, blocks = (f->size + SIZE - 1) / SIZE;
    memset(f->now + f->size, 0, (size_t)(blocks * SIZE - f->size));
    for (int k = 0; k < blocks; k++)
        if (f->dirty[k]) leave_block(f->now + k * SIZE, f->synced + k * SIZE, how);
    if (how == SYNCED) f->size = kept;
    if (how == TORN && more > 3000) f->size -= 3000;
    if (how == CHANCE && more > 0) f->size = kept + roll((unsigned)(more / SIZE + 2)) * SIZE;
    if (how == CHANCE && f->size > blocks * SIZE) f->size = blocks * SIZE;
    memcpy(f->synced, f->now, (size_t)f->size);
    memset(f->dirty, 0, sizeof f->dirty);
    f->synced_size = f->size;
}

/* The disk after a stop which leaves a base, a journal, its copy as this, and the names so; the files have the first places. */
static void leave(const struct disk *from, int base, int journal, bool renamed) {
    static const struct file none;
    int how[NAMES] = {base, journal, journal};
    disk.count = NAMES;
    for (int name = 0; name < NAMES; name++) {
        int had = renamed ? from->now[name] : from->synced[name];
        copy(&disk.file[name], had < 0 ? &none : &from->file[had]);
        disk.now[name] = disk.synced[name] = had < 0 ? -1 : name;
        leave_file(&disk.file[name], how[name]);
    }
}

/* ---- tables: what a session has, has tried to keep, and has kept */
enum { ROWS = 64, LAYERS = 3 };
struct layer { bool there; uint32_t axes; int count; rstore_row rows[ROWS]; };
struct table { struct layer layer[LAYERS]; };
static const char *const layer_names[LAYERS] = {"a", "b", "c"};
static struct table working, kept, trying, before;
static rstore *db;
static bool well; /* no call was refused so far */

static bool done(int error) {
    if (error && error != RSTORE_DEVICE && error != RSTORE_STORE_FAILED) die(rstore_errstr(error), error);
    if (error && !stopped) die("refused, though no call failed:", error);
    return well = well && !error;
}

static void create(int which, uint32_t axes, uint32_t fanout) {
    if (well && done(rstore_create_layer(db, layer_names[which], axes, fanout)))
        working.layer[which] = (struct layer){.there = true, .axes = axes};
}
static rstore_row row_of(uint64_t id, uint32_t axes) {
    int32_t x = (int32_t)(id * 37 % 101), y = (int32_t)(id * 53 % 97), z = axes == 3 ? (int32_t)(id % 7) : 0;
    return (rstore_row){id, {x, y, z}, {x + 3, y + (int32_t)(id % 9), z}, (uint32_t)id % 4, axes};
}
/* A box as calls have it. */
static const int32_t *box_of(const rstore_row *row) {
    static int32_t box[6];
    for (uint32_t k = 0; k < row->axes; k++) box[k] = row->low[k], box[row->axes + k] = row->high[k];
    return box;
}
static void insert(int which, uint64_t from, uint64_t to) {
    struct layer *l = &working.layer[which];
    for (uint64_t id = from; id < to && well; id++) {
        rstore_row row = row_of(id, l->axes);
        if (done(rstore_insert(db, layer_names[which], id, box_of(&row), l->axes, row.tag))) l->rows[l->count++] = row;
    }
}
static void load(int which, uint64_t from, uint64_t to) {
    struct layer *l = &working.layer[which];
    rstore_row rows[ROWS];
    for (uint64_t id = from; id < to; id++) rows[id - from] = row_of(id, l->axes);
    if (well && done(rstore_load(db, layer_names[which], l->axes, rows, to - from)))
        memcpy(l->rows, rows, sizeof rows), l->count = (int)(to - from);
}
static void move(int which, int from, int to) {
    struct layer *l = &working.layer[which];
    for (int k = from; k < to && well; k++) {
        rstore_row row = row_of(l->rows[k].id + 1000, l->axes);
        row.id = l->rows[k].id, row.tag = l->rows[k].tag;
        if (done(rstore_move(db, layer_names[which], row.id, box_of(&row), l->axes))) l->rows[k] = row;
    }
}
/* Deletes so many of the first ones. */
static void delete(int which, int count) {
    struct layer *l = &working.layer[which];
    for (int k = 0; k < count && well; k++)
        if (done(rstore_delete(db, layer_names[which], l->rows[0].id)))
            memmove(l->rows, l->rows + 1, (size_t)--l->count * sizeof *l->rows);
}
static void drop(int which) {
    if (well && done(rstore_drop_layer(db, layer_names[which]))) working.layer[which].there = false;
}
static void commit(void) {
    if (!well) return;
    trying = working;
    if (done(rstore_commit(db))) kept = working;
}
static void roll_back(void) {
    if (!well) return;
    working = kept;
    done(rstore_rollback(db));
}
/* Whether both have the same layers and objects. */
static bool same(const struct table *a, const struct table *b) {
    for (int k = 0; k < LAYERS; k++) {
        const struct layer *l = &a->layer[k], *m = &b->layer[k];
        if (l->there != m->there) return false;
        if (l->there && (l->axes != m->axes || l->count != m->count
                         || memcmp(l->rows, m->rows, (size_t)l->count * sizeof *l->rows))) return false;
    }
    return true;
}

/* What the store has. */
static struct table found(void) {
    static const int32_t all[6] = {-9999, -9999, -9999, 9999, 9999, 9999}, plane[4] = {-9999, -9999, 9999, 9999};
    struct table table = {0};
    rstore_layer *layers;
    rstore_row *rows;
    size_t count, many;
    if (rstore_check(db) || rstore_layers(db, &layers, &count)) die("not sound", 0);
    for (size_t k = 0; k < count; k++) {
        struct layer *l = &table.layer[layers[k].name[0] - 'a'];
        *l = (struct layer){.there = true, .axes = layers[k].axes};
        if (rstore_window(db, layers[k].name, l->axes == 2 ? plane : all, l->axes, NULL, &rows, &many)) die("no rows", 0);
        if (many != layers[k].count || many > ROWS) die("other rows than objects", (long)many);
        if (many) memcpy(l->rows, rows, many * sizeof *rows);
        l->count = (int)many;
        rstore_free(rows);
    }
    rstore_free(layers);
    return table;
}

/* ---- sessions. Each tells whether the store was opened. */
static bool opens(int flags) {
    int error = rstore_open(names[0], flags, 8, &db);
    if (error && !stopped) die("opening, though no call failed:", error);
    return well = !error;
}
/* A store that did not fail closes with what it has. */
static bool closes(void) {
    trying = working;
    if (!rstore_close(db)) kept = working;
    return true;
}
static bool makes(void) {
    memset(&working, 0, sizeof working);
    if (!opens(RSTORE_CREATE)) return false;
    create(0, 2, 4), insert(0, 1, 6), commit();
    insert(0, 6, 9);
    return closes();
}
static bool changes(void) {
    working = before;
    if (!opens(RSTORE_EXISTING)) return false;
    insert(0, 9, 30), commit();
    create(1, 3, 5), load(1, 100, 140), commit();
    delete(0, 12), move(0, 0, 9), commit();
    drop(1), create(2, 2, 100), insert(2, 1, 40), commit();
    commit(); /* of nothing */
    create(1, 3, 5), load(1, 200, 240), delete(0, 5), roll_back();
    insert(0, 50, 55), move(2, 3, 20), roll_back();
    delete(2, 30), move(2, 0, 9), insert(0, 40, 50);
    return closes();
}

/* ---- what is found after a stop */
static long stops, outcomes, again, refused, answered;

static void starts(long after) { calls = writes = 0, passes = after, stopped = false; }

static void settled(void) {
    for (int slot = 0; slot < OPEN; slot++) if (file_of[slot] >= 0) die("a file stays open", slot);
}

/* Whether this may be answered where no store stands: by a check of opening, or there is no file. */
static bool refuses(int error) {
    return error == RSTORE_NOT_CLOSED || error == RSTORE_NOT_A_STORE || error == RSTORE_WRONG_VERSION
        || error == RSTORE_DAMAGED || error == RSTORE_CANNOT_OPEN;
}

/* Opens what is left to be only read, which writes nothing, and tells whether a table was found. Where a store stood it is
 * refused for a gate that was torn at the end of a session. */
static bool only_reads(bool stood, struct table *table) {
    starts(-1);
    int error = rstore_open(names[0], RSTORE_READ_ONLY, 8, &db);
    if (error) {
        refused++;
        bool torn = error == RSTORE_NOT_CLOSED || error == RSTORE_NOT_A_STORE;
        if (stood ? !torn : !refuses(error) && error != RSTORE_NO_JOURNAL) die("a reader is refused:", error);
    } else {
        answered++;
        *table = found();
        if (!same(table, &kept) && !same(table, &trying)) die("a reader finds another table", 0);
        if (rstore_close(db)) die("a reader's closing", 0);
    }
    if (writes) die("a reader wrote", writes);
    settled();
    return !error;
}

/* Opens what is left, and finds one of the two tables, which is the one that was read; the file is then closed, without a
 * journal. */
static void finds(bool stood, int flags, long after, const struct table *read) {
    starts(-1);
    int error = rstore_open(names[0], flags, 8, &db);
    if (error) {
        if (stood || !refuses(error)) die(rstore_errstr(error), after);
        refused++;
        settled();
        return;
    }
    struct table table = found();
    if (!same(&table, &kept) && !same(&table, &trying)) die("another table after a stop behind call", after);
    if (read && !same(&table, read)) die("another table than was read after a stop behind call", after);
    if (rstore_close(db)) die("closing", after);
    for (int name = 1; name < NAMES; name++)
        if (disk.now[name] >= 0 || (name == 1 && disk.synced[name] >= 0)) die("the journal stays", after);
    settled();
}

/* Stops the opening of what is left at each of its calls. */
static void stops_again(const struct disk *left, bool stood, int flags, int base, int journal) {
    static struct disk now;
    for (long after = 0;; after++) {
        leave(left, base, journal, true);
        starts(after);
        bool opened = !rstore_open(names[0], flags, 8, &db);
        if (opened) rstore_close(db);
        settled();
        if (!stopped) return;
        again++;
        copy_disk(&now, &disk);
        leave(&now, (int)roll(CHANCE + 1), (int)roll(CHANCE + 1), roll(2));
        finds(stood || opened, flags, after, NULL);
    }
}

/* Stops a session over a disk at each of its calls. */
static void stops_of(bool (*session)(void), const struct disk *from, int flags, int chances, int every) {
    static struct disk left;
    static struct table read;
    bool stood_before = flags == RSTORE_EXISTING;
    for (long after = 0;; after++) {
        copy_disk(&disk, from);
        kept = trying = before;
        starts(after);
        bool stood = session() || stood_before;
        settled();
        if (!stopped) return;
        stops++;
        copy_disk(&left, &disk);
        bool pending = memcmp(left.now, left.synced, sizeof left.now);
        for (int k = 0; k < 11 + chances; k++) {
            int base = k < 9 ? k / 3 : k == 9 ? ZEROS : k == 10 ? TORN : CHANCE, journal = k < 9 ? k % 3 : base;
            for (int renamed = 0; renamed < 1 + pending; renamed++, outcomes++) {
                leave(&left, base, journal, !renamed);
                bool was_read = only_reads(stood, &read);
                finds(stood, flags, after, was_read ? &read : NULL);
            }
        }
        if (after % every == 0) stops_again(&left, stood, flags, (int)roll(CHANCE + 1), (int)roll(CHANCE + 1));
    }
}

int main(int argc, char **argv) {
    static struct disk empty, made;
    bool quick = argc > 1 && argv[1][0];
    for (int name = 0; name < NAMES; name++) empty.now[name] = empty.synced[name] = -1;
    for (int slot = 0; slot < OPEN; slot++) file_of[slot] = -1;
    stops_of(makes, &empty, RSTORE_CREATE, quick ? 1 : 4, quick ? 9 : 1);
    if (!same(&kept, &working)) die("the session did not end well", 0);
    before = kept;
    copy_disk(&made, &disk);
    stops_of(changes, &made, RSTORE_EXISTING, quick ? 1 : 4, quick ? 9 : 2);
    if (!same(&kept, &working)) die("the session did not end well", 1);
    finds(true, RSTORE_EXISTING, -1, NULL);
    printf("%ld stops over files in memory, %ld outcomes, %ld stops of openings after them: no table is lost; ", stops,
           outcomes, again);
    printf("%ld openings refused, %ld readers answered\n", refused, answered);
    return 0;
}
