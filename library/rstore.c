/* The C side of rstore.h, which no proof covers: it tests arguments, opens, locks and serves the files, makes arrays,
 * and calls the proved functions of librstore_c.a. docs/LIBRARY.md tells of the streams. */
#define _GNU_SOURCE
#include "rstore_files.h"

/* ---- the streams. In librstore_c.a the calls of read(0) and write(1) have the names of these two functions, which
 * build.sh gives them, so they reach no standard stream. */
/* A request of ten bytes, or after 'w' the block. */
ssize_t rstore_stream_write(int fd, const void *bytes, size_t count) {
    rstore *db = serving;
    const unsigned char *b = bytes;
    if (db && fd == 1 && count == 4096 && db->letter == 'w') {
        db->outcome = (unsigned char)block(db, NULL, bytes);
        return 4096;
    }
    if (!db || fd != 1 || count != 10 || b[1] > 2) { errno = EINVAL; return -1; }
    uint64_t at = 0;
    for (int k = 9; k >= 2; k--) at = at << 8 | b[k];
    db->letter = b[0];
    db->side = b[1];
    db->at = (off_t)at;
    if (db->abandoned) { db->outcome = REFUSED; return 10; }
    switch (db->letter) {
    case 'y': db->outcome = (unsigned char)sync_file(db); break;
    case 'o': db->outcome = (unsigned char)open_journal(db, 1, db->journal, 0); break;
    case 'm': db->outcome = (unsigned char)open_journal(db, 1, db->journal, O_CREAT); break;
    case 'x': db->outcome = (unsigned char)unlink_journal(db, false); break;
    case 'c': db->outcome = (unsigned char)make_copy(db); break;
    case 'p': db->outcome = (unsigned char)unlink_journal(db, true); break;
    case 'a': db->outcome = (unsigned char)take_lock(db, true); break;
    case 'l': db->outcome = (unsigned char)take_lock(db, false); break;
    default: break;
    }
    return 10;
}

/* After 'r' the block, after 's' the size, and after each request a byte that says how it went. */
ssize_t rstore_stream_read(int fd, void *into, size_t count) {
    rstore *db = serving;
    if (db && fd == 0 && count == 1) {
        *(unsigned char *)into = db->outcome;
    } else if (db && fd == 0 && count == 4096 && db->letter == 'r') {
        db->outcome = (unsigned char)block(db, into, NULL);
    } else if (db && fd == 0 && count == 8 && db->letter == 's') {
        uint64_t size = 0;
        db->outcome = (unsigned char)size_of(db, &size);
        for (int k = 0; k < 8; k++) ((unsigned char *)into)[k] = (unsigned char)(size >> 8 * k);
    } else { errno = EINVAL; return -1; }
    return (ssize_t)count;
}

/* ---- the proved functions. A slice of theirs is a pointer that is not null and a length. */
#include "rstore_c.h" /* written by exports.py, from crates/rstore_c */

#define TEXT(s) (const uint8_t *)(s), strlen(s)
#define ASK(condition) do { if (!(condition)) return RSTORE_MISUSE; } while (0)
#define NAMED(layer) ((layer) && *(layer))
#define AXES(axes) ((axes) == 2 || (axes) == 3)
/* A call that may read or write the files of db, and a function that is one. */
#define DO(call) (db->half ? RSTORE_STORE_FAILED : (serving = db, db->refused = false, (int)(call)))
#define CALL(condition, call) { ASK(condition); return DO(call); }

/* ---- errors */
const char *rstore_version(void) { return RSTORE_VERSION; }

const char *rstore_errstr(int error) {
    static const char *const refusals[] = { "ok", "not a layer name", "a layer of that name is there",
        "no layer of that name", "a layer has two or three axes", "a fanout is 4 to 100", "there are 60 layers",
        "a low is above its high", "another number of axes than the layer", "an object of that identifier is there",
        "no object of that identifier", "there would be more than 2^30 objects", "the layer has objects",
        "an identifier stands twice in the load", "a count is 1 to 1000000", "the layers have different numbers of axes",
        "no memory", "the device failed", "a page is damaged", "the store failed", "the file was not closed",
        "not a store", "a version that is not known", "a cache holds 8 to 4096 pages", "not a command",
        "no page number is left" };
    static const char *const own[] = { "cannot open the file", "the file is in use",
        "a rollback was refused, and the store is not open",
        "a null pointer, an empty name, or numbers that are no box, point or query", "the store is only read",
        "the file cannot be locked", "the journal beside the file is missing, or is no journal",
        "the journal beside the file is that of another file" };
    if (error >= 0 && error < (int)(sizeof refusals / sizeof *refusals)) return refusals[error];
    return error > 100 && error <= 108 ? own[error - 101] : "not an error of rstore";
}

uint64_t rstore_detail(rstore *db) { return !db ? refused_detail : db->refused ? db->detail : rstore_c_detail(db); }

/* ---- opening and closing */
/* Knows the path of the file, and that of its journal, which lies beside the file itself and not beside a link to it. */
static int name_files(rstore *db, const char *path) {
    db->real = realpath(path, NULL);
    if (!db->real) return errno == ENOMEM ? RSTORE_MEMORY : RSTORE_CANNOT_OPEN;
    size_t length = strlen(db->real);
    db->journal = malloc(length + sizeof "-journal");
    db->part = malloc(length + sizeof "-journal-part");
    if (db->journal) strcpy(strcpy(db->journal, db->real) + length, "-journal");
    if (db->part) strcpy(strcpy(db->part, db->real) + length, "-journal-part");
    return db->journal && db->part ? RSTORE_OK : RSTORE_MEMORY;
}

/* Opens the file, and of a reader the journal, without a lock, if there is one. */
static int open_files(rstore *db, const char *path, int flags) {
    static const int numbers[] = { RSTORE_OK, RSTORE_CANNOT_OPEN, RSTORE_BUSY, RSTORE_NO_LOCKS, RSTORE_MEMORY,
                                   RSTORE_CANNOT_OPEN };
    if (!path) return db->memory = true, RSTORE_OK;
    db->reads = flags == RSTORE_READ_ONLY;
    int how = db->reads ? O_RDONLY : O_RDWR | (flags == RSTORE_CREATE ? O_CREAT : 0);
    int error = open_file(path, how, db->reads ? WAITS : SHARED, how & O_CREAT, &db->fd[0], &db->alone);
    if (error) return numbers[error];
    error = name_files(db, path);
    if (error || !db->reads) return error;
    error = open_file(db->journal, O_RDONLY, NONE, false, &db->fd[1], NULL);
    if (!error) db->end = end_of_log(db->fd[1]);
    return error == MISSING ? RSTORE_OK : numbers[error];
}

/* Lets go of the files, with their locks, and of the handle. */
static int let_go(rstore *db) {
    int failed = 0;
    for (int side = 2; side >= 0; side--) {
        if (db->fd[side] >= 0 && close(db->fd[side])) failed = RSTORE_DEVICE;
        if (db->in[side].room) munmap(db->in[side].bytes, db->in[side].room);
    }
    free(db->real), free(db->journal), free(db->part), free(db->session), free(db);
    serving = NULL;
    return failed;
}

static rstore *new_handle(void) {
    rstore *db = calloc(1, sizeof *db);
    if (db) db->fd[0] = db->fd[1] = db->fd[2] = -1;
    return db;
}

/* The journal, and how many blocks it has. */
static int journal_of(rstore *db) { return db->fd[2] < 0 ? db->fd[1] : db->fd[2]; }
static uint64_t journal_blocks(rstore *db) {
    struct stat found;
    return journal_of(db) < 0 || fstat(journal_of(db), &found) ? 0 : (uint64_t)found.st_size / BLOCK;
}

/* Opens the store over the files, or hands out why not. */
static int open_store(rstore *db, int error, int flags, uint32_t cache, rstore **opened) {
    if (!error) error = DO(rstore_c_open((uint32_t)flags, cache ? cache : 1024, &db->session, &refused_detail));
    if (error) let_go(db);
    else *opened = db, db->cache = cache, db->begun_with = journal_blocks(db);
    return error;
}

/* Closes the store, and lets go of all. */
static int end(rstore *db) {
    serving = db;
    int error = (int)rstore_c_close(db), failed = let_go(db);
    return error ? error : failed;
}

/* Has the disk take what a reader shows and a writer may not have synced yet, so that no stop takes it back: the log, and
 * where that has no commit beside a journal the file. A file system that takes nothing has no more to lose. */
static int sync_shown(rstore *db) {
    int fd = db->fd[1] < 0 ? -1 : db->fd[db->end > LOG ? 1 : 0];
    bool done = fd < 0 || !fdatasync(fd) || errno == EINVAL || errno == EROFS;
    return done ? RSTORE_OK : RSTORE_DEVICE;
}

/* Opens the store to be only read. A writer may be making its journal anew: where that of the file is not found, both are
 * looked at again. */
static int open_reader(const char *path, uint32_t cache, rstore **opened) {
    for (int tries = 50;; tries--) {
        rstore *db = new_handle();
        if (!db) return RSTORE_MEMORY;
        db->cache = cache;
        int error = open_store(db, open_files(db, path, RSTORE_READ_ONLY), RSTORE_READ_ONLY, cache, opened);
        if (!error && (error = sync_shown(*opened))) end(*opened), *opened = NULL;
        bool anew = error == RSTORE_NO_JOURNAL || error == RSTORE_OTHER_JOURNAL || error == RSTORE_NOT_CLOSED;
        if (!anew || !tries) return error;
        wait_a_moment();
    }
}

int rstore_open(const char *path, int flags, uint32_t cache, rstore **opened) {
    refused_detail = 0;
    ASK(opened);
    *opened = NULL;
    ASK(path ? *path && flags >= RSTORE_EXISTING && flags <= RSTORE_READ_ONLY : flags == RSTORE_CREATE);
    if (flags == RSTORE_READ_ONLY) return open_reader(path, cache, opened);
    rstore *db = new_handle();
    if (!db) return RSTORE_MEMORY;
    return open_store(db, open_files(db, path, flags), flags, cache, opened);
}

int rstore_open_blocks(const rstore_blocks *blocks, void *context, int flags, uint32_t cache, rstore **opened) {
    refused_detail = 0;
    ASK(opened);
    *opened = NULL;
    ASK(blocks && blocks->count && blocks->read && blocks->write);
    ASK(flags == RSTORE_EXISTING || flags == RSTORE_CREATE);
    rstore *db = new_handle();
    if (!db) return RSTORE_MEMORY;
    db->memory = true; /* its journal */
    db->blocks = *blocks, db->context = context;
    return open_store(db, RSTORE_OK, flags | 4, cache, opened); /* each commit goes to the caller's blocks */
}

int rstore_close(rstore *db) {
    if (!db) return RSTORE_OK;
    bool failed_before = db->half;
    if (failed_before) rstore_rollback(db); /* what was kept last stays, and is closed */
    int error = end(db);
    return failed_before ? RSTORE_STORE_FAILED : error;
}

void rstore_abandon(rstore *db) {
    if (!db) return;
    db->abandoned = true;
    end(db);
}

/* Whether a reader has another table than it would find now: another file or journal lies there, the log goes on, or the
 * gate has got the mark of a journal that is not there. While a reader shares the lock, nothing else changes it. */
static bool is_newer(rstore *db) {
    unsigned char gate[GATE_BYTE + 1];
    if (!leads_to(db->real, db->fd[0])) return true;
    if (db->fd[1] >= 0) return !leads_to(db->journal, db->fd[1]) || is_committed(db->fd[1], db->end);
    int fd = open(db->journal, O_RDONLY | O_CLOEXEC | O_NOCTTY | O_NONBLOCK);
    bool newer = fd >= 0 ? is_committed(fd, LOG)
                         : pread(db->fd[0], gate, sizeof gate, 0) != sizeof gate || is_gate(gate, MARKED);
    if (fd >= 0) close(fd);
    return newer;
}

int rstore_refresh(rstore *db, int *changed) {
    ASK(db);
    bool newer = db->reads && is_newer(db);
    db->refused = false;
    if (newer) {
        rstore *made = NULL;
        refused_detail = 0;
        int error = open_reader(db->real, db->cache, &made);
        if (error) return db->refused = true, db->detail = refused_detail, error;
        rstore older = *db;
        *db = *made, *made = older;
        end(made);
    }
    if (changed) *changed = newer;
    return RSTORE_OK;
}

/* ---- a log beside readers that stay (docs/LIBRARY.md, "Readers beside a writer") */
/* Whether the log is to be written anew: it has grown to twice what it was, and more, and readers keep it from being copied
 * into the file. */
static bool has_outgrown(rstore *db) {
    off_t most = (off_t)(2 * db->begun_with + 4096) * BLOCK;
    if (db->memory || db->alone || (off_t)journal_blocks(db) * BLOCK <= most) return false;
    if (end_of_log(journal_of(db)) <= most) return false; /* what lies behind it is of a log that was copied home */
    if (take_lock(db, true)) return !db->abandoned;
    take_lock(db, false);
    return false;
}

/* A handle over the same files, with the locks that they have. */
static rstore *handle_beside(rstore *db) {
    rstore *made = new_handle();
    if (!made) return NULL;
    made->rolls = true, made->cache = db->cache, made->told = db->told;
    made->fd[0] = fcntl(db->fd[0], F_DUPFD_CLOEXEC, 3), made->fd[1] = fcntl(journal_of(db), F_DUPFD_CLOEXEC, 3);
    made->real = strdup(db->real), made->journal = strdup(db->journal), made->part = strdup(db->part);
    if (made->fd[0] >= 0 && made->fd[1] >= 0 && made->real && made->journal && made->part) return made;
    let_go(made);
    return NULL;
}

/* Opens the store anew, which writes the log anew with the newest slot of each block alone; who reads the older one goes on
 * with it. Where that is refused the handle goes on as it was, unless the older log has no name any more. */
static void roll_over(rstore *db) {
    uint64_t detail = refused_detail;
    rstore *made = handle_beside(db), *opened = NULL;
    int error = made ? open_store(made, RSTORE_OK, RSTORE_EXISTING, db->cache, &opened) : RSTORE_MEMORY;
    refused_detail = detail;
    if (error) {
        db->begun_with = journal_blocks(db); /* it is tried again once it has doubled */
        db->abandoned = !leads_to(db->journal, journal_of(db));
        return;
    }
    rstore older = *db;
    *db = *opened, *opened = older;
    db->rolls = false;
    opened->abandoned = true; /* all that it kept is in the log */
    end(opened);
}

int rstore_commit(rstore *db) {
    ASK(db);
    int error = DO(rstore_c_commit(db));
    if (!error && has_outgrown(db)) roll_over(db);
    return error;
}
int rstore_rollback(rstore *db) {
    ASK(db);
    db->half = false; /* what is half done was changed since */
    return DO(rstore_c_roll_back(db));
}
int rstore_check(rstore *db) CALL(db, rstore_c_check(db))

/* ---- layers and changes */
int rstore_create_layer(rstore *db, const char *layer, uint32_t axes, uint32_t fanout)
    CALL(db && NAMED(layer) && AXES(axes), rstore_c_create_layer(db, TEXT(layer), axes, fanout))
int rstore_drop_layer(rstore *db, const char *layer)
    CALL(db && NAMED(layer), rstore_c_drop_layer(db, TEXT(layer)))
int rstore_layers(rstore *db, rstore_layer **layers, size_t *count) {
    ASK(db && layers && count);
    size_t found = 0;
    rstore_layer *made = calloc(60, sizeof *made);
    int error = made ? DO(rstore_c_layers(db, made, 60, &found)) : RSTORE_MEMORY;
    if (error) { free(made); return error; }
    *layers = made;
    *count = found;
    return RSTORE_OK;
}
int rstore_insert(rstore *db, const char *layer, uint64_t id, const int32_t *box, uint32_t axes, uint32_t tag)
    CALL(db && NAMED(layer) && box && AXES(axes),
         rstore_c_insert(db, TEXT(layer), id, box, 2 * (size_t)axes, tag))
int rstore_move(rstore *db, const char *layer, uint64_t id, const int32_t *box, uint32_t axes)
    CALL(db && NAMED(layer) && box && AXES(axes), rstore_c_move(db, TEXT(layer), id, box, 2 * (size_t)axes))
int rstore_delete(rstore *db, const char *layer, uint64_t id)
    CALL(db && NAMED(layer), rstore_c_delete(db, TEXT(layer), id))
int rstore_put(rstore *db, const char *layer, uint64_t id, const int32_t *box, uint32_t axes, uint32_t tag) {
    rstore_row old = { .id = id };
    int32_t was[6];
    int error = rstore_insert(db, layer, id, box, axes, tag);
    if (error != RSTORE_DUPLICATE) return error;
    error = rstore_get(db, layer, id, &old);
    if (error || old.tag == tag) return error ? error : rstore_move(db, layer, id, box, axes);
    error = rstore_delete(db, layer, id);
    if (error) return error;
    error = rstore_insert(db, layer, id, box, axes, tag);
    if (!error || error == RSTORE_STORE_FAILED) return error;
    for (uint32_t k = 0; k < old.axes; k++) was[k] = old.low[k], was[old.axes + k] = old.high[k];
    if (!rstore_insert(db, layer, id, was, old.axes, old.tag)) return error;
    db->half = true; /* so that it is never kept */
    return RSTORE_STORE_FAILED;
}
static const rstore_row no_row; /* where an array of none is wanted */

int rstore_load(rstore *db, const char *layer, uint32_t axes, const rstore_row *rows, size_t count) {
    ASK(db && NAMED(layer) && AXES(axes) && (rows || count == 0) && count <= PTRDIFF_MAX / sizeof *rows);
    return DO(rstore_c_load(db, TEXT(layer), axes, rows ? rows : &no_row, count));
}

/* ---- questions */
int rstore_count(rstore *db, const char *layer, uint64_t *count)
    CALL(db && NAMED(layer) && count, rstore_c_count(db, TEXT(layer), count))
int rstore_get(rstore *db, const char *layer, uint64_t id, rstore_row *row)
    CALL(db && NAMED(layer) && row, rstore_c_get(db, TEXT(layer), id, row))
int rstore_last(rstore *db, const char *layer, uint64_t most, uint64_t *id, int *found) {
    ASK(db && NAMED(layer) && id && found);
    bool is_there = false;
    int error = DO(rstore_c_last(db, TEXT(layer), 2, most, id, &is_there));
    if (error == RSTORE_WRONG_DIMS) error = DO(rstore_c_last(db, TEXT(layer), 3, most, id, &is_there));
    if (!error) *found = is_there;
    return error;
}
/* A range query, of what is behind an identifier where one is given, or in any order, whose rows are then fetched. */
static int ask_one(rstore *db, const char *layer, int kind, const int32_t *numbers, uint32_t axes, const uint32_t *tag,
                   const uint64_t *after, bool ordered, size_t *found) {
    ASK(db && NAMED(layer) && numbers && AXES(axes) && kind >= RSTORE_WINDOW && kind <= RSTORE_POINT);
    size_t length = kind == RSTORE_POINT ? axes : 2 * (size_t)axes;
    uint32_t how = (uint32_t)kind, wanted = tag ? *tag : 0;
    *found = 0;
    if (after) return DO(rstore_c_range_after(db, TEXT(layer), how, numbers, length, tag, wanted, *after, found));
    if (!ordered) return DO(rstore_c_range_unordered(db, TEXT(layer), how, numbers, length, tag, wanted, found));
    return DO(rstore_c_range(db, TEXT(layer), how, numbers, length, tag, wanted, found));
}
/* The same with the first results fetched into the caller's room. */
#define INTO(out, fetch, after, ordered) { \
        size_t found; \
        ASK(count && (out || room == 0) && room <= PTRDIFF_MAX / sizeof *out); \
        int error = ask_one(db, layer, kind, numbers, axes, tag, after, ordered, &found); \
        if (error) return error; \
        if (room && found) fetch(db, 0, out, found < room ? found : room); \
        *count = found; \
        return RSTORE_OK; \
    }
int rstore_range_into(rstore *db, const char *layer, int kind, const int32_t *numbers, uint32_t axes,
                      const uint32_t *tag, rstore_row *rows, size_t room, size_t *count) INTO(rows, rstore_c_rows, NULL, true)
int rstore_range_unordered(rstore *db, const char *layer, int kind, const int32_t *numbers, uint32_t axes,
                           const uint32_t *tag, rstore_row *rows, size_t room, size_t *count)
    INTO(rows, rstore_c_rows, NULL, false)
int rstore_ids_into(rstore *db, const char *layer, int kind, const int32_t *numbers, uint32_t axes,
                    const uint32_t *tag, uint64_t *ids, size_t room, size_t *count) INTO(ids, rstore_c_ids, NULL, true)
int rstore_range_after(rstore *db, const char *layer, int kind, const int32_t *numbers, uint32_t axes, const uint32_t *tag,
                       const uint64_t *after, rstore_row *rows, size_t room, size_t *count) INTO(rows, rstore_c_rows, after, true)
size_t rstore_more(rstore *db, size_t from, rstore_row *rows, size_t room) {
    return db && rows && room && room <= PTRDIFF_MAX / sizeof *rows ? rstore_c_rows(db, from, rows, room) : 0;
}
size_t rstore_more_ids(rstore *db, size_t from, uint64_t *ids, size_t room) {
    return db && ids && room && room <= PTRDIFF_MAX / sizeof *ids ? rstore_c_ids(db, from, ids, room) : 0;
}

/* The rows that a question has left, as an array, which the proved code takes as memory that has a value. */
#define HAND_OUT(fetch) do { \
        void *made = found ? calloc(found, sizeof **rows) : NULL; \
        if (found && !made) return RSTORE_MEMORY; \
        if (found) fetch(db, 0, made, found); \
        *rows = made; \
        return *count = found, RSTORE_OK; \
    } while (0)

/* The four range queries. */
#define RANGE(name, kind) \
    int name(rstore *db, const char *layer, const int32_t *box, uint32_t axes, const uint32_t *tag, rstore_row **rows, \
             size_t *count) { \
        size_t found = 0; \
        ASK(rows && count); \
        int error = rstore_range_into(db, layer, kind, box, axes, tag, NULL, 0, &found); \
        if (error) return error; \
        HAND_OUT(rstore_c_rows); \
    }
RANGE(rstore_window, RSTORE_WINDOW)
RANGE(rstore_inside, RSTORE_INSIDE)
RANGE(rstore_around, RSTORE_AROUND)
RANGE(rstore_point, RSTORE_POINT)

int rstore_nearest(rstore *db, const char *layer, uint64_t k, const int32_t *point, uint32_t axes, rstore_near **rows,
                   size_t *count) {
    ASK(db && NAMED(layer) && point && AXES(axes) && rows && count);
    size_t found = 0;
    int error = DO(rstore_c_nearest(db, TEXT(layer), k, point, axes, &found));
    if (error) return error;
    HAND_OUT(rstore_c_near_rows);
}
/* Finds the distances of the rows, which are some of the near ones, in their order: they move to the front. */
static void pair_up(rstore_near *near, const rstore_row *rows, size_t count) {
    for (size_t k = 0, at = 0; k < count; k++, at++) {
        while (near[at].id != rows[k].id) at++;
        near[k] = near[at];
    }
}
/* Hands out the objects that were got, k of them at most, of so many near ones. */
static int near_rows(rstore *db, size_t asked, size_t found, rstore_near **near, rstore_row **rows, size_t *count) {
    rstore_near *distances = found ? calloc(asked, sizeof *distances) : NULL;
    rstore_row *objects = found ? calloc(found, sizeof *objects) : NULL;
    if (found && !(distances && objects)) return free(distances), free(objects), RSTORE_MEMORY;
    if (found) {
        rstore_c_near_rows(db, 0, distances, asked);
        rstore_c_rows(db, 0, objects, found);
        pair_up(distances, objects, found);
    }
    *near = distances, *rows = objects, *count = found;
    return RSTORE_OK;
}
int rstore_nearest_rows(rstore *db, const char *layer, uint64_t k, const int32_t *point, uint32_t axes,
                        const uint32_t *tag, rstore_near **near, rstore_row **rows, size_t *count) {
    enum { MOST = 1000000 };
    ASK(db && NAMED(layer) && point && AXES(axes) && near && rows && count);
    for (uint64_t asked = k;; asked = asked < MOST / 8 ? 8 * asked : MOST) {
        size_t there = 0, found = 0;
        int error = DO(rstore_c_nearest_rows(db, TEXT(layer), asked, point, axes, tag, tag ? *tag : 0, &there, &found));
        if (error) return error;
        if (found >= k || there < asked) return near_rows(db, there, found < k ? found : (size_t)k, near, rows, count);
        if (asked >= MOST) return RSTORE_BAD_COUNT;
    }
}
int rstore_join(rstore *db, const char *first, const char *second, uint64_t squared_distance, rstore_pair **rows,
                size_t *count) {
    ASK(db && NAMED(first) && NAMED(second) && rows && count);
    size_t found = 0;
    int error = DO(rstore_c_join(db, TEXT(first), TEXT(second), squared_distance, &found));
    if (error) return error;
    HAND_OUT(rstore_c_pair_rows);
}
int rstore_join_rows(rstore *db, const rstore_row *given, size_t given_count, uint32_t axes, const char *layer,
                     uint64_t squared_distance, rstore_pair **rows, size_t *count) {
    ASK(db && NAMED(layer) && AXES(axes) && (given || !given_count) && given_count <= PTRDIFF_MAX / sizeof *given);
    ASK(rows && count);
    size_t found = 0;
    int error = DO(rstore_c_join_rows(db, axes, given ? given : &no_row, given_count, TEXT(layer), squared_distance, &found));
    if (error) return error;
    HAND_OUT(rstore_c_pair_rows);
}

/* Whether the low corner of a box lies in the window. */
static bool begins_in(const int32_t *window, uint32_t axes, const rstore_row *row) {
    for (uint32_t axis = 0; axis < axes; axis++)
        if (row->low[axis] < window[axis] || row->low[axis] > window[axes + axis]) return false;
    return true;
}

/* The objects of a layer whose low corners lie in the window, in the order of its tree. */
static int rows_from(rstore *db, const char *layer, const int32_t *window, uint32_t axes, rstore_row **rows, size_t *count) {
    size_t found = 0, kept = 0;
    int error = rstore_range_unordered(db, layer, RSTORE_WINDOW, window, axes, NULL, NULL, 0, &found);
    rstore_row *made = !error && found ? calloc(found, sizeof *made) : NULL;
    if (error || (found && !made)) return error ? error : RSTORE_MEMORY;
    if (found) rstore_c_rows(db, 0, made, found);
    for (size_t k = 0; k < found; k++)
        if (begins_in(window, axes, &made[k])) made[kept++] = made[k];
    *rows = made, *count = kept;
    return RSTORE_OK;
}

int rstore_join_files(rstore *db, const char *first, rstore *other, const char *second, uint64_t squared_distance,
                      const int32_t *window, uint32_t axes, rstore_pair **rows, size_t *count, int *second_failed) {
    static const int32_t all[2][6] = { { INT32_MIN, INT32_MIN, INT32_MAX, INT32_MAX },
                                       { INT32_MIN, INT32_MIN, INT32_MIN, INT32_MAX, INT32_MAX, INT32_MAX } };
    rstore_row *given = NULL;
    size_t begun = 0;
    ASK(db && other && NAMED(first) && NAMED(second) && AXES(axes) && rows && count);
    if (second_failed) *second_failed = 0;
    int error = rows_from(db, first, window ? window : all[axes - 2], axes, &given, &begun);
    if (error) return error;
    error = rstore_join_rows(other, given, begun, axes, second, squared_distance, rows, count);
    if (second_failed) *second_failed = error != 0;
    free(given);
    return error;
}
int rstore_nodes(rstore *db, const char *layer, rstore_node **rows, size_t *count) {
    ASK(db && NAMED(layer) && rows && count);
    size_t found = 0;
    int error = DO(rstore_c_outline(db, TEXT(layer), &found));
    if (error) return error;
    HAND_OUT(rstore_c_nodes);
}
int rstore_id_pages(rstore *db, const char *layer, uint64_t *pages)
    CALL(db && NAMED(layer) && pages, rstore_c_id_pages(db, TEXT(layer), pages))

/* ---- many questions in one call */
/* An array that grows by doubling. */
struct array { void *at; size_t used, room, size; };

/* Makes room for `more` elements behind those used. */
static int make_room(struct array *a, size_t more) {
    size_t most = PTRDIFF_MAX / a->size, room = a->room ? a->room : 1024;
    if (a->room - a->used >= more) return RSTORE_OK;
    if (more > most - a->used) return RSTORE_MEMORY;
    while (room < a->used + more) room = room > most / 2 ? most : 2 * room;
    void *grown = realloc(a->at, room * a->size);
    if (!grown) return RSTORE_MEMORY;
    memset((char *)grown + a->room * a->size, 0, (room - a->room) * a->size); /* the proved code writes into values */
    a->at = grown;
    a->room = room;
    return RSTORE_OK;
}

/* Makes room for `each` elements of so many answers, a million at most, where memory is given for them: an array that grows
 * is copied and cleared anew. */
static void expect(struct array *a, size_t count, uint64_t each) {
    size_t most = (size_t)1 << 20, room = count && each >= most / count ? most : count * (size_t)each;
    a->at = room ? calloc(room, a->size) : NULL;
    a->room = a->at ? room : 0;
}

/* Hands out an array, cut to its length, or NULL where it has none; after an error frees it. */
static int hand_out(struct array *a, int error, void **out) {
    if (error || !a->used) { free(a->at); a->at = NULL; }
    else { void *cut = realloc(a->at, a->used * a->size); if (cut) a->at = cut; }
    if (!error) *out = a->at;
    return error;
}

/* What the questions of one call have in common: the layer, and how each is asked. */
struct asked { rstore *db; const char *layer; size_t named; int kind; const int32_t *numbers; size_t length; const uint32_t *tags; };

static bool is_range(const struct asked *a, uint32_t axes, size_t count) {
    return a->db && NAMED(a->layer) && AXES(axes) && a->kind >= RSTORE_WINDOW && a->kind <= RSTORE_POINT
        && (a->numbers || !count) && count <= PTRDIFF_MAX / (6 * sizeof(int32_t));
}

/* The range query at a place, whose rows are then fetched. */
static int ask_range(const struct asked *a, size_t q, size_t *found) {
    const uint32_t *tag = a->tags ? a->tags + q : NULL;
    rstore *db = a->db;
    *found = 0;
    return DO(rstore_c_range(db, (const uint8_t *)a->layer, a->named, (uint32_t)a->kind, a->numbers + q * a->length, a->length,
                             tag, tag ? *tag : 0, found));
}

#define ASKED { db, layer, NAMED(layer) ? strlen(layer) : 0, kind, numbers, kind == RSTORE_POINT ? axes : 2 * (size_t)axes, tags }

/* All of them: each by `ask`, its results fetched into the array. */
#define EACH(fetch, type) \
    for (size_t q = 0; q < count && !error; q++) { \
        size_t found; \
        error = ask_range(&asked, q, &found); \
        if (!error) error = make_room(&made, found); \
        if (error) { if (refused) *refused = q; break; } \
        if (found) fetch(db, 0, (type *)made.at + made.used, found); \
        offsets[q + 1] = made.used += found; \
    }

int rstore_windows(rstore *db, const char *layer, int kind, const int32_t *numbers, uint32_t axes, size_t count,
                   const uint32_t *tags, uint64_t **ids, size_t *offsets, size_t *refused) {
    struct asked asked = ASKED;
    struct array made = { NULL, 0, 0, sizeof **ids };
    int error = RSTORE_OK;
    ASK(is_range(&asked, axes, count) && ids && offsets);
    offsets[0] = 0;
    EACH(rstore_c_ids, uint64_t)
    return hand_out(&made, error, (void **)ids);
}
int rstore_windows_rows(rstore *db, const char *layer, int kind, const int32_t *numbers, uint32_t axes, size_t count,
                        const uint32_t *tags, rstore_row **rows, size_t *offsets, size_t *refused) {
    struct asked asked = ASKED;
    struct array made = { NULL, 0, 0, sizeof **rows };
    int error = RSTORE_OK;
    ASK(is_range(&asked, axes, count) && rows && offsets);
    offsets[0] = 0;
    EACH(rstore_c_rows, rstore_row)
    return hand_out(&made, error, (void **)rows);
}
int rstore_counts(rstore *db, const char *layer, int kind, const int32_t *numbers, uint32_t axes, size_t count,
                  const uint32_t *tags, size_t *counts, size_t *refused) {
    struct asked asked = ASKED;
    ASK(is_range(&asked, axes, count) && (counts || !count));
    for (size_t q = 0; q < count; q++) {
        int error = ask_range(&asked, q, counts + q);
        if (error) { if (refused) *refused = q; return error; }
    }
    return RSTORE_OK;
}
int rstore_nearest_many(rstore *db, const char *layer, uint64_t k, const int32_t *points, uint32_t axes, size_t count,
                        rstore_near **rows, size_t *offsets, size_t *refused) {
    struct array made = { NULL, 0, 0, sizeof **rows };
    int error = RSTORE_OK;
    ASK(db && NAMED(layer) && AXES(axes) && (points || !count) && count <= PTRDIFF_MAX / (3 * sizeof *points) && rows && offsets);
    size_t named = strlen(layer);
    expect(&made, count, k);
    offsets[0] = 0;
    for (size_t q = 0; q < count; q++) {
        size_t found = 0;
        error = DO(rstore_c_nearest(db, (const uint8_t *)layer, named, k, points + q * axes, axes, &found));
        if (!error) error = make_room(&made, found);
        if (error) { if (refused) *refused = q; break; }
        if (found) rstore_c_near_rows(db, 0, (rstore_near *)made.at + made.used, found);
        offsets[q + 1] = made.used += found;
    }
    return hand_out(&made, error, (void **)rows);
}
int rstore_get_many(rstore *db, const char *layer, const uint64_t *ids, size_t count, rstore_row *rows, size_t *refused) {
    ASK(db && NAMED(layer) && ((ids && rows) || !count));
    size_t named = strlen(layer);
    for (size_t q = 0; q < count; q++) {
        int error = DO(rstore_c_get(db, (const uint8_t *)layer, named, ids[q], rows + q));
        if (error == RSTORE_NO_OBJECT) rows[q] = (rstore_row){ .id = ids[q] };
        else if (error) { if (refused) *refused = q; return error; }
    }
    return RSTORE_OK;
}
void rstore_free(void *rows) { free(rows); }
