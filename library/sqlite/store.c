/* store.c - the store of a table, whose blocks lie in a shadow table, and the transactions of all.
 *
 * The pages that a transaction changes go to the shadow table in xSync and xSavepoint, so that SQLite's rollbacks, also
 * those to a savepoint, take them back; the store is then opened anew. It is kept open from one transaction to the
 * next, as long as no other connection has changed the database. Of a store in a file files.c tells.
 */
#include "module.h"

#include <limits.h>
SQLITE_EXTENSION_INIT3

#define MOST_BLOCKS 0x7fffffff

/* ---- errors */
/* What a file answers of itself, and a shadow table never. */
static int code_of_file(int error) {
    switch (error) {
    case RSTORE_BUSY: return SQLITE_BUSY;
    case RSTORE_CANNOT_OPEN: case RSTORE_NO_LOCKS: return SQLITE_CANTOPEN;
    case RSTORE_NOT_A_STORE: case RSTORE_WRONG_VERSION: return SQLITE_NOTADB;
    case RSTORE_NOT_CLOSED: return SQLITE_READONLY_RECOVERY;
    case RSTORE_NO_LAYER: case RSTORE_WRONG_DIMS: return SQLITE_ERROR;
    default: return SQLITE_OK;
    }
}

static int code_of(const Table *t, int error) {
    if (t->path && code_of_file(error)) return code_of_file(error);
    switch (error) {
    case RSTORE_OK: return SQLITE_OK;
    case RSTORE_DUPLICATE:
    case RSTORE_DUPLICATE_IN_LOAD:
    case RSTORE_NOT_EMPTY:
    case RSTORE_BAD_BOX: return SQLITE_CONSTRAINT;
    case RSTORE_TOO_MANY_OBJECTS: case RSTORE_NO_PAGES: return SQLITE_FULL;
    case RSTORE_MEMORY: return SQLITE_NOMEM;
    case RSTORE_DEVICE: case RSTORE_STORE_FAILED: case RSTORE_CANNOT_OPEN: return SQLITE_IOERR;
    case RSTORE_DAMAGED:
    case RSTORE_NOT_A_STORE:
    case RSTORE_WRONG_VERSION:
    case RSTORE_NOT_CLOSED:
    case RSTORE_NO_JOURNAL:
    case RSTORE_OTHER_JOURNAL: case RSTORE_NO_LAYER: case RSTORE_WRONG_DIMS: return SQLITE_CORRUPT_VTAB;
    default: return SQLITE_ERROR;
    }
}

int fail(void *v, int code, const char *format, ...) {
    sqlite3_vtab *table = v;
    va_list more;
    va_start(more, format);
    sqlite3_free(table->zErrMsg);
    table->zErrMsg = sqlite3_vmprintf(format, more);
    va_end(more);
    return code;
}

/* Refuses all until what was half done is rolled back, as a trigger may have done already. */
void break_off(Table *t, int savepoint) {
    if (!t->store->begun) return;
    if (!t->store->broken) t->store->broken_at = t->path ? -1 : savepoint; /* of a file by a whole rollback alone */
    t->store->broken = true;
}

/* What a store that failed leaves: of a transaction that has changed it nothing may be kept. */
static void give_up(Table *t) {
    if (t->store->begun && (t->store->dirty || t->store->flushed || t->path)) break_off(t, INT_MAX);
    else forget(t);
}

/* Tells once that a file may not have kept a transaction which SQLite has. */
static int tell_refused(Table *t) {
    int error = t->store->refused;
    t->store->refused = RSTORE_OK;
    return fail(t, SQLITE_IOERR, "%s: its last commit was refused, and what was changed may be missing: %s", t->path,
                rstore_errstr(error));
}

/* An error of the library, as SQLite has it: that of a block is SQLite's own. */
int tell(Table *t, int error) {
    if (!error) return SQLITE_OK;
    if (error == COMMIT_REFUSED) return tell_refused(t);
    int code = code_of(t, error);
    bool of_block = error == RSTORE_DEVICE || error == RSTORE_STORE_FAILED || error == RSTORE_CANNOT_OPEN;
    unsigned long long detail = rstore_detail(t->store->db);
    if (error == RSTORE_STORE_FAILED) give_up(t);
    if (of_block && t->code) code = t->code;
    if (error == RSTORE_STORE_FAILED && detail == RSTORE_DAMAGED) code = SQLITE_CORRUPT_VTAB;
    if (error == RSTORE_DAMAGED) return fail(t, code, "%s: page %llu is damaged", t->name, detail);
    if (error == RSTORE_DUPLICATE_IN_LOAD)
        return fail(t, code, "%s.id: %lld stands twice in the load", t->name, detail);
    if (t->path)
        return fail(t, code, "%s%s: %s", error == RSTORE_BUSY ? "database is locked: " : "", t->path,
                    rstore_errstr(error));
    if (code == SQLITE_CORRUPT_VTAB)
        return fail(t, code, "%s: its blocks are damaged: %s", t->name, rstore_errstr(error));
    return fail(t, code, "%s: %s", t->name, of_block && t->code ? sqlite3_errstr(t->code) : rstore_errstr(error));
}

/* ---- statements of the shadow tables */
static char *text_of(Table *t, int which) {
    char *marks = NULL, *made = NULL;
    switch (which) {
    case READ: return sqlite3_mprintf("SELECT block FROM \"%w\".\"%w_blocks\" WHERE no = ?", t->schema, t->name);
    case WRITE: return sqlite3_mprintf("REPLACE INTO \"%w\".\"%w_blocks\"(no, block) VALUES(?, ?)", t->schema, t->name);
    case COUNT: return sqlite3_mprintf("SELECT max(no) FROM \"%w\".\"%w_blocks\"", t->schema, t->name);
    case VERSION: return sqlite3_mprintf("PRAGMA \"%w\".data_version", t->schema);
    case ROOM_FOR: return sqlite3_mprintf("PRAGMA \"%w\".cache_size", t->schema);
    case HOLD: return sqlite3_mprintf("SELECT no FROM \"%w\".\"%w_blocks\"", t->schema, t->name);
    case GET_MORE: return sqlite3_mprintf("SELECT * FROM \"%w\".\"%w_aux\" WHERE id = ?", t->schema, t->name);
    case DROP_MORE: return sqlite3_mprintf("DELETE FROM \"%w\".\"%w_aux\" WHERE id = ?", t->schema, t->name);
    default:
        marks = sqlite3_mprintf("%*s", 2 * t->more, "");
        for (int k = 0; marks && k < t->more; k++) memcpy(marks + 2 * k, ",?", 2);
        if (marks) made = sqlite3_mprintf("REPLACE INTO \"%w\".\"%w_aux\" VALUES(?%s)", t->schema, t->name, marks);
        sqlite3_free(marks);
        return made;
    }
}

/* A statement, ready for its values; NULL where it is refused, which is noted. */
static sqlite3_stmt *statement(Table *t, int which) {
    sqlite3_stmt **s = &t->statements[which];
    if (*s) return *s;
    char *text = text_of(t, which);
    int code =
        text ? sqlite3_prepare_v3(t->connection->sql, text, -1, SQLITE_PREPARE_PERSISTENT, s, NULL) : SQLITE_NOMEM;
    sqlite3_free(text);
    if (code) t->code = code == SQLITE_ERROR ? SQLITE_CORRUPT_VTAB : code; /* the shadow table is missing */
    return *s;
}

/* Ends a statement, of which one more step answered this. */
static int ended(Table *t, sqlite3_stmt *s, int code) {
    sqlite3_reset(s);
    return code == SQLITE_ROW || code == SQLITE_DONE ? SQLITE_OK : (t->code = code);
}

static int run(Table *t, sqlite3_stmt *s) {
    if (!s) return t->code;
    int code = sqlite3_step(s);
    return ended(t, s, code);
}

int run_sql(Table *t, const char *format, ...) {
    va_list more;
    va_start(more, format);
    char *text = sqlite3_vmprintf(format, more);
    va_end(more);
    int code = text ? sqlite3_exec(t->connection->sql, text, NULL, NULL, NULL) : SQLITE_NOMEM;
    sqlite3_free(text);
    return code;
}

/* Has the table stay as it is read until let_go. */
int hold(Table *t) {
    t->store->readers++;
    if (t->path) return SQLITE_OK;
    sqlite3_stmt *s = statement(t, HOLD);
    int code = s ? sqlite3_step(s) : t->code;
    return code == SQLITE_ROW || code == SQLITE_DONE ? SQLITE_OK : code;
}

void let_go(Table *t) {
    t->store->readers--;
    sqlite3_reset(t->statements[HOLD]);
    rest(t);
}

static void finalize(Table *t) {
    for (int k = 0; k < STATEMENTS; k++) sqlite3_finalize(t->statements[k]), t->statements[k] = NULL;
}

/* ---- blocks */
/* A trigger of the shadow table may come back to its table from within, where the store may not be called. */
static int step_within(Table *t, sqlite3_stmt *s) {
    t->inside = true;
    int code = sqlite3_step(s);
    t->inside = false;
    return t->doomed ? SQLITE_ABORT : code;
}

static int count_blocks(void *context, uint64_t *count) {
    Table *t = context;
    sqlite3_stmt *s = statement(t, COUNT);
    if (!s) return t->code;
    int code = step_within(t, s);
    sqlite3_int64 last =
        code == SQLITE_ROW && sqlite3_column_type(s, 0) != SQLITE_NULL ? sqlite3_column_int64(s, 0) : -1;
    *count = last < 0 ? 0 : (uint64_t)last + 1;
    code = ended(t, s, code);
    return !code && last >= MOST_BLOCKS ? t->code = SQLITE_CORRUPT_VTAB : code;
}

/* Closes what is read from, where no cursor is open. */
void close_blob(Table *t) {
    if (t->store->readers) return;
    sqlite3_blob_close(t->blob);
    t->blob = NULL, t->read = 0;
}

/* Reads a block by a blob, which goes from one row to the next in less time than a statement; a few are not worth opening
 * it. Whether it could: where it could not, the statement tells why. */
static bool read_by_blob(Table *t, sqlite3_int64 block, void *bytes, size_t *count) {
    enum { FEW = 4 };
    if (!t->store->readers || ++t->read <= FEW) return false;
    char *blocks = NULL;
    if (!t->blob && !(blocks = sqlite3_mprintf("%s_blocks", t->name))) return false;
    int code = t->blob ? sqlite3_blob_reopen(t->blob, block)
                       : sqlite3_blob_open(t->connection->sql, t->schema, blocks, "block", block, 0, &t->blob);
    sqlite3_free(blocks);
    int there = code ? 0 : sqlite3_blob_bytes(t->blob);
    *count = there < 4096 ? (size_t)there : 4096;
    if (!code && !sqlite3_blob_read(t->blob, bytes, (int)*count, 0)) return true;
    sqlite3_blob_close(t->blob);
    return t->blob = NULL, false;
}

static int read_by_statement(Table *t, sqlite3_int64 block, void *bytes, size_t *count) {
    sqlite3_stmt *s = statement(t, READ);
    if (!s) return t->code;
    sqlite3_bind_int64(s, 1, block);
    int code = step_within(t, s);
    const void *from = code == SQLITE_ROW ? sqlite3_column_blob(s, 0) : NULL;
    size_t there = from ? (size_t)sqlite3_column_bytes(s, 0) : 0;
    if (code == SQLITE_ROW && !from && sqlite3_errcode(t->connection->sql) == SQLITE_NOMEM) code = SQLITE_NOMEM;
    *count = there < 4096 ? there : 4096;
    if (*count) memcpy(bytes, from, *count);
    return ended(t, s, code);
}

/* What is missing of a block reads as zeros, as in a file. */
static int read_block(void *context, uint64_t block, void *bytes) {
    Table *t = context;
    size_t count = 0;
    int code = SQLITE_OK;
    if (take_held(t->held, block, bytes)) return SQLITE_OK;
    if (!read_by_blob(t, (sqlite3_int64)block, bytes, &count))
        code = read_by_statement(t, (sqlite3_int64)block, bytes, &count);
    if (!code) hold_block(t, block, bytes, count);
    memset((char *)bytes + count, 0, 4096 - count);
    return code;
}

/* Zeros at the end are left out: so most blocks lie in one page of SQLite's, of which a row of 4096 bytes takes two. */
static int write_block(void *context, uint64_t block, const void *bytes) {
    Table *t = context;
    sqlite3_stmt *s = statement(t, WRITE);
    int size = 4096;
    if (!s) return t->code;
    while (size && !((const char *)bytes)[size - 1]) size--;
    sqlite3_bind_int64(s, 1, (sqlite3_int64)block);
    sqlite3_bind_blob(s, 2, bytes, size, SQLITE_STATIC);
    sqlite3_int64 last = sqlite3_last_insert_rowid(t->connection->sql); /* which is that of the user's row */
    int code = ended(t, s, step_within(t, s));
    sqlite3_set_last_insert_rowid(t->connection->sql, last);
    sqlite3_bind_null(s, 2);
    if (!code) hold_block(t, block, bytes, (size_t)size);
    return code;
}

static const rstore_blocks blocks = { .count = count_blocks, .read = read_block, .write = write_block };

/* ---- the store */
static int version(Table *t, sqlite3_int64 *others) {
    sqlite3_stmt *s = statement(t, VERSION);
    if (!s) return t->code;
    int code = sqlite3_step(s);
    if (code == SQLITE_ROW) *others = sqlite3_column_int64(s, 0);
    return ended(t, s, code);
}

/* Whether another connection has changed the database. */
static bool is_stale(Table *t) {
    unsigned seen = 0;
    sqlite3_int64 others = 0;
    int code = sqlite3_file_control(t->connection->sql, t->schema, SQLITE_FCNTL_DATA_VERSION, &seen);
    if (!code && seen == t->seen) return false;
    if (version(t, &others)) return true;
    t->seen = seen;
    return others != t->others;
}

/* Gives the store up, with what was changed since the last flush; but no file that others read, or that is written. */
void forget(Table *t) {
    t->doomed = t->inside;
    if (t->inside || (t->path && (t->store->begun || t->store->readers > 1))) return;
    drop_handle(t->store);
    drop_held(t);
    t->store->dirty = false;
}

/* How many blocks are held: as many as pages of SQLite's, which it may say in kilobytes. */
static int room_for(Table *t) {
    sqlite3_stmt *s = statement(t, ROOM_FOR);
    if (!s) return t->code;
    int code = sqlite3_step(s);
    sqlite3_int64 size = code == SQLITE_ROW ? sqlite3_column_int64(s, 0) : 0;
    t->most_held = size < 0 ? -size / 4 : size;
    return ended(t, s, code);
}

static int open_store(Table *t, int how) {
    forget(t);
    sqlite3_file_control(t->connection->sql, t->schema, SQLITE_FCNTL_DATA_VERSION, &t->seen);
    if (version(t, &t->others) || room_for(t)) return RSTORE_CANNOT_OPEN;
    return rstore_open_blocks(&blocks, t, how, t->cache, &t->store->db);
}

/* Has the store open, as the database has it. */
int need(Table *t) {
    t->code = SQLITE_OK;
    if (t->path) return need_file(t);
    if (t->inside) return t->code = SQLITE_LOCKED, RSTORE_DEVICE;
    if (t->doomed) forget(t);
    if (t->store->broken) return RSTORE_STORE_FAILED;
    if (t->store->db && (t->store->begun || !is_stale(t))) return RSTORE_OK;
    return open_store(t, RSTORE_EXISTING);
}

/* The same for a statement that has had it open before, so that no other connection has changed it. */
int need_still(Table *t, bool again) {
    bool is_open = again && t->store->db && !t->store->broken && !t->inside && !t->doomed;
    return is_open ? t->code = SQLITE_OK, RSTORE_OK : need(t);
}

/* Writes what was changed into the shadow table. */
int flush(Table *t) {
    if (t->path) return SQLITE_OK;
    if (t->inside) return fail(t, SQLITE_LOCKED, "%s: its store is being written", t->name);
    if (!t->store->dirty) return SQLITE_OK;
    t->code = SQLITE_OK, t->store->flushed = true;
    int error = rstore_commit(t->store->db);
    if (!error) t->store->dirty = false;
    return tell(t, error);
}

/* The shadow tables of a new table, with an empty store. */
int make_shadows(Table *t) {
    int code = run_sql(t, "CREATE TABLE \"%w\".\"%w_blocks\"(no INTEGER PRIMARY KEY, block BLOB)", t->schema, t->name);
    sqlite3_str *columns = sqlite3_str_new(t->connection->sql);
    for (int k = 0; k < t->more; k++) sqlite3_str_appendf(columns, ", a%d", k);
    char *list = sqlite3_str_finish(columns);
    if (!code && t->more)
        code = run_sql(t, "CREATE TABLE \"%w\".\"%w_aux\"(id INTEGER PRIMARY KEY%s)", t->schema, t->name,
                       list ? list : "");
    sqlite3_free(list);
    if (code) return fail(t, code, "%s", sqlite3_errmsg(t->connection->sql));
    int error = open_store(t, RSTORE_CREATE);
    if (!error) error = rstore_create_layer(t->store->db, t->layer, t->axes, t->fanout);
    if (error) return tell(t, error);
    t->store->dirty = t->store->begun = true; /* SQLite ends the transaction, though it calls no xBegin after xCreate */
    return flush(t);
}

/* Lets go of all. */
void finish(Table *t) {
    if (!t->path) forget(t);
    finalize(t);
}

#define EVERYWHERE { INT32_MIN, INT32_MIN, INT32_MIN, INT32_MAX, INT32_MAX, INT32_MAX }
const int32_t everywhere[2][6] = { { INT32_MIN, INT32_MIN, INT32_MAX, INT32_MAX }, EVERYWHERE };

/* The identifier behind the greatest one; those from 2^63 on are SQL's negative ones. */
int next_id(Table *t, sqlite3_int64 *id) {
    if (!t->knows_last) {
        uint64_t last = 0;
        int found = 0, error = rstore_last(t->store->db, t->layer, INT64_MAX, &last, &found);
        if (!error && !found) error = rstore_last(t->store->db, t->layer, UINT64_MAX, &last, &found);
        if (error) return error;
        t->last = (sqlite3_int64)last, t->knows_last = true;
    }
    if (t->last == INT64_MAX) return RSTORE_TOO_MANY_OBJECTS;
    return *id = t->last + 1, RSTORE_OK;
}

/* ---- auxiliary columns */
int get_more(Table *t, sqlite3_int64 id, int number, sqlite3_context *to) {
    sqlite3_stmt *s = statement(t, GET_MORE);
    if (!s) return t->code;
    sqlite3_bind_int64(s, 1, id);
    int code = sqlite3_step(s);
    if (code == SQLITE_ROW) sqlite3_result_value(to, sqlite3_column_value(s, number + 1));
    return ended(t, s, code);
}

int put_more(Table *t, sqlite3_int64 id, sqlite3_value **values) {
    if (!t->more) return SQLITE_OK;
    sqlite3_stmt *s = statement(t, PUT_MORE);
    if (!s) return t->code;
    sqlite3_bind_int64(s, 1, id);
    for (int k = 0; k < t->more; k++) sqlite3_bind_value(s, k + 2, values[k]);
    int code = run(t, s);
    sqlite3_clear_bindings(s);
    return code;
}

int drop_more(Table *t, sqlite3_int64 id) {
    if (!t->more) return SQLITE_OK;
    sqlite3_stmt *s = statement(t, DROP_MORE);
    if (s) sqlite3_bind_int64(s, 1, id);
    return run(t, s);
}

/* ---- transactions */
int begin(sqlite3_vtab *v) {
    Table *t = (Table *)v;
    int error = t->path ? begin_file(t) : need(t);
    if (!t->path) t->store->begun = !error;
    return tell(t, error);
}

int keep(sqlite3_vtab *v) { /* xSync */
    Table *t = (Table *)v;
    if (t->store->broken)
        return fail(t, SQLITE_IOERR, "%s: a change was half done, and is to be rolled back", t->name);
    return flush(t);
}

int end(sqlite3_vtab *v) { /* xCommit */
    Table *t = (Table *)v;
    t->fresh = false;
    if (t->path) end_file(t->store, true);
    else t->store->begun = t->store->flushed = false;
    return SQLITE_OK;
}

/* Gives up what was changed in a shadow table, which SQLite takes back. */
static void forget_changes(Table *t) {
    if (t->store->dirty || t->store->flushed || t->store->broken) forget(t);
}

int roll_back(sqlite3_vtab *v) {
    Table *t = (Table *)v;
    t->fresh = false;
    if (t->path) return end_file(t->store, false), SQLITE_OK;
    forget_changes(t);
    t->store->begun = t->store->flushed = t->store->broken = false;
    return SQLITE_OK;
}

int mark(sqlite3_vtab *v, int savepoint) {
    Table *t = (Table *)v;
    if (t->path) return tell(t, mark_file(t->store, savepoint));
    int code = t->store->broken ? SQLITE_OK : flush(t);
    if (code) break_off(t, savepoint);
    return code;
}

int unmark(sqlite3_vtab *v, int savepoint) {
    Table *t = (Table *)v;
    if (t->path) unmark_file(t->store, savepoint);
    return SQLITE_OK;
}

int roll_back_to(sqlite3_vtab *v, int savepoint) {
    Table *t = (Table *)v;
    int error = t->path ? undo_to(t->store, savepoint) : RSTORE_OK;
    if (error) break_off(t, savepoint);
    if (t->path) return tell(t, error);
    forget_changes(t);
    if (savepoint < t->store->broken_at) t->store->broken = false;
    return SQLITE_OK;
}
