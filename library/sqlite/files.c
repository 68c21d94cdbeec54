/* files.c - tables over a file. Those of a connection share its store, which is open to be read while a statement reads
 * it, and to be written from the first statement of a transaction that may change it to the end of the transaction: its
 * changes are kept in xCommit, or given up by rstore_rollback. As long as there is a savepoint each change leaves what
 * undoes it in a log, which a rollback to the savepoint goes back over.
 */
#define _GNU_SOURCE
#include "module.h"

SQLITE_EXTENSION_INIT3

#define PAUSE 5 /* milliseconds between two tries to open a file that is in use */

typedef struct Undo {
    Table *table;
    enum { WAS, WAS_NOT, WAS_EMPTY } how; /* the object was so; there was none; the layer had none */
    rstore_row row;
} Undo;

/* ---- stores of tables */
/* Has the table its store: that of its file, by whatever name, or one of its own. */
bool have_store(Table *t) {
    Connection *c = t->connection;
    char *real = t->path ? realpath(t->path, NULL) : NULL;
    const char *path = real ? real : t->path;
    Store *s = path ? c->files : NULL;
    while (s && strcmp(s->path, path)) s = s->next;
    if (!s && (s = calloc(1, sizeof *s))) {
        s->connection = c, s->path = path ? sqlite3_mprintf("%s", path) : NULL;
        if (path && !s->path) free(s), s = NULL;
        else if (path) s->next = c->files, c->files = s;
    }
    free(real);
    if (s) s->users++;
    return (t->store = s);
}

/* Lets go of what is held of a store, of its tables also. */
void drop_handle(Store *s) {
    rstore_abandon(s->db);
    s->db = NULL;
    for (Table *t = s->connection->tables; t; t = t->next)
        if (t->store == s) t->knows_last = false;
}

void leave_store(Table *t) {
    Store *s = t->store;
    t->store = NULL;
    if (!s || --s->users) return;
    for (Store **at = &s->connection->files; *at; at = &(*at)->next)
        if (*at == s) { *at = s->next; break; }
    if (s->path) end_file(s, false);
    drop_handle(s);
    sqlite3_free(s->path), free(s);
}

/* ---- opening */
/* How long SQLite waits for what is locked, in milliseconds. */
static int patience(Connection *c) {
    sqlite3_stmt *s = NULL;
    int found = sqlite3_prepare_v2(c->sql, "PRAGMA busy_timeout", -1, &s, NULL);
    int time = !found && sqlite3_step(s) == SQLITE_ROW ? sqlite3_column_int(s, 0) : 0;
    sqlite3_finalize(s);
    return time;
}

/* Looks for the table's layer, which has as many axes, and so many rows. */
int find_layer(Table *t) {
    rstore_layer *layers = NULL;
    size_t count = 0, k = 0;
    int error = rstore_layers(t->store->db, &layers, &count);
    while (k < count && strcmp(layers[k].name, t->layer)) k++;
    if (!error && k == count) error = RSTORE_NO_LAYER;
    if (!error && layers[k].axes != t->axes) error = RSTORE_WRONG_DIMS;
    if (!error) t->rows = layers[k].count, t->fanout = layers[k].fanout;
    rstore_free(layers);
    return error;
}

/* Opens the file as is said, where it has the layer. One that is open to be read is closed before. */
static int open_file(Table *t, int how) {
    Store *s = t->store;
    drop_handle(s);
    int error = rstore_open(s->path, how, t->cache, &s->db);
    int left = error == RSTORE_BUSY ? patience(t->connection) : 0;
    for (; error == RSTORE_BUSY && left > 0; left -= PAUSE) {
        sqlite3_sleep(PAUSE);
        error = rstore_open(s->path, how, t->cache, &s->db);
    }
    if (!error) error = find_layer(t);
    if (error && s->db && how != RSTORE_READ_ONLY) rstore_close(s->db), s->db = NULL; /* as it was */
    if (error) drop_handle(s);
    return error;
}

/* Has the file open, to be read where it is not open. */
int need_file(Table *t) {
    Store *s = t->store;
    if (s->refused) return COMMIT_REFUSED;
    if (s->broken) return RSTORE_STORE_FAILED;
    return s->db ? RSTORE_OK : open_file(t, RSTORE_READ_ONLY);
}

/* Lets go of a file that no statement reads. */
void rest(Table *t) {
    Store *s = t->store;
    close_blob(t);
    if (s->path && !s->readers && !s->begun) drop_handle(s);
}

/* ---- savepoints */
/* The array with room for one more; or NULL, and it stays. */
static void *grown(void *array, size_t used, size_t *room, size_t size) {
    size_t more = used < *room ? *room : *room ? 2 * *room : 64;
    void *made = used < *room ? array : realloc(array, more * size);
    if (made) *room = more;
    return made;
}

/* Has the log what undoes a change, where a savepoint may ask for it. */
static int keep_undo(Table *t, Undo undo) {
    Store *s = t->store;
    Undo *log = grown(s->log, s->logged, &s->room, sizeof undo);
    if (!log) return RSTORE_MEMORY;
    s->log = log, s->log[s->logged++] = undo;
    return RSTORE_OK;
}

/* Before each change of an object. */
int note(Table *t, uint64_t id) {
    Undo undo = { .table = t, .how = WAS };
    if (!t->store->marked) return RSTORE_OK;
    int error = rstore_get(t->store->db, t->layer, id, &undo.row);
    if (error == RSTORE_NO_OBJECT) undo.how = WAS_NOT, undo.row.id = id, error = RSTORE_OK;
    return error ? error : keep_undo(t, undo);
}

/* Before the load of an empty layer. */
int note_load(Table *t) {
    if (!t->store->marked) return RSTORE_OK;
    int error = find_layer(t); /* which knows its fanout */
    return error ? error : keep_undo(t, (Undo){ .table = t, .how = WAS_EMPTY });
}

static int undo_one(const Undo *u) {
    Table *t = u->table;
    rstore *db = t->store->db;
    int32_t box[6];
    int error = RSTORE_OK;
    if (u->how == WAS) return rstore_put(db, t->layer, u->row.id, box_of(t, &u->row, box), t->axes, u->row.tag);
    if (u->how == WAS_NOT) error = rstore_delete(db, t->layer, u->row.id);
    if (u->how == WAS_NOT) return error == RSTORE_NO_OBJECT ? RSTORE_OK : error; /* the change was refused */
    error = rstore_drop_layer(db, t->layer);
    return error ? error : rstore_create_layer(db, t->layer, t->axes, t->fanout);
}

/* A savepoint of this number; one that is there stays, where another table has told of it. */
int mark_file(Store *s, int savepoint) {
    while (s->begun && s->marked <= (size_t)savepoint) {
        size_t *marks = grown(s->marks, s->marked, &s->places, sizeof *marks);
        if (!marks) return RSTORE_MEMORY;
        s->marks = marks, s->marks[s->marked++] = s->logged;
    }
    return RSTORE_OK;
}

void unmark_file(Store *s, int savepoint) {
    if (s->marked > (size_t)savepoint) s->marked = (size_t)savepoint;
    if (!s->marked) s->logged = 0;
}

/* Undoes what was changed since the savepoint; below 0 is the one that began the transaction. */
int undo_to(Store *s, int savepoint) {
    int error = RSTORE_OK;
    bool all = savepoint < 0;
    if (!s->begun || (!all && (s->broken || s->marked <= (size_t)savepoint))) return error;
    for (Table *t = s->connection->tables; t; t = t->next)
        if (t->store == s) t->knows_last = false;
    if (all) s->marked = s->logged = 0, s->broken = false;
    if (all) return rstore_rollback(s->db);
    s->marked = (size_t)savepoint + 1;
    for (; s->logged > s->marks[savepoint] && !error; s->logged -= !error) error = undo_one(&s->log[s->logged - 1]);
    return error;
}

/* ---- transactions */
/* Has the file open to be written, and none else, to the end of the transaction. */
int begin_file(Table *t) {
    Store *s = t->store;
    if (s->refused) return COMMIT_REFUSED;
    if (s->begun) return s->broken ? RSTORE_STORE_FAILED : RSTORE_OK;
    int error = open_file(t, RSTORE_EXISTING);
    s->begun = !error;
    return error;
}

/* Ends the transaction, with its changes kept or given up. SQLite takes no error of a commit any more: the next
 * statement tells it. */
void end_file(Store *s, bool keeps) {
    if (!s->begun) return;
    int error = keeps && s->dirty ? rstore_commit(s->db) : RSTORE_OK;
    bool gives_up = error || (!keeps && s->dirty) || s->broken;
    if (error) {
        s->refused = error;
        sqlite3_log(SQLITE_IOERR, "rstore: %s: a commit was refused: %s", s->path, rstore_errstr(error));
    }
    if (gives_up && rstore_rollback(s->db)) rstore_abandon(s->db); /* as after a kill: the next opening does it */
    else rstore_close(s->db);
    s->db = NULL, s->begun = s->dirty = s->broken = false;
    free(s->log), free(s->marks);
    s->log = NULL, s->marks = NULL, s->logged = s->room = s->marked = s->places = 0;
    drop_handle(s);
}
