/* changes.c - INSERT, UPDATE and DELETE, and rows of SQL as the store has them. */
#include "module.h"

#include <limits.h>
#include <math.h>
SQLITE_EXTENSION_INIT3

#define NEARLY 1e-6 /* what is so near a whole number counts as it, as in the Python package */

/* ---- numbers */
/* A number as it is stored, rounded outwards: whether it fits. */
bool stored(double x, double scale, bool up, int32_t *to) {
    double n = up ? ceil(x * scale - NEARLY) : floor(x * scale + NEARLY);
    if (!(n >= INT32_MIN && n <= INT32_MAX)) return false;
    return *to = (int32_t)n, true;
}

bool is_number(sqlite3_value *v) {
    int type = sqlite3_value_numeric_type(v);
    return type == SQLITE_INTEGER || type == SQLITE_FLOAT;
}

/* A whole number of SQL, also one of a decimal type. */
bool whole(sqlite3_value *v, sqlite3_int64 *to) {
    if (!is_number(v)) return false;
    double x = sqlite3_value_double(v);
    if (sqlite3_value_type(v) == SQLITE_FLOAT && (x != floor(x) || fabs(x) > 9e18)) return false;
    return *to = sqlite3_value_int64(v), true;
}

/* A value as a message has it. */
static const char *shown(sqlite3_value *v) {
    const char *text = sqlite3_value_type(v) == SQLITE_BLOB ? "a blob" : (const char *)sqlite3_value_text(v);
    return text ? text : "NULL";
}

/* The row of an identifier, the values from minx on, and a tag or none. */
int row_of(Table *t, sqlite3_int64 id, sqlite3_value **values, sqlite3_value *tag, rstore_row *row) {
    sqlite3_int64 number = 0;
    *row = (rstore_row){ .id = (uint64_t)id };
    for (uint32_t k = 0; k < 2 * t->axes; k++) {
        const char *name = column_names[MINX + k];
        if (!is_number(values[k]))
            return fail(t, SQLITE_MISMATCH, "%s.%s is no number: %.40s", t->name, name, shown(values[k]));
        if (!stored(sqlite3_value_double(values[k]), t->scale, k & 1, k & 1 ? &row->high[k / 2] : &row->low[k / 2]))
            return fail(t, SQLITE_CONSTRAINT, "%s.%s is out of range: %.40s", t->name, name, shown(values[k]));
        if (k & 1 && row->low[k / 2] > row->high[k / 2])
            return fail(t, SQLITE_CONSTRAINT, "rstore constraint failed: %s.(%s<=%s): %.40s is above %.40s", t->name,
                        column_names[k], name, shown(values[k - 1]), shown(values[k]));
    }
    if (tag && sqlite3_value_type(tag) != SQLITE_NULL && (!whole(tag, &number) || number < 0 || number > UINT32_MAX))
        return fail(t, SQLITE_CONSTRAINT, "%s.tag is no whole number below 2^32: %.40s", t->name, shown(tag));
    row->tag = (uint32_t)number;
    return SQLITE_OK;
}

/* ---- changes of the store, each with its auxiliary columns */
const int32_t *box_of(const Table *t, const rstore_row *row, int32_t *box) {
    for (uint32_t k = 0; k < t->axes; k++) box[k] = row->low[k], box[t->axes + k] = row->high[k];
    return box;
}

static int insert(Table *t, const rstore_row *row) {
    int32_t box[6];
    int error = note(t, row->id);
    if (error) return error;
    t->store->dirty = true;
    return rstore_insert(t->store->db, t->layer, row->id, box_of(t, row, box), t->axes, row->tag);
}

static int put(Table *t, const rstore_row *row) {
    int32_t box[6];
    int error = note(t, row->id);
    if (error) return error;
    t->store->dirty = true;
    return rstore_put(t->store->db, t->layer, row->id, box_of(t, row, box), t->axes, row->tag);
}

static int move(Table *t, const rstore_row *row) {
    int32_t box[6];
    int error = note(t, row->id);
    if (error) return error;
    t->store->dirty = true;
    return rstore_move(t->store->db, t->layer, row->id, box_of(t, row, box), t->axes);
}

/* What could not be done whole can only be rolled back. */
static int whole_or_broken(Table *t, int code) {
    if (code) break_off(t, INT_MAX), fail(t, code, "%s: %s", t->name, sqlite3_errstr(code));
    return code;
}

static int removed(Table *t, sqlite3_int64 id) {
    int error = note(t, (uint64_t)id);
    if (error) return tell(t, error);
    t->store->dirty = true;
    error = rstore_delete(t->store->db, t->layer, (uint64_t)id);
    if (error == RSTORE_NO_OBJECT) return SQLITE_OK; /* a trigger took it out */
    if (error) return tell(t, error);
    if (id == t->last) t->knows_last = false;
    return whole_or_broken(t, drop_more(t, id));
}

static int conflict(Table *t, int error) {
    return error == RSTORE_DUPLICATE ? fail(t, SQLITE_CONSTRAINT, "UNIQUE constraint failed: %s.id", t->name)
                                     : tell(t, error);
}

static int inserted(Table *t, const rstore_row *row, sqlite3_value **more) {
    int error = insert(t, row);
    if (error == RSTORE_DUPLICATE && sqlite3_vtab_on_conflict(t->connection->sql) == SQLITE_REPLACE)
        error = put(t, row);
    if (error) return conflict(t, error);
    if (t->knows_last && (sqlite3_int64)row->id > t->last) t->last = (sqlite3_int64)row->id;
    return whole_or_broken(t, put_more(t, (sqlite3_int64)row->id, more));
}

static bool same_box(const rstore_row *a, const rstore_row *b) {
    return !memcmp(a->low, b->low, sizeof a->low) && !memcmp(a->high, b->high, sizeof a->high);
}

/* A row in the place of one with the same identifier. */
static int changed(Table *t, const rstore_row *row, sqlite3_value **more) {
    rstore_row old = { .id = 0 };
    int error = rstore_get(t->store->db, t->layer, row->id, &old);
    if (error == RSTORE_NO_OBJECT) return SQLITE_OK;
    if (!error && old.tag != row->tag) error = put(t, row);
    else if (!error && !same_box(&old, row)) error = move(t, row);
    if (error) return tell(t, error);
    return whole_or_broken(t, put_more(t, (sqlite3_int64)row->id, more));
}

/* A row in the place of one with another identifier. */
static int renamed(Table *t, sqlite3_int64 old, const rstore_row *row, sqlite3_value **more) {
    rstore_row there = { .id = 0 };
    int error = rstore_get(t->store->db, t->layer, (uint64_t)old, &there);
    if (error) return error == RSTORE_NO_OBJECT ? SQLITE_OK : tell(t, error);
    int code = inserted(t, row, more);
    if (code) return code;
    code = removed(t, old);
    if (code) break_off(t, INT_MAX);
    return code;
}

/* ---- xUpdate: a deletion has one value, the rowid; else that before, that after, and the columns follow */
static int load(Table *t) {
    uint64_t there = 0;
    Load *l = t->load;
    int error = rstore_count(t->store->db, t->layer, &there);
    if (!error && there) return fail(t, SQLITE_CONSTRAINT, "rstore_load: %s has rows", t->name);
    if (!error) error = note_load(t);
    t->store->dirty = true, t->knows_last = false;
    if (!error) error = rstore_load(t->store->db, t->layer, t->axes, l->rows, l->count);
    return tell(t, error);
}

/* The identifier is the column id or the rowid, by which of them was set. */
static int id_of(Table *t, sqlite3_value **argv, sqlite3_int64 *id) {
    bool is_new = sqlite3_value_type(argv[0]) == SQLITE_NULL;
    sqlite3_int64 old = sqlite3_value_int64(argv[0]);
    bool by_id = sqlite3_value_type(argv[2]) != SQLITE_NULL && (is_new || !whole(argv[2], id) || *id != old);
    sqlite3_value *given = argv[by_id ? 2 : 1];
    if (is_new && sqlite3_value_type(given) == SQLITE_NULL) {
        int error = next_id(t, id);
        if (error == RSTORE_TOO_MANY_OBJECTS)
            return fail(t, SQLITE_FULL, "%s: no identifier is above the greatest", t->name);
        return tell(t, error);
    }
    if (!whole(given, id)) return fail(t, SQLITE_MISMATCH, "%s.id is no whole number: %.40s", t->name, shown(given));
    return SQLITE_OK;
}

int update(sqlite3_vtab *v, int argc, sqlite3_value **argv, sqlite3_int64 *rowid) {
    Table *t = (Table *)v;
    rstore_row row;
    sqlite3_int64 id = 0, old = sqlite3_value_int64(argv[0]);
    if (t->fresh || (t->path && !t->store->begun))
        return fail(t, SQLITE_ERROR, "%s: it was made in this transaction, and takes changes after its end", t->name);
    int error = need(t);
    if (error) return tell(t, error);
    if (argc == 1) return removed(t, old);
    if (t->load) return load(t);
    int code = id_of(t, argv, &id);
    sqlite3_value **tag = argv + 3 + 2 * t->axes;
    if (!code) code = row_of(t, id, argv + 3, *tag, &row);
    if (code) return code;
    *rowid = id;
    if (sqlite3_value_type(argv[0]) == SQLITE_NULL) return inserted(t, &row, tag + 1);
    return id == old ? changed(t, &row, tag + 1) : renamed(t, old, &row, tag + 1);
}
