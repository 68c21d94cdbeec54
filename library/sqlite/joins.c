/* joins.c - rstore_join(first, second, within): pairs of identifiers, ascending, by the join of the store that both tables
 * lie in, or of two stores. */
#include "module.h"

#include <math.h>
SQLITE_EXTENSION_INIT3

/* ---- rstore_join(first, second, within): pairs of identifiers */
typedef struct Joins {
    sqlite3_vtab base;
    Connection *connection;
} Joins;

typedef struct Pairs {
    sqlite3_vtab_cursor base;
    rstore_pair *rows;
    size_t count, at;
} Pairs;

static int connect_join(sqlite3 *sql, void *aux, int argc, const char *const *argv, sqlite3_vtab **out, char **why) {
    (void)argc, (void)argv, (void)why;
    Joins *j = calloc(1, sizeof *j);
    if (!j) return SQLITE_NOMEM;
    j->connection = aux, *out = &j->base;
    int code = sqlite3_declare_vtab(sql, "CREATE TABLE x(first INT, second INT, a HIDDEN, b HIDDEN, within HIDDEN)");
    if (code) free(j), *out = NULL;
    return code;
}

static int disconnect_join(sqlite3_vtab *v) { return sqlite3_free(v->zErrMsg), free(v), SQLITE_OK; }

static int best_join(sqlite3_vtab *v, sqlite3_index_info *info) {
    bool seen[3] = { false };
    for (int k = 0; k < info->nConstraint; k++) {
        const struct sqlite3_index_constraint *c = &info->aConstraint[k];
        int what = c->op == SQLITE_INDEX_CONSTRAINT_EQ ? c->iColumn - 2 : -1;
        if (what < 0 || seen[what]) continue;
        if (!c->usable || k > 15) return SQLITE_CONSTRAINT;
        seen[what] = true, info->aConstraintUsage[k].omit = 1;
        info->aConstraintUsage[k].argvIndex = what + 1;
    }
    if (!seen[0] || !seen[1]) return fail(v, SQLITE_ERROR, "rstore_join wants two tables, and a distance or none");
    info->estimatedCost = 1e6; /* so that it is asked once, and the tables by its pairs */
    info->estimatedRows = 100000;
    return SQLITE_OK;
}

static int open_pairs(sqlite3_vtab *v, sqlite3_vtab_cursor **out) {
    Pairs *p = ((void)v, calloc(1, sizeof *p));
    return p ? (*out = &p->base, SQLITE_OK) : SQLITE_NOMEM;
}

static int close_pairs(sqlite3_vtab_cursor *cursor) {
    return rstore_free(((Pairs *)cursor)->rows), free(cursor), SQLITE_OK;
}

/* The pairs of two tables, or an error and whose it is. */
static int join(Table *t[2], uint64_t squared, Pairs *p, Table **of) {
    int second = 0;
    for (int k = 0; k < 2; k++) {
        int error = need(*of = t[k]);
        if (error) return error;
    }
    *of = t[0];
    if (t[0]->store == t[1]->store)
        return rstore_join(t[0]->store->db, t[0]->layer, t[1]->layer, squared, &p->rows, &p->count);
    int error = rstore_join_files(t[0]->store->db, t[0]->layer, t[1]->store->db, t[1]->layer, squared, NULL, t[0]->axes,
                                  &p->rows, &p->count, &second);
    *of = t[second];
    return error;
}

/* The squared distance of the stored numbers; false where there is none. */
static bool squared_of(sqlite3_value *within, double scale, uint64_t *squared) {
    double distance = within ? sqlite3_value_double(within) * scale : 0, most = floor(distance * distance + 1e-6);
    *squared = most < 0x1p64 ? (uint64_t)most : UINT64_MAX;
    return distance >= 0;
}

static int filter_pairs(sqlite3_vtab_cursor *cursor, int number, const char *plan, int argc, sqlite3_value **argv) {
    Pairs *p = (Pairs *)cursor;
    sqlite3_vtab *v = cursor->pVtab;
    Table *t[2];
    uint64_t squared = 0;
    (void)number, (void)plan;
    rstore_free(p->rows), p->rows = NULL, p->count = p->at = 0;
    for (int k = 0; k < 2; k++) {
        const char *name = (const char *)sqlite3_value_text(argv[k]);
        t[k] = table_named(((Joins *)v)->connection, name);
        if (!t[k]) return fail(v, SQLITE_ERROR, "rstore_join: no such table of rstore: %s", name ? name : "NULL");
    }
    if (t[0]->scale != t[1]->scale)
        return fail(v, SQLITE_ERROR, "rstore_join: %s and %s have different scales", t[0]->name, t[1]->name);
    if (t[0]->axes != t[1]->axes)
        return fail(v, SQLITE_ERROR, "rstore_join: %s and %s have different numbers of axes", t[0]->name, t[1]->name);
    if (!squared_of(argc > 2 ? argv[2] : NULL, t[0]->scale, &squared)) return SQLITE_OK;
    Table *of = t[0];
    int one = hold(t[0]), two = hold(t[1]), code = one ? one : two;
    int error = code ? RSTORE_OK : join(t, squared, p, &of);
    if (error) code = tell(of, error), fail(v, code, "rstore_join: %s", of->base.zErrMsg);
    let_go(t[0]), let_go(t[1]);
    return code;
}

static int next_pair(sqlite3_vtab_cursor *cursor) { return ((Pairs *)cursor)->at++, SQLITE_OK; }
static int eof_pairs(sqlite3_vtab_cursor *cursor) { return ((Pairs *)cursor)->at >= ((Pairs *)cursor)->count; }
static int pair_id(sqlite3_vtab_cursor *cursor, sqlite3_int64 *id) {
    return *id = (sqlite3_int64)((Pairs *)cursor)->at, SQLITE_OK;
}

static int column_of_pair(sqlite3_vtab_cursor *cursor, sqlite3_context *to, int number) {
    const rstore_pair *pair = &((Pairs *)cursor)->rows[((Pairs *)cursor)->at];
    if (number < 2) sqlite3_result_int64(to, (sqlite3_int64)(number ? pair->second : pair->first));
    return SQLITE_OK;
}

const sqlite3_module joins = {
    .xConnect = connect_join,
    .xBestIndex = best_join,
    .xDisconnect = disconnect_join,
    .xOpen = open_pairs,
    .xClose = close_pairs,
    .xFilter = filter_pairs,
    .xNext = next_pair,
    .xEof = eof_pairs,
    .xColumn = column_of_pair,
    .xRowid = pair_id,
};
