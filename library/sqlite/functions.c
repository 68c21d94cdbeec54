/* functions.c - tables by their names, rstore_load and rstore_check. */
#include "module.h"

SQLITE_EXTENSION_INIT3

/* ---- tables by their names, as `parks` or `other.parks` */
static Table *connected(Connection *c, const char *name) {
    for (Table *t = c->tables; t; t = t->next) {
        size_t length = strlen(t->schema);
        if (!sqlite3_stricmp(t->name, name)) return t;
        if (!sqlite3_strnicmp(t->schema, name, (int)length) && name[length] == '.' &&
            !sqlite3_stricmp(t->name, name + length + 1))
            return t;
    }
    return NULL;
}

/* SQLite connects a table where a statement has it. */
static void have_connected(Connection *c, const char *name) {
    const char *dot = strchr(name, '.');
    char *sql = dot ? sqlite3_mprintf("SELECT 1 FROM \"%.*w\".\"%w\"", (int)(dot - name), name, dot + 1)
                    : sqlite3_mprintf("SELECT 1 FROM \"%w\"", name);
    sqlite3_stmt *statement = NULL;
    if (sql) sqlite3_prepare_v2(c->sql, sql, -1, &statement, NULL);
    sqlite3_finalize(statement), sqlite3_free(sql);
}

Table *table_named(Connection *c, const char *name) {
    if (!name) return NULL;
    Table *t = connected(c, name);
    if (t) return t;
    have_connected(c, name);
    return connected(c, name);
}

/* ---- rstore_load(table, id, minx, maxx, ..[, tag]): a packed load of an empty table, as an aggregate */
static int refuse(Load *l, int code, char *why) {
    sqlite3_free(l->why), l->why = why;
    return l->code = code;
}

static bool has_room(Load *l) { /* for one row more */
    if (l->count < l->room) return true;
    size_t room = l->room ? 2 * l->room : 1024;
    rstore_row *rows = realloc(l->rows, room * sizeof *rows);
    if (rows) l->rows = rows, l->room = room;
    return rows;
}

static void load_row(sqlite3_context *to, int argc, sqlite3_value **argv) {
    Load *l = sqlite3_aggregate_context(to, sizeof *l);
    if (!l || l->code) return;
    if (!l->name) l->name = sqlite3_mprintf("%s", argc ? (const char *)sqlite3_value_text(argv[0]) : "");
    if (!l->name || !has_room(l)) { refuse(l, SQLITE_NOMEM, NULL); return; }
    Table *t = table_named(sqlite3_user_data(to), l->name);
    int wanted = t ? 2 + 2 * (int)t->axes : 0;
    sqlite3_int64 id = 0;
    if (!t) refuse(l, SQLITE_ERROR, sqlite3_mprintf("rstore_load: no such table of rstore: %s", l->name));
    else if (argc != wanted && argc != wanted + 1)
        refuse(l, SQLITE_ERROR, sqlite3_mprintf("rstore_load(table, id, minx, maxx, ..[, tag])"));
    else if (!whole(argv[1], &id)) refuse(l, SQLITE_MISMATCH, sqlite3_mprintf("%s.id is no whole number", t->name));
    else if ((l->code = row_of(t, id, argv + 2, argc > wanted ? argv[wanted] : NULL, &l->rows[l->count])))
        refuse(l, l->code, sqlite3_mprintf("%s", t->base.zErrMsg));
    else l->count++;
}

/* The rows go in by an insertion, so that they are part of a transaction of SQLite's. */
static void load_rows(sqlite3_context *to) {
    Load *l = sqlite3_aggregate_context(to, 0);
    Connection *c = sqlite3_user_data(to);
    if (!l) { sqlite3_result_int(to, 0); return; } /* no row */
    Table *t = l->code ? NULL : table_named(c, l->name);
    if (t) {
        t->load = l;
        int code = run_sql(t, "INSERT INTO \"%w\".\"%w\"(id) VALUES(0)", t->schema, t->name);
        t->load = NULL;
        if (code) refuse(l, code, sqlite3_mprintf("%s", sqlite3_errmsg(c->sql)));
    }
    if (l->code == SQLITE_NOMEM) sqlite3_result_error_nomem(to);
    else if (l->code)
        sqlite3_result_error(to, l->why ? l->why : "rstore_load", -1), sqlite3_result_error_code(to, l->code);
    else sqlite3_result_int64(to, (sqlite3_int64)l->count);
    sqlite3_free(l->name), sqlite3_free(l->why), free(l->rows);
}

/* ---- rstore_check(table): reads every page of its store */
/* Whether each row of auxiliary columns is one of an object. */
static char *check_more(Table *t, int *code) {
    sqlite3_stmt *s = NULL;
    char *found = NULL, *sql = sqlite3_mprintf("SELECT id FROM \"%w\".\"%w_aux\"", t->schema, t->name);
    *code = sql ? sqlite3_prepare_v2(t->connection->sql, sql, -1, &s, NULL) : SQLITE_NOMEM;
    sqlite3_free(sql);
    while (!*code && !found && sqlite3_step(s) == SQLITE_ROW) {
        rstore_row row = { .id = 0 };
        sqlite3_int64 id = sqlite3_column_int64(s, 0);
        int error = rstore_get(t->store->db, t->layer, (uint64_t)id, &row);
        if (error == RSTORE_NO_OBJECT) found = sqlite3_mprintf("%s_aux has %lld, which is no object", t->name, id);
        else if (error) *code = tell(t, error);
    }
    int last = sqlite3_finalize(s);
    if (!*code) *code = last;
    return found;
}

/* Reads the table's pages from the database, and not what is held of them: `ok`, or what is wrong. */
static char *check_table(Table *t, int *code) {
    uint64_t count;
    *code = hold(t);
    if (!*code) *code = flush(t);
    if (*code) return let_go(t), NULL;
    forget(t); /* what is held is read anew, but in a transaction that writes a file */
    int error = need(t);
    if (!error) error = rstore_check(t->store->db);
    if (!error) error = rstore_count(t->store->db, t->layer, &count);
    char *found = NULL;
    if (error) {
        int kind = tell(t, error);
        if (kind == SQLITE_CORRUPT_VTAB && t->base.zErrMsg) found = sqlite3_mprintf("%s", t->base.zErrMsg);
        else *code = kind;
    } else if (t->more) {
        found = check_more(t, code);
    }
    let_go(t);
    return found || *code ? found : sqlite3_mprintf("ok");
}

static void check(sqlite3_context *to, int argc, sqlite3_value **argv) {
    Table *t = table_named(sqlite3_user_data(to), argc ? (const char *)sqlite3_value_text(argv[0]) : NULL);
    if (!t) { sqlite3_result_error(to, "rstore_check: no such table of rstore", -1); return; }
    int code;
    char *found = check_table(t, &code);
    if (found) sqlite3_result_text(to, found, -1, sqlite3_free);
    else
        sqlite3_result_error(to, t->base.zErrMsg ? t->base.zErrMsg : "rstore_check", -1),
            sqlite3_result_error_code(to, code ? code : SQLITE_NOMEM);
}

int make_functions(Connection *c, void (*leave)(void *)) {
    int flags = SQLITE_UTF8 | SQLITE_DIRECTONLY;
    int one = sqlite3_create_module_v2(c->sql, "rstore_join", &joins, c, leave);
    int two = sqlite3_create_function_v2(c->sql, "rstore_check", 1, flags, c, check, NULL, NULL, leave);
    int three = sqlite3_create_function_v2(c->sql, "rstore_load", -1, flags, c, NULL, load_row, load_rows, leave);
    return one ? one : two ? two : three;
}
