/* table.c - tables over a spatial store in SQL: a loadable extension of SQLite (3.38 or newer) over librstore.
 *
 *     CREATE VIRTUAL TABLE parks USING rstore(scale=10000000);
 *     CREATE VIRTUAL TABLE rivers USING rstore('map.rst', 'rivers', scale=10000000);
 *     SELECT id FROM parks WHERE minx <= 9 AND maxx >= 5 AND miny <= 9 AND maxy >= 5 AND tag = 7;
 *     SELECT id, distance FROM parks WHERE nearest = '3.5 4.5' ORDER BY distance LIMIT 3;
 *
 * docs/SQL.md tells the columns and words. */
#include "module.h"

#include <ctype.h>
SQLITE_EXTENSION_INIT1

#define MOST_COLUMNS 100 /* auxiliary ones */

const char *const column_names[COLUMNS] = { "id",     "minx",   "maxx",     "miny",    "maxy", "minz",
                                            "maxz",   "tag",    "distance", "nearest", "k",    "meets",
                                            "inside", "around", "limit",    "offset" };

/* ---- the words of a table's definition */
/* The number behind `word=`, which is within these: whether it is one. */
static bool number_of(const char *text, const char *word, double least, double most, double *to) {
    size_t length = strlen(word);
    char *end;
    if (sqlite3_strnicmp(text, word, (int)length)) return false;
    text += length, text += strspn(text, " \t\n");
    if (*text++ != '=') return false;
    double n = strtod(text, &end);
    bool is_one = end != text && !end[strspn(end, " \t\n")] && n >= least && n <= most;
    return is_one && (*to = n, true);
}

static bool read_word(Table *t, const char *word) {
    double n;
    if (number_of(word, "scale", 1e-300, 1e300, &n)) return t->scale = n, true;
    if (number_of(word, "dims", 2, 3, &n) && (n == 2 || n == 3)) return t->axes = (uint32_t)n, true;
    if (number_of(word, "fanout", 4, 100, &n) && n == (uint32_t)n) return t->fanout = (uint32_t)n, true;
    if (number_of(word, "cache", 8, 4096, &n) && n == (uint32_t)n) return t->cache = (uint32_t)n, true;
    return !sqlite3_stricmp(word, "plain") && (t->plain = true);
}

/* The name of an auxiliary column, of which nothing else counts, as in rtree: how long it is. */
static int length_of_name(const char *text) {
    const char *close = *text == '[' ? "]" : *text == '"' || *text == '`' || *text == '\'' ? text : NULL;
    int length = 0;
    if (!close) {
        while (isalnum((unsigned char)text[length]) || text[length] == '_' || text[length] & 0x80) length++;
        return length;
    }
    for (length = 1; text[length]; length++) {
        if (text[length] != *close) continue;
        if (*close == ']' || text[length + 1] != *close) return length + 1;
        length++;
    }
    return 0;
}

static bool is_quoted(const char *text) { return *text && strchr("'\"`", *text); }

static char *bare(const char *text) { /* without its quotes */
    size_t length = strlen(text);
    char *made = sqlite3_mprintf("%s", text), *to = made;
    if (!made || length < 2 || !is_quoted(text) || text[length - 1] != *text) return made;
    for (const char *at = text + 1; at < text + length - 1; at++) *to++ = *at, at += *at == *text && at[1] == *text;
    return *to = 0, made;
}

/* The file and the layer of a table over a file; a path that is relative is so to the folder of the database. */
static int read_file(Table *t, int argc, const char *const *argv) {
    if (argc < 5)
        return fail(t, SQLITE_ERROR, "rstore wants a layer behind the file, as in rstore('map.rst', 'parks')");
    const char *database = sqlite3_db_filename(t->connection->sql, t->schema);
    char *given = bare(argv[3]), *layer = bare(argv[4]);
    if (given && layer) {
        const char *slash = database && *given != '/' ? strrchr(database, '/') : NULL;
        t->path = sqlite3_mprintf("%.*s%s", slash ? (int)(slash - database) + 1 : 0, slash ? database : "", given);
        sqlite3_snprintf(sizeof t->layer, t->layer, "%s", layer);
    }
    sqlite3_free(given), sqlite3_free(layer);
    return t->path ? SQLITE_OK : SQLITE_NOMEM;
}

/* Reads all words, and says what SQLite is to be told of the columns. */
static int read_words(Table *t, int argc, const char *const *argv, sqlite3_str *more) {
    bool is_file = argc > 3 && is_quoted(argv[3]);
    int code = is_file ? read_file(t, argc, argv) : SQLITE_OK;
    if (code) return code;
    for (int k = is_file ? 5 : 3; k < argc; k++) {
        const char *word = argv[k] + strspn(argv[k], " \t\n");
        int length = *word == '+' && !is_file ? length_of_name(word + 1) : 0;
        if (!*word && argc == 4) continue; /* rstore() */
        if (length && t->more == MOST_COLUMNS)
            return fail(t, SQLITE_ERROR, "rstore: there are more than %d columns", MOST_COLUMNS);
        if (length) sqlite3_str_appendf(more, ", %.*s", length, word + 1), t->more++;
        else if (!read_word(t, word)) return fail(t, SQLITE_ERROR, "rstore: not known, or out of range: %s", word);
    }
    return SQLITE_OK;
}

static int declare(Table *t, const char *more) {
    const char *type = t->scale == 1 ? "INT" : "REAL";
    char *third = sqlite3_mprintf(t->axes == 3 ? ", minz %s, maxz %s" : "", type, type);
    char *columns = sqlite3_mprintf(
        "CREATE TABLE x(id INT, minx %s, maxx %s, miny %s, maxy %s%s, tag INT%s%s, distance REAL HIDDEN, "
        "nearest HIDDEN, k HIDDEN, meets HIDDEN, inside HIDDEN, around HIDDEN)",
        type, type, type, type, third, t->plain ? " HIDDEN" : "", more ? more : "");
    sqlite3 *sql = t->connection->sql;
    int code = third && columns ? sqlite3_declare_vtab(sql, columns) : SQLITE_NOMEM;
    sqlite3_free(third), sqlite3_free(columns);
    if (code) return fail(t, code, "%s", code == SQLITE_NOMEM ? "out of memory" : sqlite3_errmsg(sql));
    if (!t->path)
        sqlite3_vtab_config(sql, SQLITE_VTAB_INNOCUOUS); /* as rtree: it reads and writes its database alone */
    return sqlite3_vtab_config(sql, SQLITE_VTAB_CONSTRAINT_SUPPORT, 1);
}

/* ---- tables */
static int disconnect(sqlite3_vtab *v) {
    Table *t = (Table *)v;
    for (Table **at = &t->connection->tables; *at; at = &(*at)->next)
        if (*at == t) { *at = t->next; break; }
    if (t->store) finish(t), rest(t);
    leave_store(t);
    sqlite3_free(t->schema), sqlite3_free(t->name), sqlite3_free(t->path), sqlite3_free(v->zErrMsg), free(t);
    return SQLITE_OK;
}

/* A new table over a layer that is there. */
static int take_layer(Table *t) {
    int error = need(t);
    t->fresh = true; /* SQLite will call no xBegin before the transaction ends */
    return tell(t, error ? error : find_layer(t));
}

static int create_or(sqlite3 *sql, void *aux, int argc, const char *const *argv, sqlite3_vtab **out, char **why,
                     bool makes) {
    Table *t = calloc(1, sizeof *t);
    if (!t) return SQLITE_NOMEM;
    *t = (Table){
        .connection = aux, .axes = 2, .scale = 1, .fanout = 100, .cache = 4096, .rows = 65536, .layer = "objects"
    };
    t->schema = sqlite3_mprintf("%s", argv[1]), t->name = sqlite3_mprintf("%s", argv[2]);
    t->next = t->connection->tables, t->connection->tables = t;
    sqlite3_str *more = sqlite3_str_new(sql);
    int code = t->schema && t->name ? read_words(t, argc, argv, more) : SQLITE_NOMEM;
    char *columns = sqlite3_str_finish(more);
    if (!code && !have_store(t)) code = SQLITE_NOMEM;
    if (!code) code = declare(t, columns);
    if (!code && makes) code = t->path ? take_layer(t) : make_shadows(t);
    if (!code) rest(t);
    sqlite3_free(columns);
    *why = t->base.zErrMsg, t->base.zErrMsg = NULL;
    return code ? (disconnect(&t->base), code) : (*out = &t->base, SQLITE_OK);
}

static int create(sqlite3 *sql, void *aux, int argc, const char *const *argv, sqlite3_vtab **out, char **why) {
    return create_or(sql, aux, argc, argv, out, why, true);
}

static int connect(sqlite3 *sql, void *aux, int argc, const char *const *argv, sqlite3_vtab **out, char **why) {
    return create_or(sql, aux, argc, argv, out, why, false);
}

static int destroy(sqlite3_vtab *v) {
    Table *t = (Table *)v;
    if (t->path && t->store->begun)
        return fail(t, SQLITE_LOCKED, "%s: the transaction that writes its file is to end before", t->name);
    finish(t);
    if (t->path) return disconnect(v);
    int code = run_sql(t, "DROP TABLE IF EXISTS \"%w\".\"%w_blocks\"", t->schema, t->name);
    if (!code && t->more) code = run_sql(t, "DROP TABLE IF EXISTS \"%w\".\"%w_aux\"", t->schema, t->name);
    return code ? fail(t, code, "%s", sqlite3_errmsg(t->connection->sql)) : disconnect(v);
}

static int rename_table(sqlite3_vtab *v, const char *name) {
    Table *t = (Table *)v;
    char *made = sqlite3_mprintf("%s", name);
    int code = made ? flush(t) : SQLITE_NOMEM;
    finish(t);
    if (!code && !t->path)
        code = run_sql(t, "ALTER TABLE \"%w\".\"%w_blocks\" RENAME TO \"%w_blocks\"", t->schema, t->name, name);
    if (!code && t->more)
        code = run_sql(t, "ALTER TABLE \"%w\".\"%w_aux\" RENAME TO \"%w_aux\"", t->schema, t->name, name);
    if (code) return sqlite3_free(made), code;
    sqlite3_free(t->name), t->name = made;
    return SQLITE_OK;
}

static int is_shadow(const char *name) { return !sqlite3_stricmp(name, "blocks") || !sqlite3_stricmp(name, "aux"); }

static const sqlite3_module tables = {
    .iVersion = 3,
    .xCreate = create,
    .xConnect = connect,
    .xBestIndex = best_index,
    .xDisconnect = disconnect,
    .xDestroy = destroy,
    .xOpen = open_cursor,
    .xClose = close_cursor,
    .xFilter = filter,
    .xNext = next,
    .xEof = eof,
    .xColumn = column,
    .xRowid = row_id,
    .xUpdate = update,
    .xBegin = begin,
    .xSync = keep,
    .xCommit = end,
    .xRollback = roll_back,
    .xRename = rename_table,
    .xSavepoint = mark,
    .xRelease = unmark,
    .xRollbackTo = roll_back_to,
    .xShadowName = is_shadow,
};

/* ---- the extension */
static void leave(void *aux) {
    Connection *c = aux;
    if (!--c->users) free(c);
}

int sqlite3_rstoresqlite_init(sqlite3 *sql, char **why, const sqlite3_api_routines *api);
int sqlite3_rstoresqlite_init(sqlite3 *sql, char **why, const sqlite3_api_routines *api) {
    SQLITE_EXTENSION_INIT2(api);
    (void)api;
    if (sqlite3_libversion_number() < 3038000) return *why = sqlite3_mprintf("rstore wants SQLite 3.38"), SQLITE_ERROR;
    Connection *c = calloc(1, sizeof *c);
    if (!c) return SQLITE_NOMEM;
    c->sql = sql, c->users = 4; /* SQLite calls `leave` also where one of these is refused */
    int code = sqlite3_create_module_v2(sql, "rstore", &tables, c, leave), other = make_functions(c, leave);
    return code ? code : other;
}
