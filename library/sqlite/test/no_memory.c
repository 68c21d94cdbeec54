/* no_memory ROUNDS FILE: transactions on a table of the extension, on an ordinary one and on one over FILE, in which
 * the nth allocation fails, of SQLite, of the extension or of the library, for each n until none does, or ROUNDS were
 * tried. After each the first two tables have the same rows, the third has its transaction or not, and the pages
 * are sound. Linked with -Wl,--wrap=malloc,--wrap=realloc,--wrap=calloc. */
#include "rstore.h"

#include <sqlite3.h>
#include <stdio.h>
#include <stdlib.h>
#include <string.h>

int sqlite3_rstoresqlite_init(sqlite3 *sql, char **why, const void *api);

static long left = -1, refusals, kept, answers[512];
void *__real_malloc(size_t n);
void *__real_realloc(void *p, size_t n);
void *__real_calloc(size_t k, size_t n);
static int fails(void) { return left > 0 && --left == 0; }
void *__wrap_malloc(size_t n) { return fails() ? NULL : __real_malloc(n); }
void *__wrap_realloc(void *p, size_t n) { return fails() ? NULL : __real_realloc(p, n); }
void *__wrap_calloc(size_t k, size_t n) { return fails() ? NULL : __real_calloc(k, n); }

static sqlite3_mem_methods own;
static void *take(int n) { return fails() ? NULL : own.xMalloc(n); }
static void *retake(void *p, int n) { return fails() ? NULL : own.xRealloc(p, n); }

static void stop(const char *why, long n) {
    fprintf(stderr, "no_memory: %s, in round %ld\n", why, n);
    exit(1);
}

static int run(sqlite3 *db, const char *sql) {
    int code = sqlite3_exec(db, sql, NULL, NULL, NULL);
    answers[code & 0xff]++;
    if (code) refusals++;
    return code;
}

static const char *const script[] = { /* on both tables */
    "INSERT INTO %s VALUES(1000, 1, 2, 3, 4, 5, 'x')",
    "WITH RECURSIVE n(i) AS (SELECT 2001 UNION ALL SELECT i + 1 FROM n WHERE i < 2100) "
    "INSERT INTO %s SELECT i, i, i + 1, i, i, 0, i FROM n",
    "UPDATE %s SET minx = minx - 5, tag = 9, name = 'y' WHERE id < 40",
    "UPDATE %s SET id = id + 5000 WHERE id = 7",
    "DELETE FROM %s WHERE id > 100 AND id < 150",
};
static const char *const questions[] = {
    "SELECT * FROM p", "SELECT id FROM p WHERE nearest = '5 5' AND tag = 0 ORDER BY distance LIMIT 9",
    "SELECT * FROM p WHERE inside = '0 0 90 90'", "SELECT count(*) FROM rstore_join('p', 'o', 2)",
    "SELECT rstore_check('p')",
    "SELECT rstore_load('o', id + 900, minx, maxx, miny, maxy) FROM plain",
};

static const char *const over_file[] = {
    "BEGIN", "INSERT INTO f VALUES(1000, 1, 2, 3, 4, 5)", "SAVEPOINT s", "UPDATE f SET tag = 9, maxx = maxx + 2",
    "WITH RECURSIVE n(i) AS (SELECT 2001 UNION ALL SELECT i + 1 FROM n WHERE i < 2050) "
    "INSERT INTO f SELECT i, i, i + 1, i, i, 0 FROM n",
    "DELETE FROM f WHERE id < 5", "SELECT count(*) FROM rstore_join('f', 'p', 2)", "ROLLBACK TO s", "COMMIT",
};

static void change_file(sqlite3 *db) {
    int code = SQLITE_OK;
    for (size_t k = 0; k < sizeof over_file / sizeof *over_file && !code; k++) code = run(db, over_file[k]);
    if (code && !sqlite3_get_autocommit(db)) run(db, "ROLLBACK");
    run(db, "DELETE FROM f WHERE id = -1"); /* which may tell that the commit was refused */
}

static void make_file(const char *path, long n) {
    char *journal = sqlite3_mprintf("%s-journal", path);
    rstore *db = NULL;
    remove(path), remove(journal);
    int error = rstore_open(path, RSTORE_CREATE, 0, &db);
    if (!error) error = rstore_create_layer(db, "f", 2, 5);
    for (int k = 1; k <= 30 && !error; k++)
        error = rstore_insert(db, "f", (uint64_t)k, (int32_t[]){ k, 0, k, 3 }, 2, 1);
    if (!error) error = rstore_close(db);
    if (error) stop("no file", n);
    sqlite3_free(journal);
}

static void changes(sqlite3 *db) {
    char sql[400];
    for (size_t k = 0; k < sizeof script / sizeof *script; k++) {
        int code = run(db, "BEGIN");
        for (int which = 0; which < 2 && !code; which++) {
            snprintf(sql, sizeof sql, script[k], which ? "plain" : "p");
            if (!code && k % 2) code = run(db, "SAVEPOINT s");
            if (!code) code = run(db, sql);
        }
        if (!code) code = run(db, "COMMIT");
        if (code && !sqlite3_get_autocommit(db)) run(db, "ROLLBACK");
        if (k < sizeof questions / sizeof *questions) run(db, questions[k]);
    }
    run(db, questions[5]);
}

/* What a question answers, as text. */
static void ask(sqlite3 *db, const char *sql, char *to, size_t room, long n) {
    sqlite3_stmt *s;
    if (sqlite3_prepare_v2(db, sql, -1, &s, NULL) || sqlite3_step(s) != SQLITE_ROW) stop(sqlite3_errmsg(db), n);
    snprintf(to, room, "%s", (const char *)sqlite3_column_text(s, 0));
    sqlite3_finalize(s);
}

static void sound(sqlite3 *db, long n) {
    static const char sums[] =
        "SELECT count(*) || ' ' || sum(id) || ' ' || sum(minx + tag) || ' ' || count(name) FROM %s";
    char one[100], two[100], sql[200];
    snprintf(sql, sizeof sql, sums, "p"), ask(db, sql, one, sizeof one, n);
    snprintf(sql, sizeof sql, sums, "plain"), ask(db, sql, two, sizeof two, n);
    if (strcmp(one, two)) stop("the tables differ", n);
    ask(db, "SELECT rstore_check('p')", one, sizeof one, n);
    if (strcmp(one, "ok")) stop(one, n);
    ask(db, "SELECT rstore_check('o')", one, sizeof one, n);
    if (strcmp(one, "ok")) stop(one, n);
    ask(db, "SELECT rstore_check('f')", one, sizeof one, n);
    if (strcmp(one, "ok")) stop(one, n);
    ask(db, "SELECT count(*) || ' ' || sum(id) || ' ' || sum(maxx) || ' ' || sum(tag) FROM f", one, sizeof one, n);
    kept += !strcmp(one, "31 1465 467 35");
    if (strcmp(one, "30 465 465 30") && strcmp(one, "31 1465 467 35")) stop(one, n);
}

int main(int argc, char **argv) {
    long most = argc > 1 ? atol(argv[1]) : 1000, n = 0;
    int armed = 1;
    sqlite3_config(SQLITE_CONFIG_GETMALLOC, &own);
    sqlite3_mem_methods methods = own;
    methods.xMalloc = take, methods.xRealloc = retake;
    sqlite3_config(SQLITE_CONFIG_MALLOC, &methods);
    sqlite3_auto_extension((void (*)(void))sqlite3_rstoresqlite_init);
    const char *path = argc > 2 ? argv[2] : "no_memory.rst";
    char *makes_file = sqlite3_mprintf("CREATE VIRTUAL TABLE f USING rstore('%q', 'f', cache=8)", path);
    for (; armed && n < most; n++) {
        sqlite3 *db;
        make_file(path, n);
        if (sqlite3_open(":memory:", &db)) stop("no database", n);
        if (run(db, "CREATE VIRTUAL TABLE p USING rstore(fanout=5, cache=8, +name);"
                    "CREATE VIRTUAL TABLE o USING rstore;"
                    "CREATE TABLE plain(id INTEGER PRIMARY KEY, minx, maxx, miny, maxy, tag, name);"
                    "WITH RECURSIVE n(i) AS (SELECT 1 UNION ALL SELECT i + 1 FROM n WHERE i < 200)"
                    "INSERT INTO plain SELECT i, i, i + 3, i % 17, i % 17 + 2, i % 4, 'n' || i FROM n;"
                    "INSERT INTO p SELECT * FROM plain") || run(db, makes_file)) stop(sqlite3_errmsg(db), n);
        left = n + 1;
        change_file(db), changes(db);
        armed = left == 0, left = -1;
        sound(db, n);
        if (sqlite3_close(db)) stop("it does not close", n);
    }
    sqlite3_free(makes_file);
    printf("%ld rounds in which an allocation fails%s: %ld calls refused, %ld of them for memory; in %ld the file kept "
           "its transaction\n", n, armed ? "" : " (all)", refusals, answers[SQLITE_NOMEM], kept);
    return 0;
}
