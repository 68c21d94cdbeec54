/* module.h - what a connection has: its tables over a store, which lies in a shadow table of each, or in a file. */
#ifndef RSTORE_MODULE_H
#define RSTORE_MODULE_H

#include "rstore.h"

#include <sqlite3ext.h>
#include <stdbool.h>
#include <stdlib.h>
#include <string.h>

/* The columns, in the words of a plan. Auxiliary columns come behind them. */
enum {
    ID, MINX, MAXX, MINY, MAXY, MINZ, MAXZ, TAG, DISTANCE, NEAREST, K, MEETS, INSIDE, AROUND, LIMIT, OFFSET,
    COLUMNS
};
extern const char *const column_names[COLUMNS];

/* The statements of a table's shadow tables. */
enum { READ, WRITE, COUNT, VERSION, ROOM_FOR, HOLD, GET_MORE, PUT_MORE, DROP_MORE, STATEMENTS };

typedef struct Connection {
    sqlite3 *sql;
    struct Table *tables;
    struct Store *files; /* which tables are over */
    int users;           /* modules and functions that have it */
} Connection;

/* A store: of one table, in its shadow table, or in a file, which the tables over it share. */
typedef struct Store {
    struct Store *next;   /* of the files */
    Connection *connection;
    char *path;           /* of the file, or NULL */
    int users, readers;   /* tables; cursors that are open */
    rstore *db;           /* or NULL */
    bool begun, dirty, flushed; /* in a transaction; changed since the last flush; flushed in this transaction */
    bool broken;          /* refuses all until what was half done is rolled back */
    int broken_at;        /* by a rollback to a savepoint below this one */
    int refused;          /* of a file: the error of a commit that was refused behind SQLite's own, until it is told */
    struct Undo *log;     /* of a file: what undoes its changes, since the first savepoint */
    size_t logged, room;
    size_t *marks, marked, places; /* how long the log was at each savepoint */
} Store;

typedef struct Table {
    sqlite3_vtab base;
    Connection *connection;
    struct Table *next;
    char *schema, *name;
    uint32_t axes, fanout, cache;
    double scale;
    bool plain;      /* tag is hidden */
    int more;        /* auxiliary columns */
    char *path;      /* of a file, or NULL */
    char layer[32];
    bool fresh;      /* over a file, and made in this transaction */
    Store *store;
    sqlite3_stmt *statements[STATEMENTS];
    sqlite3_blob *blob; /* the block that was read last, while cursors are open that read many */
    unsigned read;   /* how many these have read */
    struct Held *held; /* blocks of the shadow table, beside those that the store has */
    sqlite3_int64 most_held;
    uint64_t blocks; /* how many it has, of those that were read or written */
    int code;        /* what SQLite answered last where a block was refused */
    unsigned seen;   /* the version of the database by its pager */
    sqlite3_int64 others; /* and by the changes of other connections */
    bool inside, doomed; /* a block is being written; and then the store is given up */
    bool knows_last;
    sqlite3_int64 last; /* the greatest identifier, or 0 */
    uint64_t rows;   /* by estimate */
    struct Load *load; /* what the next insertion is to load */
} Table;

typedef struct Load { /* the rows of rstore_load */
    char *name, *why;
    rstore_row *rows;
    size_t count, room;
    int code;
} Load;

typedef struct Held Held;

#define COMMIT_REFUSED 1000 /* beside the library's errors: that of a commit of the file before */

/* files.c: stores of tables, those in files. */
bool have_store(Table *t);
void leave_store(Table *t);
void drop_handle(Store *s);
int find_layer(Table *t);
int need_file(Table *t);
void rest(Table *t);
int note(Table *t, uint64_t id);
int note_load(Table *t);
int mark_file(Store *s, int savepoint);
void unmark_file(Store *s, int savepoint);
int undo_to(Store *s, int savepoint);
int begin_file(Table *t);
void end_file(Store *s, bool keeps);

/* store.c: errors, stores in shadow tables, transactions. */
int fail(void *v, int code, const char *format, ...);
int tell(Table *t, int error);
void break_off(Table *t, int savepoint);
int need(Table *t);
int need_still(Table *t, bool again);
int hold(Table *t);
void let_go(Table *t);
void forget(Table *t);
void close_blob(Table *t);
void finish(Table *t);
int flush(Table *t);
int make_shadows(Table *t);
int run_sql(Table *t, const char *format, ...);
int get_more(Table *t, sqlite3_int64 id, int number, sqlite3_context *to);
int put_more(Table *t, sqlite3_int64 id, sqlite3_value **values);
int drop_more(Table *t, sqlite3_int64 id);
int next_id(Table *t, sqlite3_int64 *id);
extern const int32_t everywhere[2][6];

/* held.c: blocks that are held. */
bool take_held(Held *h, uint64_t block, void *bytes);
void hold_block(Table *t, uint64_t block, const void *bytes, size_t size);
void drop_held(Table *t);

/* Transactions, as a module has them. */
int begin(sqlite3_vtab *v);
int keep(sqlite3_vtab *v);
int end(sqlite3_vtab *v);
int roll_back(sqlite3_vtab *v);
int mark(sqlite3_vtab *v, int savepoint);
int unmark(sqlite3_vtab *v, int savepoint);
int roll_back_to(sqlite3_vtab *v, int savepoint);

/* changes.c: rows of SQL, and xUpdate. */
bool is_number(sqlite3_value *v);
bool whole(sqlite3_value *v, sqlite3_int64 *to);
bool stored(double x, double scale, bool up, int32_t *to);
const int32_t *box_of(const Table *t, const rstore_row *row, int32_t *box);
int row_of(Table *t, sqlite3_int64 id, sqlite3_value **values, sqlite3_value *tag, rstore_row *row);
int update(sqlite3_vtab *v, int argc, sqlite3_value **argv, sqlite3_int64 *rowid);

/* questions.c: plans and cursors. */
int best_index(sqlite3_vtab *v, sqlite3_index_info *info);
int open_cursor(sqlite3_vtab *v, sqlite3_vtab_cursor **out);
int close_cursor(sqlite3_vtab_cursor *cursor);
int filter(sqlite3_vtab_cursor *cursor, int number, const char *plan, int argc, sqlite3_value **argv);
int next(sqlite3_vtab_cursor *cursor);
int eof(sqlite3_vtab_cursor *cursor);
int row_id(sqlite3_vtab_cursor *cursor, sqlite3_int64 *id);
int column(sqlite3_vtab_cursor *cursor, sqlite3_context *to, int number);

/* joins.c: rstore_join. */
extern const sqlite3_module joins;

/* functions.c: tables by their names, rstore_load and rstore_check. */
Table *table_named(Connection *c, const char *name);
int make_functions(Connection *c, void (*leave)(void *));

#endif
