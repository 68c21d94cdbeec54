/* rstore.h - a verified R*-tree spatial store in one file, for C and C++ (docs/LIBRARY.md).
 *
 * A store has up to 60 named layers. A layer has objects: an identifier (any uint64_t, once in a layer), a box of whole
 * numbers (int32_t, in units of the caller's own) in 2 or 3 axes, and a tag (any uint32_t), by which queries choose. A
 * box is closed: it has its low and its high on each axis, low <= high, and boxes that touch meet.
 *
 * ERRORS. Each function that returns int answers RSTORE_OK (0) or the number of an error; rstore_errstr has a message
 * for each, and rstore_detail what came with it. But for RSTORE_STORE_FAILED, and of rstore_rollback, an error leaves
 * the store as it was. Where a call is refused, *rows, *count and the like are not written. After RSTORE_STORE_FAILED the
 * store refuses each call until rstore_rollback brings back what was kept last. Null pointers (but for a store in
 * memory: rstore_open), a number of axes other than 2 and 3, an unknown kind of query and an empty name answer
 * RSTORE_MISUSE.
 *
 * WHAT IS KEPT. Changes are in the file once rstore_commit or rstore_close answered RSTORE_OK, all of them or, before,
 * none. A process that is killed, or a machine that stops, at any moment, loses what was changed since the last of
 * these, and nothing else: the next rstore_open brings back the table that was kept last (or that of a commit that was
 * in progress). For that a journal stands beside the file, as FILE-journal, from rstore_open to rstore_close, and longer
 * after a kill, or where somebody still reads the file. While it is there the two belong together: do not copy, move or
 * remove one without the other, until the file was opened once for writing, alone, and closed. The file and the journal are those of the program rstore, byte for byte (docs/FORMAT.md).
 *
 * READERS BESIDE A WRITER. A file is open for writing once at a time, and any number of times with RSTORE_READ_ONLY, by
 * whatever programs: rstore_open takes the locks of the program rstore (flock), and a second writer gets RSTORE_BUSY. A
 * reader has one table throughout: that which was kept last when it opened the file, or at its last rstore_refresh. The
 * writer commits whenever it likes. While there are readers its commits stay in the journal, which grows with each; once it
 * finds none, at a change after some 4000 blocks or at its close, all goes into the file. A reader writes nothing. It waits
 * up to two seconds while the writer does that, and is answered RSTORE_BUSY then.
 *
 * OWNERSHIP. A handle is the caller's, from rstore_open to rstore_close, which frees it whatever it answers. Arrays of
 * results are made by the library and freed by rstore_free. Names, paths, boxes and rows that are given are read during
 * the call only. Messages and the version are constants.
 *
 * THREADS. One call at a time for a handle; a handle may go from thread to thread; handles of different files are
 * independent. A call needs 256 KiB of stack. No call from a signal handler. No use of a handle in a forked child, which
 * shares its lock: close it before the fork, or let the child exec (the files are closed then) or _exit.
 *
 * Not tested, as in most C: a pointer that is wrong and not null, a handle after its close, an array that is shorter
 * than its count.
 */
#ifndef RSTORE_H
#define RSTORE_H

#include <stddef.h>
#include <stdint.h>

#ifdef __cplusplus
extern "C" {
#endif

#define RSTORE_VERSION "0.2"

/* A store that is open. */
typedef struct rstore rstore;

/* An object. With 2 axes low[2] and high[2] are 0 in results and not read in loads. */
typedef struct rstore_row {
    uint64_t id;
    int32_t low[3];
    int32_t high[3];
    uint32_t tag;
    uint32_t axes; /* 2 or 3 in results; not read in loads */
} rstore_row;

/* An object by its squared distance, exactly distance_high * 2^64 + distance (below 2^66). */
typedef struct rstore_near {
    uint64_t id;
    uint64_t distance;
    uint64_t distance_high;
} rstore_near;

/* An object of a first layer and one of a second. */
typedef struct rstore_pair {
    uint64_t first;
    uint64_t second;
} rstore_pair;

/* A node of the tree of a layer. */
typedef struct rstore_node {
    uint64_t count;  /* entries */
    uint32_t page;   /* where it lies in the file */
    uint32_t level;  /* 0 for a leaf */
    int32_t low[3];  /* the least box round its entries; zeros where it has none, and behind two axes */
    int32_t high[3];
} rstore_node;

/* A layer. */
typedef struct rstore_layer {
    uint64_t count;  /* objects */
    char name[32];   /* ends in 0 */
    uint32_t axes;   /* 2 or 3 */
    uint32_t fanout; /* entries of a node at most, 4 to 100 */
} rstore_layer;

/* 1 to 25 are the store's refusals, by the numbers of docs/COMMANDS.md; from 101 on the library's own. */
enum {
    RSTORE_OK = 0,
    RSTORE_BAD_NAME = 1,          /* a layer name is 1 to 24 of a-z, 0-9 and _, the first a letter */
    RSTORE_LAYER_EXISTS = 2,
    RSTORE_NO_LAYER = 3,
    RSTORE_BAD_DIMS = 4,          /* a layer has 2 or 3 axes; a new layer of others answers RSTORE_MISUSE first */
    RSTORE_BAD_FANOUT = 5,        /* 4 to 100 */
    RSTORE_TOO_MANY_LAYERS = 6,   /* 60 */
    RSTORE_BAD_BOX = 7,           /* a low is above its high */
    RSTORE_WRONG_DIMS = 8,        /* a box or point has another number of axes than the layer */
    RSTORE_DUPLICATE = 9,         /* an object of that identifier is there */
    RSTORE_NO_OBJECT = 10,
    RSTORE_TOO_MANY_OBJECTS = 11, /* 2^30 in all layers */
    RSTORE_NOT_EMPTY = 12,        /* only an empty layer is loaded */
    RSTORE_DUPLICATE_IN_LOAD = 13,/* rstore_detail: the least identifier that stands twice */
    RSTORE_BAD_COUNT = 14,        /* the nearest 1 to 1,000,000 */
    RSTORE_DIMS_DIFFER = 15,      /* the layers of a join */
    RSTORE_MEMORY = 16,
    RSTORE_DEVICE = 17,           /* a read, write or sync of the file failed */
    RSTORE_DAMAGED = 18,          /* rstore_detail: the page */
    RSTORE_STORE_FAILED = 19,     /* rstore_detail: the number of the fault, or 19 where it had failed before */
    RSTORE_NOT_CLOSED = 20,       /* the file was changed and not closed, and has no journal */
    RSTORE_NOT_A_STORE = 21,
    RSTORE_WRONG_VERSION = 22,
    RSTORE_BAD_CACHE = 23,        /* 8 to 4096 pages */
    RSTORE_BAD_LINE = 24,         /* of the command language; no function answers it */
    RSTORE_NO_PAGES = 25,
    RSTORE_CANNOT_OPEN = 101,     /* the system refuses the file or its journal, or it is no regular file */
    RSTORE_BUSY = 102,            /* the file is open for writing elsewhere */
    RSTORE_NOT_OPEN = 103,        /* a rollback was refused, and the store is not open since */
    RSTORE_MISUSE = 104,          /* a null pointer, an empty name, or numbers that are no box, point or query */
    RSTORE_READ_ONLY_STORE = 105, /* a change of a store that was opened with RSTORE_READ_ONLY */
    RSTORE_NO_LOCKS = 106,        /* the system has no locks for the file */
    RSTORE_NO_JOURNAL = 107,      /* FILE-journal is missing where the last session did not end, or is no journal */
    RSTORE_OTHER_JOURNAL = 108    /* FILE-journal is the journal of another file */
};

/* The library's version, and a message for the number of an error. */
const char *rstore_version(void);
const char *rstore_errstr(int error);

/* The number that came with the last error of this handle: an identifier, a page or a fault, else 0. Right after
 * rstore_open for writing it is 1 where the last session was cut short after a commit, and may have changed more since;
 * and 0 else. Of NULL it is the number that came
 * with the last rstore_open of this thread that was refused. */
uint64_t rstore_detail(rstore *db);

/* ---- opening and closing */

enum {
    RSTORE_EXISTING = 0, /* the file must be there */
    RSTORE_CREATE = 1,   /* a file that is missing or empty becomes an empty store */
    RSTORE_READ_ONLY = 2 /* the file is only read, beside a writer too, and may lack the right to be written; changes
                            are refused */
};

/* Opens the store in the file at `path`; with NULL and RSTORE_CREATE makes one in memory, which goes with its handle and
 * has no lock. `cache` is how many pages of 4096 bytes are held in memory, 8 to 4096; 0 is 1024. On success *db is the
 * handle, else NULL. */
int rstore_open(const char *path, int flags, uint32_t cache, rstore **db);

/* Keeps all changes in the file and frees the handle, whatever it answers. RSTORE_DEVICE is answered, too, where all was
 * kept and only the end of the session failed, which the next rstore_open does. While somebody reads the file, what is kept
 * stays in the journal, and RSTORE_OK is answered. NULL is fine. */
int rstore_close(rstore *db);

/* Frees the handle and keeps nothing: what was changed since the last commit is given up, as after a kill. NULL is
 * fine. */
void rstore_abandon(rstore *db);

/* Keeps all changes in the file, and goes on: by two syncs, three where blocks were added, and by three more in the first
 * commit of a session; by none where nothing was changed. */
int rstore_commit(rstore *db);

/* Gives up what was changed since the last rstore_commit, or the opening, and goes on with the table that was kept
 * last, also after RSTORE_STORE_FAILED; after a commit that was refused it is that table, or the one of that commit, as
 * after a kill. The pages that are held in memory are forgotten, and three are read; where blocks were added to the
 * file, it is synced once. Rows for rstore_more stay. A store that is only read has nothing to give up.
 *
 * Refused, by RSTORE_MEMORY or RSTORE_DEVICE, it leaves the store not open: each call answers RSTORE_NOT_OPEN, until a
 * further rstore_rollback goes well. rstore_close answers that too then, and keeps nothing that was changed. */
int rstore_rollback(rstore *db);

/* Of a store that is only read: goes on with the table that its file was closed with last. *changed (where changed is not
 * NULL) is 0 where the handle has that table, and then nothing is done but a look at the file; else it is 1, the pages that
 * are held in memory are forgotten, and those of the opening are read. So it is, too, where the journal was made anew, of the
 * same table. A name that leads to another file since is followed. Rows for rstore_more are gone then. Refused, by the
 * errors of rstore_open, it leaves the handle with the table that it had. Of any other store it does nothing, and *changed
 * is 0. */
int rstore_refresh(rstore *db, int *changed);

/* Reads every page: RSTORE_OK only where the file is sound, RSTORE_DAMAGED where it is not. */
int rstore_check(rstore *db);

/* ---- a store over blocks of the caller's */

/* Blocks of 4096 bytes, numbered from 0 on. Each function answers 0 where it was done, and is called only within calls
 * of the handle. What was written is what is read later. */
typedef struct rstore_blocks {
    int (*count)(void *context, uint64_t *count); /* how many there are */
    int (*read)(void *context, uint64_t block, void *bytes);
    int (*write)(void *context, uint64_t block, const void *bytes); /* one that is there, or the next behind the last */
    int (*sync)(void *context); /* what was written stays; NULL where nothing is to do */
} rstore_blocks;

/* Opens the store in such blocks (RSTORE_EXISTING), or makes one where there is none (RSTORE_CREATE). It has no lock and
 * no file beside it: what a journal does is the caller's, as by the transaction of a database. A block that was there at
 * the last commit is written in rstore_commit and rstore_close alone, and where these answer 0 the blocks are those of a
 * file that was closed. Where one of them fails, or is cut short, the caller puts back the blocks as they were before it,
 * and abandons the handle; a handle is abandoned, too, where blocks are changed by anyone else. Over blocks as the handle
 * has left them rstore_rollback does what it does over a file, and writes where it finishes a commit that was refused.
 * `blocks` is read during the call only, `context` goes to each function. */
int rstore_open_blocks(const rstore_blocks *blocks, void *context, int flags, uint32_t cache, rstore **db);

/* ---- layers */

/* Makes an empty layer with 2 or 3 axes, of at most 4 to 100 entries in a node (100 is best). */
int rstore_create_layer(rstore *db, const char *layer, uint32_t axes, uint32_t fanout);

/* Takes out a layer with all its objects. */
int rstore_drop_layer(rstore *db, const char *layer);

/* All layers, ascending by name. */
int rstore_layers(rstore *db, rstore_layer **layers, size_t *count);

/* How many objects a layer has. */
int rstore_count(rstore *db, const char *layer, uint64_t *count);

/* ---- changes. A box is 2 * axes numbers: the lows, and then the highs. A point is `axes` numbers. */

/* Adds an object. */
int rstore_insert(rstore *db, const char *layer, uint64_t id, const int32_t *box, uint32_t axes, uint32_t tag);

/* Gives an object another box. It keeps its tag. */
int rstore_move(rstore *db, const char *layer, uint64_t id, const int32_t *box, uint32_t axes);

/* Takes out an object. */
int rstore_delete(rstore *db, const char *layer, uint64_t id);

/* Inserts an object, or gives the one that is there this box and this tag: a move where its tag stays, else a deletion
 * and an insertion. Where the second is refused the first is undone; where that is refused, too, RSTORE_STORE_FAILED is
 * answered, and rstore_rollback is the way out. */
int rstore_put(rstore *db, const char *layer, uint64_t id, const int32_t *box, uint32_t axes, uint32_t tag);

/* Puts `count` objects into an empty layer at once: a packed tree, several times as fast as inserts. None or all. */
int rstore_load(rstore *db, const char *layer, uint32_t axes, const rstore_row *rows, size_t count);

/* ---- questions. *rows is an array of *count, NULL if there are none; free it by rstore_free. */

/* One object. */
int rstore_get(rstore *db, const char *layer, uint64_t id, rstore_row *row);

/* The objects whose boxes meet the box (window), lie within it (inside), enclose it (around), or hold the point, each
 * ascending by identifier; with a tag that is not NULL only those that have it. */
int rstore_window(rstore *db, const char *layer, const int32_t *box, uint32_t axes, const uint32_t *tag,
                  rstore_row **rows, size_t *count);
int rstore_inside(rstore *db, const char *layer, const int32_t *box, uint32_t axes, const uint32_t *tag,
                  rstore_row **rows, size_t *count);
int rstore_around(rstore *db, const char *layer, const int32_t *box, uint32_t axes, const uint32_t *tag,
                  rstore_row **rows, size_t *count);
int rstore_point(rstore *db, const char *layer, const int32_t *point, uint32_t axes, const uint32_t *tag,
                 rstore_row **rows, size_t *count);

enum { RSTORE_WINDOW = 0, RSTORE_INSIDE = 1, RSTORE_AROUND = 2, RSTORE_POINT = 3 };

/* The same for a caller with room of its own, by the kind of the query: at most `room` rows go to `rows`, and *count says
 * how many there are. Where *count > room, rstore_more copies the rest from row `from` on, and says how many it copied,
 * until the next such query of the handle. Rows of the array that are not asked for keep what they have. */
int rstore_range_into(rstore *db, const char *layer, int kind, const int32_t *numbers, uint32_t axes,
                      const uint32_t *tag, rstore_row *rows, size_t room, size_t *count);
size_t rstore_more(rstore *db, size_t from, rstore_row *rows, size_t room);

/* The same with the rows in any order, so that no time goes into theirs. */
int rstore_range_unordered(rstore *db, const char *layer, int kind, const int32_t *numbers, uint32_t axes,
                           const uint32_t *tag, rstore_row *rows, size_t room, size_t *count);

/* The same of identifiers alone, 8 bytes each. */
int rstore_ids_into(rstore *db, const char *layer, int kind, const int32_t *numbers, uint32_t axes,
                    const uint32_t *tag, uint64_t *ids, size_t room, size_t *count);
size_t rstore_more_ids(rstore *db, size_t from, uint64_t *ids, size_t room);

/* A piece of an answer, for pages: as rstore_range_into, of the objects whose identifiers are greater than *after; NULL
 * asks for all. *count says how many these are, so that more follow where *count > room. The next piece is asked for with
 * the identifier of the last row. Each piece takes the time and the memory of the whole answer, in the store; of the
 * caller's memory it takes `room` rows. */
int rstore_range_after(rstore *db, const char *layer, int kind, const int32_t *numbers, uint32_t axes,
                       const uint32_t *tag, const uint64_t *after, rstore_row *rows, size_t room, size_t *count);

/* The greatest identifier of a layer that is at most `most` (UINT64_MAX: of all); *found is 0, and *id stays, where there
 * is none. It asks for all objects, and takes time and memory for them. Rows for rstore_more stay. */
int rstore_last(rstore *db, const char *layer, uint64_t most, uint64_t *id, int *found);

/* The k nearest to the point (1 to 1,000,000), by squared distance and then by identifier. */
int rstore_nearest(rstore *db, const char *layer, uint64_t k, const int32_t *point, uint32_t axes, rstore_near **rows,
                   size_t *count);

/* The same with the objects themselves, and with a tag that is not NULL the k nearest of those that have it: near[q] is the
 * distance of rows[q]. Both are arrays of *count, NULL if there are none; free each by rstore_free. The tag is looked at
 * behind the distance: where few objects have it, eight times as many are asked for in turn, up to 1,000,000, and
 * RSTORE_BAD_COUNT is answered where k are not among these. Rows for rstore_more are gone then. */
int rstore_nearest_rows(rstore *db, const char *layer, uint64_t k, const int32_t *point, uint32_t axes,
                        const uint32_t *tag, rstore_near **near, rstore_row **rows, size_t *count);

/* All pairs of an object of each layer whose boxes have at most this squared distance (0: that meet), ascending by first
 * and then by second. */
int rstore_join(rstore *db, const char *first, const char *second, uint64_t squared_distance, rstore_pair **rows,
                size_t *count);

/* The same of `given` rows (their `axes` are not looked at) and the objects of a layer. An identifier may stand among the
 * rows more than once. Rows that lie near one another are best given one after another, since 64 in turn go down the tree
 * together. RSTORE_WRONG_DIMS where the layer has other axes, RSTORE_BAD_BOX where a low is above its high. */
int rstore_join_rows(rstore *db, const rstore_row *given, size_t given_count, uint32_t axes, const char *layer,
                     uint64_t squared_distance, rstore_pair **rows, size_t *count);

/* The same of the layers of two stores, or of one. With a window that is not NULL a pair counts where the low corner of the
 * first one's box lies in it: windows that share no point have no pair in common, and those that cover all numbers all
 * pairs, so a join that is larger than memory is asked piece by piece. It takes memory for the objects of the first layer
 * that meet the window. `axes` are those of both layers. What came with an error is told by rstore_detail(db), or by
 * rstore_detail(other) where *second_failed, which may be NULL, is not 0. */
int rstore_join_files(rstore *db, const char *first, rstore *other, const char *second, uint64_t squared_distance,
                      const int32_t *window, uint32_t axes, rstore_pair **rows, size_t *count, int *second_failed);

/* The nodes of the tree of a layer, the root first, each before those below it: what one tunes a layer by, and draws. */
int rstore_nodes(rstore *db, const char *layer, rstore_node **nodes, size_t *count);

/* How many pages the identifier table of a layer has. It takes memory for the objects of the layer. */
int rstore_id_pages(rstore *db, const char *layer, uint64_t *pages);

/* ---- many questions in one call. Each is answered as by the call of one, in the order given. Results follow one another
 * in one array: those of question q from offsets[q] to offsets[q + 1], where `offsets` is the caller's, of count + 1 numbers.
 * The first question that is refused ends the call: *refused is its index (where refused is not NULL), and nothing is
 * handed out. count may be 0. As ever one call at a time for a handle: part a long list where others wait for it. */

/* Range queries of one kind, whose numbers follow one another: 2 * axes for a box, `axes` for a point. `tags` has a tag for
 * each question, or is NULL where all tags are asked for. As identifiers, as rows, or how many there are of each
 * (`counts` is the caller's, of `count` numbers). */
int rstore_windows(rstore *db, const char *layer, int kind, const int32_t *numbers, uint32_t axes, size_t count,
                   const uint32_t *tags, uint64_t **ids, size_t *offsets, size_t *refused);
int rstore_windows_rows(rstore *db, const char *layer, int kind, const int32_t *numbers, uint32_t axes, size_t count,
                        const uint32_t *tags, rstore_row **rows, size_t *offsets, size_t *refused);
int rstore_counts(rstore *db, const char *layer, int kind, const int32_t *numbers, uint32_t axes, size_t count,
                  const uint32_t *tags, size_t *counts, size_t *refused);

/* The k nearest to each point. Each has as many rows as the others: k, or all objects where there are fewer. */
int rstore_nearest_many(rstore *db, const char *layer, uint64_t k, const int32_t *points, uint32_t axes, size_t count,
                        rstore_near **rows, size_t *offsets, size_t *refused);

/* The objects of `count` identifiers into the caller's rows. One that is not there has axes 0 in its row, and is no error. */
int rstore_get_many(rstore *db, const char *layer, const uint64_t *ids, size_t count, rstore_row *rows, size_t *refused);

/* Frees an array of results. NULL is fine. */
void rstore_free(void *rows);

#ifdef __cplusplus
}
#endif
#endif
