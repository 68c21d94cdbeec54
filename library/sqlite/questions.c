/* questions.c - plans and cursors: the constraints of a statement become one question to the store. */
#include "module.h"

#include <math.h>
SQLITE_EXTENSION_INIT3

#define ROOM 32              /* rows of an answer that a cursor has place for itself */
#define MOST_TAKEN 32        /* constraints that a plan has */
#define MOST_NEAREST 1000000 /* what the library gives */

/* The column of a number of SQL's; an auxiliary one is COLUMNS and its place among these. */
static int column_of(const Table *t, int number) {
    int tag = 2 * (int)t->axes + 1;
    if (number <= 0) return ID;
    if (number < tag) return number;
    if (number == tag) return TAG;
    return number <= tag + t->more ? COLUMNS + number - tag - 1 : DISTANCE + number - tag - 1 - t->more;
}

/* ---- plans */
typedef struct Bounds { /* what min and max of each axis are within, as they are stored */
    int64_t low[6], high[6];
    bool none, any, tagged; /* no row can be; some bound is there */
    uint32_t tag;
} Bounds;

typedef struct Ask { /* what an argument is, and its operator */
    int what;
    const char *op;
} Ask;

typedef struct Cursor {
    sqlite3_vtab_cursor base;
    Bounds bounds;
    const char *plan; /* whose words `asks` has; NULL before the first question */
    Ask asks[MOST_TAKEN];
    rstore_row *rows; /* of a range: `few`, or `held` */
    rstore_row *held; /* which stays from one question to the next */
    size_t room;      /* of `held` */
    size_t count, at, split;
    const rstore_row *now, *end; /* the row `at`, which is none of the nearest; behind all rows */
    bool had;         /* the statement has read the table, so no other connection has changed it since */
    bool sorted, down, near, first, has_row, below; /* the last: only what is nearer than `far` */
    bool is_after;    /* only identifiers behind `after` are asked for */
    uint64_t after;
    rstore_near *found, last;        /* of the nearest: what was answered, and from where to go on */
    uint64_t ask, left;
    double far;
    int32_t point[3];
    rstore_row row, few[ROOM];
} Cursor;

/* How a question is answered: the words of a plan are the columns and operators of its arguments. FIRST is for so many
 * rows of all, whichever they are: those that are nearest to a point. A range is sorted by identifier where that is asked
 * for. */
enum { RANGE, GET, NEAR, FIRST, DOWN = 4, SORTED = 8 };

/* The operator of a constraint, as a plan has it: empty where it is another. */
static const char *operator_of(int op) {
    switch (op) {
    case SQLITE_INDEX_CONSTRAINT_EQ: return "=";
    case SQLITE_INDEX_CONSTRAINT_LE: return "<=";
    case SQLITE_INDEX_CONSTRAINT_LT: return "<";
    case SQLITE_INDEX_CONSTRAINT_GE: return ">=";
    case SQLITE_INDEX_CONSTRAINT_GT: return ">";
    default: return "";
    }
}

static int what_of(const Table *t, const struct sqlite3_index_constraint *c) {
    if (c->op == SQLITE_INDEX_CONSTRAINT_LIMIT) return LIMIT;
    return c->op == SQLITE_INDEX_CONSTRAINT_OFFSET ? OFFSET : column_of(t, c->iColumn);
}

static bool wants_first(const sqlite3_index_info *info) {
    for (int k = 0; k < info->nConstraint; k++) {
        int op = info->aConstraint[k].op;
        bool is_hint = op == SQLITE_INDEX_CONSTRAINT_LIMIT || op == SQLITE_INDEX_CONSTRAINT_OFFSET;
        if (!is_hint || !info->aConstraint[k].usable) return false;
    }
    return info->nConstraint && !info->nOrderBy;
}

/* Which plan it is; or none, where a column that is an argument has no value yet, and so can't be looked at again. */
static int plan_of(const Table *t, const sqlite3_index_info *info) {
    int plan = wants_first(info) ? FIRST : RANGE;
    for (int k = 0; k < info->nConstraint; k++) {
        const struct sqlite3_index_constraint *c = &info->aConstraint[k];
        int what = c->op == SQLITE_INDEX_CONSTRAINT_EQ ? column_of(t, c->iColumn) : TAG;
        if (what >= NEAREST && what <= AROUND && (!c->usable || k > 15)) return -1;
        if (what == NEAREST) plan = NEAR;
        else if (what == ID && c->usable && plan == RANGE) plan = GET;
    }
    return plan;
}

/* Whether the plan takes a constraint. */
static bool takes(sqlite3_index_info *info, int k, int what, int plan, const char *op) {
    if (what >= COLUMNS || !info->aConstraint[k].usable) return false;
    if (what >= MINX && what <= MAXZ) return *op;
    if (what == DISTANCE) return plan == NEAR && *op == '<';
    if (what >= LIMIT) return plan >= NEAR;
    if (what == K) return plan == NEAR;
    if (what == ID) return plan == GET ? *op == '=' : plan == RANGE && *op == '>';
    if (what == TAG) return *op == '=' && !sqlite3_vtab_in(info, k, -1); /* one question, and not one for each value */
    return *op == '=';
}

/* Takes the constraints, whose words are the plan's, and tells by estimate how many rows they leave, and at what cost.
 */
static void take_all(const Table *t, sqlite3_index_info *info, int plan, sqlite3_str *words, double *rows,
                     double *cost) {
    bool seen[COLUMNS] = { false };
    int taken = 0;
    for (int k = 0; k < info->nConstraint; k++) {
        int what = what_of(t, &info->aConstraint[k]);
        const char *op = operator_of(info->aConstraint[k].op);
        bool bounds = what >= MINX && what <= MAXZ, hint = what >= LIMIT || (what == ID && *op == '>');
        if (taken == MOST_TAKEN || !takes(info, k, what, plan, op) || (seen[what] && !bounds)) continue;
        seen[what] = true;
        info->aConstraintUsage[k].argvIndex = ++taken;
        info->aConstraintUsage[k].omit = !hint;
        sqlite3_str_appendf(words, " %s%s", column_names[what], op);
        if (bounds) *cost = *rows /= *op == '=' ? 64 : 4;
        else if (what >= MEETS && !hint) *cost = *rows /= 256;
        else if (what == TAG) *rows /= 16;
        else if (what == ID) *rows /= 2;
    }
}

int best_index(sqlite3_vtab *v, sqlite3_index_info *info) {
    Table *t = (Table *)v;
    int plan = plan_of(t, info);
    if (plan < 0) return SQLITE_CONSTRAINT;
    if (t->store->db && !t->store->broken && !t->inside) rstore_count(t->store->db, t->layer, &t->rows);
    double rows = (double)t->rows, cost = rows;
    sqlite3_str *words = sqlite3_str_new(t->connection->sql);
    static const char *const names[] = { [RANGE] = "range:", [GET] = "get:", [NEAR] = "nearest:", [FIRST] = "first:" };
    sqlite3_str_appendall(words, names[plan]);
    take_all(t, info, plan, words, &rows, &cost);
    info->idxNum = plan;
    if (info->nOrderBy == 1) {
        int by = column_of(t, info->aOrderBy[0].iColumn);
        info->orderByConsumed = plan == GET || (plan == NEAR ? by == DISTANCE && !info->aOrderBy[0].desc : by == ID);
        if (plan == RANGE && by == ID) info->idxNum |= SORTED | (info->aOrderBy[0].desc ? DOWN : 0);
    }
    if (plan == GET) info->idxFlags = SQLITE_INDEX_SCAN_UNIQUE;
    info->estimatedRows = plan == GET ? 1 : plan >= NEAR ? 16 : rows < 1 ? 1 : (sqlite3_int64)rows;
    info->estimatedCost = plan == GET ? 2 : plan >= NEAR ? 40 : 5 + cost;
    info->idxStr = sqlite3_str_finish(words), info->needToFreeIdxStr = 1;
    return info->idxStr ? SQLITE_OK : SQLITE_NOMEM;
}

/* ---- cursors */
int open_cursor(sqlite3_vtab *v, sqlite3_vtab_cursor **out) {
    Cursor *c = malloc(sizeof *c);
    if (!c) return SQLITE_NOMEM;
    memset(c, 0, offsetof(Cursor, few));
    c->rows = c->few;
    ((Table *)v)->store->readers++;
    return *out = &c->base, SQLITE_OK;
}

static void clear(Cursor *c) {
    rstore_free(c->found);
    c->rows = c->few, c->found = NULL;
    c->count = c->at = c->split = 0, c->near = c->first = c->below = c->is_after = false;
}

int close_cursor(sqlite3_vtab_cursor *cursor) {
    Table *t = (Table *)cursor->pVtab;
    clear((Cursor *)cursor), free(((Cursor *)cursor)->held), free(cursor);
    t->store->readers--;
    return rest(t), SQLITE_OK;
}

/* The greatest whole c with c / scale at most x, or below it; no further out than one beyond 32 bits. */
static int64_t most(double x, double scale, bool below) {
    double c = floor(x * scale) + 1;
    if (c > INT32_MAX) return INT32_MAX;
    if (c < INT32_MIN) return (int64_t)INT32_MIN - 1;
    int64_t n = (int64_t)c;
    while ((double)n / scale > x || (below && (double)n / scale == x)) n--;
    return n;
}

static void narrow(Bounds *b, int column, int64_t low, int64_t high) {
    if (low > b->low[column]) b->low[column] = low;
    if (high < b->high[column]) b->high[column] = high;
    b->any = true;
}

/* The bound that a column has by an operator and a value. A text is above each number. */
static void compare(Bounds *b, int column, const char *op, sqlite3_value *v, double scale) {
    bool strict = *op != '=' && op[1] != '=';
    if (scale == 1 && sqlite3_value_type(v) == SQLITE_INTEGER) { /* most are */
        sqlite3_int64 n = sqlite3_value_int64(v), end = INT64_C(1) << 32;
        n = n < -end ? -end : n > end ? end : n;
        narrow(b, column, *op == '<' ? INT32_MIN : n + strict, *op == '>' ? INT32_MAX : n - strict);
        return;
    }
    double x = sqlite3_value_double(v);
    if (is_number(v))
        narrow(b, column, *op == '<' ? INT32_MIN : -most(-x, scale, strict),
               *op == '>' ? INT32_MAX : most(x, scale, strict));
    else if (sqlite3_value_type(v) == SQLITE_NULL || *op != '<') b->none = true;
}

/* The bounds that a text is, a point or a box: the lows, and then the highs, with blanks or commas between them. */
static bool read_box(Cursor *c, const Table *t, int what, const char *text) {
    double x[6];
    uint32_t count = 0;
    int32_t low[3], high[3];
    for (char *end; *text; text = end + strspn(end, " ,\t\n"), count++) {
        if (count == 6) return false;
        x[count] = strtod(text, &end);
        if (end == text) return false;
    }
    if (!(what != INSIDE && count == t->axes) && !(what != NEAREST && count == 2 * t->axes)) return false;
    for (int k = 0; k < (int)t->axes; k++) {
        if (!stored(x[k], t->scale, false, &low[k])) return false;
        high[k] = low[k];
        if (count > t->axes && (!stored(x[(int)t->axes + k], t->scale, true, &high[k]) || high[k] < low[k]))
            return false;
        if (what == NEAREST) c->point[k] = low[k];
        if (what == MEETS || what == AROUND) narrow(&c->bounds, 2 * k, INT32_MIN, what == MEETS ? high[k] : low[k]);
        if (what == MEETS || what == AROUND) narrow(&c->bounds, 2 * k + 1, what == MEETS ? low[k] : high[k], INT32_MAX);
        if (what == INSIDE)
            narrow(&c->bounds, 2 * k, low[k], INT32_MAX), narrow(&c->bounds, 2 * k + 1, INT32_MIN, high[k]);
    }
    return true;
}

static bool fits(const Bounds *b, const rstore_row *row, uint32_t axes) {
    for (uint32_t k = 0; b->any && k < axes; k++)
        if (row->low[k] < b->low[2 * k] || row->low[k] > b->high[2 * k] ||
            row->high[k] < b->low[2 * k + 1] || row->high[k] > b->high[2 * k + 1]) return false;
    return !b->tagged || row->tag == b->tag;
}

/* Which one query leaves least to be looked at after it, by the bounds; -1 where nothing can be within them. `exact` is
 * whether it leaves nothing. */
static int query_of(Bounds *b, uint32_t axes, bool *exact) {
    bool inside = true, around = true, meets = true, one_sided = true;
    for (uint32_t k = 0; k < axes; k++) {
        int64_t *low = &b->low[2 * k], *high = &b->high[2 * k]; /* of min, and behind that of max */
        one_sided &= low[0] == INT32_MIN && high[1] == INT32_MAX;
        if (low[1] < low[0]) low[1] = low[0]; /* since min is at most max */
        if (high[0] > high[1]) high[0] = high[1];
        if (low[0] > high[0] || low[1] > high[1]) return -1;
        inside &= low[0] == low[1] && high[0] == high[1];
        around &= high[0] <= low[1];
        meets &= low[1] <= high[0];
    }
    *exact = inside || (one_sided && (around || meets));
    return inside ? RSTORE_INSIDE : around ? RSTORE_AROUND : RSTORE_WINDOW;
}

static void box_within(const Bounds *b, uint32_t axes, int kind, int32_t *box) {
    for (uint32_t k = 0; k < axes; k++) {
        const int64_t *low = &b->low[2 * k], *high = &b->high[2 * k];
        bool crossed = kind == RSTORE_AROUND || low[1] > high[0];
        box[k] = (int32_t)(kind == RSTORE_INSIDE ? low[0] : crossed ? high[0] : low[1]);
        box[axes + k] = (int32_t)(kind == RSTORE_INSIDE ? high[1] : kind == RSTORE_AROUND ? low[1] : high[0]);
    }
}

/* Has room for an answer that is longer than `few`. */
static bool has_room(Cursor *c, size_t count) {
    if (count > c->room) {
        free(c->held);
        c->held = malloc(count * sizeof *c->held), c->room = c->held ? count : 0;
    }
    c->rows = c->held;
    return c->held;
}

/* Asks for the objects within the bounds. */
static int search(Cursor *c, Table *t) {
    Bounds *b = &c->bounds;
    rstore *db = t->store->db;
    int32_t box[6];
    bool exact;
    size_t count = 0;
    int kind = query_of(b, t->axes, &exact);
    if (kind < 0) return RSTORE_OK;
    box_within(b, t->axes, kind, box);
    const uint32_t *tag = b->tagged ? &b->tag : NULL;
    const uint64_t *after = c->is_after ? &c->after : NULL;
    bool sorted = c->sorted || after;
    int error = sorted ? rstore_range_after(db, t->layer, kind, box, t->axes, tag, after, c->few, ROOM, &count)
                       : rstore_range_unordered(db, t->layer, kind, box, t->axes, tag, c->few, ROOM, &count);
    if (error) return error;
    if (count > ROOM && !has_room(c, count)) return RSTORE_MEMORY;
    if (count > ROOM) rstore_more(db, 0, c->rows, count);
    if (exact) c->count = count;
    for (size_t k = 0; !exact && k < count; k++)
        if (fits(b, &c->rows[k], t->axes)) c->rows[c->count++] = c->rows[k];
    if (sorted && c->count && c->rows[c->count - 1].id > INT64_MAX) /* SQL's negative identifiers, which come first */
        while (c->rows[c->split].id <= INT64_MAX) c->split++;
    return RSTORE_OK;
}

static double distance_of(const rstore_near *n, double scale) {
    return sqrt((double)n->distance_high * 0x1p64 + (double)n->distance) / scale;
}

static bool is_behind(const rstore_near *a, const rstore_near *b) {
    if (a->distance_high != b->distance_high) return a->distance_high > b->distance_high;
    return a->distance != b->distance ? a->distance > b->distance : a->id > b->id;
}

/* Asks for more of the nearest, and goes behind the last one that was told: `at` is `count` where there are no more. */
static int ask_more(Cursor *c, Table *t) {
    uint64_t there = 0, asked = c->ask < MOST_NEAREST ? c->ask : MOST_NEAREST;
    bool first = !c->found;
    int error = need_still(t, true);
    if (!error && !first) error = rstore_count(t->store->db, t->layer, &there);
    if (error || (!first && c->count >= there)) return error; /* all were told */
    if (!first && c->count == MOST_NEAREST) return RSTORE_BAD_COUNT;
    rstore_free(c->found), c->found = NULL, c->count = c->at = 0;
    error = rstore_nearest(t->store->db, t->layer, asked, c->point, t->axes, &c->found, &c->count);
    while (!error && !first && c->at < c->count && !is_behind(&c->found[c->at], &c->last)) c->at++;
    c->ask = 8 * asked;
    return error;
}

/* Stands at the first row: SQL's negative identifiers, which come first, are behind the others. */
static void stand(Cursor *c) {
    c->end = c->rows + c->count;
    if (!c->count) return;
    if (c->down) c->now = (c->split ? c->rows + c->split : c->end) - 1;
    else c->now = c->rows + c->split;
}

/* Goes on to the row behind it, and behind the last one of the array to the other end. */
static void step(Cursor *c) {
    if (!c->down) c->now = c->now + 1 == c->end ? c->rows : c->now + 1;
    else c->now = (c->now == c->rows ? c->end : c->now) - 1;
}

static sqlite3_int64 id_now(const Cursor *c) { return (sqlite3_int64)(c->near ? c->last.id : c->now->id); }

static int get_row(Cursor *c, Table *t) {
    int error = need_still(t, true);
    if (!error) error = rstore_get(t->store->db, t->layer, c->last.id, &c->row);
    c->has_row = !error;
    return error;
}

/* Goes on to the nearest object from `at` on that is wanted. */
static int go_on(Cursor *c, Table *t) {
    for (c->has_row = false; c->left; c->at++) {
        size_t before = 0;
        while (c->at == c->count) { /* again, where those that were asked for were all told before */
            int error = ask_more(c, t);
            if (error || c->count == before) return error;
            before = c->count;
        }
        c->last = c->found[c->at];
        double distance = distance_of(&c->last, t->scale);
        if (distance > c->far || (c->below && distance == c->far)) break;
        if (!c->bounds.any && !c->bounds.tagged) return c->left--, RSTORE_OK;
        int error = get_row(c, t);
        if (error && error != RSTORE_NO_OBJECT) return error;
        if (!error && fits(&c->bounds, &c->row, t->axes)) return c->left--, RSTORE_OK;
    }
    return c->at = c->count, RSTORE_OK;
}

/* ---- arguments */
typedef struct Asked { /* what is kept in no cursor */
    sqlite3_int64 id, limit;
    bool all; /* there is no limit, or one too great for the nearest */
} Asked;

/* Leaves out what can't be behind an identifier, which SQLite looks at again. */
static void read_after(Cursor *c, const char *op, sqlite3_value *value) {
    bool strict = op[1] != '=';
    sqlite3_int64 n = sqlite3_value_type(value) == SQLITE_INTEGER ? sqlite3_value_int64(value) : -1;
    c->is_after = strict ? n >= 0 : n > 0; /* behind a negative one all others come */
    c->after = (uint64_t)n - !strict;
}

static int read_argument(Cursor *c, Table *t, int what, const char *op, sqlite3_value *value, Asked *asked) {
    Bounds *b = &c->bounds;
    sqlite3_int64 n = 0;
    const char *text;
    if (what >= MINX && what <= MAXZ) compare(b, what - MINX, op, value, t->scale);
    else if (what == ID && *op == '>') read_after(c, op, value);
    else if (what == ID) b->none |= !whole(value, &asked->id);
    else if (what == TAG)
        b->none |= !whole(value, &n) || n < 0 || n > UINT32_MAX, b->tagged = true, b->tag = (uint32_t)n;
    else if (what == K) b->none |= !whole(value, &n) || n < 1, c->left = (uint64_t)n;
    else if (what >= LIMIT && whole(value, &n) && n >= 0 && n + asked->limit < MOST_NEAREST)
        asked->limit += n; /* so many are asked for at once */
    else if (what >= LIMIT) asked->all = true;
    else if (what == DISTANCE && is_number(value)) c->far = sqlite3_value_double(value), c->below = op[1] != '=';
    else if (what == DISTANCE) b->none |= sqlite3_value_type(value) == SQLITE_NULL;
    else if (!(text = (const char *)sqlite3_value_text(value))) b->none = true;
    else if (!read_box(c, t, what, text))
        return fail(t, SQLITE_ERROR, "%s.%s wants %s: %.80s", t->name, column_names[what],
                    what == NEAREST ? "a point" : "a box", text);
    return SQLITE_OK;
}

/* Reads the words of a plan, as long as it is another one than before. */
static void read_plan(Cursor *c, const char *plan, int argc) {
    if (c->plan == plan) return;
    c->plan = plan;
    for (int k = 0; k < argc; k++) {
        plan = strchr(plan, ' ') + 1;
        size_t length = 0;
        int what = ID;
        while (plan[length] > '>') length++; /* up to an operator, a blank or the end */
        while (*column_names[what] != *plan || strncmp(column_names[what], plan, length) || column_names[what][length])
            what++;
        c->asks[k] = (Ask){ what, plan + length };
    }
}

static int read_arguments(Cursor *c, Table *t, int argc, sqlite3_value **argv, Asked *asked) {
    int code = SQLITE_OK;
    for (int k = 0; k < argc && !code; k++) code = read_argument(c, t, c->asks[k].what, c->asks[k].op, argv[k], asked);
    return code;
}

/* Whether rows are few beside all, so that it pays to get them one by one. */
static bool wants_few(const Table *t, const Asked *asked) {
    uint64_t there = 0;
    return !asked->all && !rstore_count(t->store->db, t->layer, &there) && (uint64_t)asked->limit < there / 8;
}

/* Asks the first question of a plan. */
static int answer(Cursor *c, Table *t, int plan, const Asked *asked) {
    if (plan == RANGE || (plan == FIRST && !wants_few(t, asked))) return search(c, t);
    if (plan == GET) {
        int error = rstore_get(t->store->db, t->layer, (uint64_t)asked->id, c->few);
        c->count = !error && fits(&c->bounds, c->few, t->axes);
        return error == RSTORE_NO_OBJECT ? RSTORE_OK : error;
    }
    c->near = true, c->first = plan == FIRST;
    if (c->first) memset(c->point, 0, sizeof c->point);
    c->ask = asked->limit ? (uint64_t)asked->limit : c->left < 16 ? c->left : 16;
    return go_on(c, t);
}

int filter(sqlite3_vtab_cursor *cursor, int number, const char *plan, int argc, sqlite3_value **argv) {
    Cursor *c = (Cursor *)cursor;
    Table *t = (Table *)cursor->pVtab;
    Asked asked = { .all = false };
    clear(c);
    c->bounds = (Bounds){ .none = false };
    for (int k = 0; k < 6; k++) c->bounds.low[k] = INT32_MIN, c->bounds.high[k] = INT32_MAX;
    c->far = INFINITY, c->left = UINT64_MAX, c->sorted = number & SORTED, c->down = number & DOWN;
    read_plan(c, plan, argc);
    int code = read_arguments(c, t, argc, argv, &asked);
    if (code || c->bounds.none) return code;
    int error = need_still(t, c->had);
    c->had = !error;
    if (!error) error = answer(c, t, number & 3, &asked);
    if (!c->near) stand(c);
    return tell(t, error);
}

/* ---- rows */
int next(sqlite3_vtab_cursor *cursor) {
    Cursor *c = (Cursor *)cursor;
    c->at++;
    if (c->near) return tell((Table *)cursor->pVtab, go_on(c, (Table *)cursor->pVtab));
    return step(c), SQLITE_OK;
}

int eof(sqlite3_vtab_cursor *cursor) { return ((Cursor *)cursor)->at >= ((Cursor *)cursor)->count; }

int row_id(sqlite3_vtab_cursor *cursor, sqlite3_int64 *id) {
    return *id = id_now((Cursor *)cursor), SQLITE_OK;
}

/* A number of the box, or behind these the tag. */
static int stored_column(const Table *t, sqlite3_context *to, const rstore_row *row, int number) {
    if (number > 2 * (int)t->axes) return sqlite3_result_int64(to, row->tag), SQLITE_OK;
    int32_t at = (number & 1 ? row->low : row->high)[(number - 1) / 2];
    if (t->scale == 1) sqlite3_result_int(to, at);
    else sqlite3_result_double(to, at / t->scale);
    return SQLITE_OK;
}

/* A column of the nearest, or one that no row of the store has. It stays apart, so that the others need no frame. */
__attribute__((noinline)) static int other_column(Cursor *c, Table *t, sqlite3_context *to, int number) {
    int what = column_of(t, number);
    if (what == ID) return sqlite3_result_int64(to, id_now(c)), SQLITE_OK;
    if (what >= COLUMNS) return get_more(t, id_now(c), what - COLUMNS, to);
    if (what == DISTANCE && c->near && !c->first) sqlite3_result_double(to, distance_of(&c->last, t->scale));
    if (what >= DISTANCE) return SQLITE_OK;
    int error = c->has_row ? RSTORE_OK : get_row(c, t);
    if (error) return error == RSTORE_NO_OBJECT ? SQLITE_OK : tell(t, error); /* it was deleted since */
    return stored_column(t, to, &c->row, number);
}

int column(sqlite3_vtab_cursor *cursor, sqlite3_context *to, int number) {
    Cursor *c = (Cursor *)cursor;
    Table *t = (Table *)cursor->pVtab;
    if (c->near || number > 2 * (int)t->axes + 1) return other_column(c, t, to, number);
    if (number <= 0) return sqlite3_result_int64(to, (sqlite3_int64)c->now->id), SQLITE_OK;
    return stored_column(t, to, c->now, number);
}
