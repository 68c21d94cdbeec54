/* held.c - blocks of a shadow table that are held in memory, as many as `PRAGMA cache_size` says. The store's own cache has
 * 4096 pages at most, and each other page that it asks for would be a row for SQLite to find. */
#include "module.h"

SQLITE_EXTENSION_INIT3

#define BLOCK 4096
#define MOST 0x1000000 /* 64 GB of blocks */

enum { WAYS = 8 }; /* where one block may lie, by its number; so as many blocks as are held, from 0 on, all have a place */

typedef struct Way {
    uint64_t block;
    char *bytes; /* without the zeros at its end; NULL where nothing is held */
    uint16_t size;
    bool used;   /* since it was last passed over */
} Way;

struct Held {
    size_t sets;
    Way ways[]; /* those of a set stand together */
};

static Way *set_of(Held *h, uint64_t block) { return h->ways + block % h->sets * WAYS; }

static Way *way_of(Held *h, uint64_t block) {
    for (Way *w = set_of(h, block), *end = w + WAYS; w < end; w++)
        if (w->bytes && w->block == block) return w;
    return NULL;
}

/* The way for a block that is not held: one that was not used lately goes. */
static Way *way_for(Held *h, uint64_t block) {
    Way *set = set_of(h, block), *unused = NULL;
    for (Way *w = set; w < set + WAYS; w++) {
        if (!w->bytes) return w;
        if (!w->used && !unused) unused = w;
    }
    for (Way *w = set; !unused && w < set + WAYS; w++) w->used = false;
    return unused ? unused : set;
}

/* Room for so many blocks, or NULL where it is refused, or is not worth it. */
static Held *made(sqlite3_int64 count) {
    size_t sets = (size_t)(count < MOST ? count : MOST) / WAYS, size = sizeof(Held) + sets * WAYS * sizeof(Way);
    Held *h = sets ? sqlite3_malloc64(size) : NULL;
    return h ? memset(h, 0, size), h->sets = sets, h : NULL;
}

/* Hands out a block, if it is held. */
bool take_held(Held *h, uint64_t block, void *bytes) {
    Way *w = h ? way_of(h, block) : NULL;
    if (!w) return false;
    memcpy(bytes, w->bytes, w->size), memset((char *)bytes + w->size, 0, BLOCK - (size_t)w->size);
    return w->used = true;
}

/* Holds a block that is so now, if memory for it is there, in a table that has more of them than the store holds. */
void hold_block(Table *t, uint64_t block, const void *bytes, size_t size) {
    if (block >= t->blocks) t->blocks = block + 1;
    if (t->blocks <= t->cache) return;
    if (!t->held && !(t->held = made(t->most_held))) return;
    Way *w = way_of(t->held, block);
    if (!w) w = way_for(t->held, block);
    char *room = w->bytes && w->size == size ? w->bytes : sqlite3_realloc64(w->bytes, size ? size : 1);
    if (!room) sqlite3_free(w->bytes);
    else memcpy(room, bytes, size);
    *w = (Way){ .block = block, .bytes = room, .size = (uint16_t)size };
}

/* Lets go of all. */
void drop_held(Table *t) {
    for (size_t k = 0; t->held && k < t->held->sets * WAYS; k++) sqlite3_free(t->held->ways[k].bytes);
    sqlite3_free(t->held);
    t->held = NULL, t->blocks = 0;
}
