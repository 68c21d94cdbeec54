/* example FILE: opens a store in a file, makes a layer, inserts, asks, and closes. */
#include <stdio.h>
#include <stdlib.h>

#include "rstore.h"

static void need(int error) {
    if (error) {
        fprintf(stderr, "rstore: %d %s\n", error, rstore_errstr(error));
        exit(1);
    }
}

int main(int argc, char **argv) {
    rstore *db;
    rstore_row *rows;
    rstore_near *near;
    rstore_pair *pairs;
    size_t count;
    if (argc != 2) return 2;
    need(rstore_open(argv[1], RSTORE_CREATE, 0, &db));
    need(rstore_create_layer(db, "parks", 2, 100));
    need(rstore_insert(db, "parks", 1, (int32_t[]){0, 0, 10, 10}, 2, 0));
    need(rstore_insert(db, "parks", 2, (int32_t[]){20, 20, 30, 30}, 2, 7));
    need(rstore_insert(db, "parks", 3, (int32_t[]){8, 8, 12, 12}, 2, 7));

    need(rstore_window(db, "parks", (int32_t[]){5, 5, 9, 9}, 2, NULL, &rows, &count));
    for (size_t k = 0; k < count; k++)
        printf("park %llu: %d %d .. %d %d\n", (unsigned long long)rows[k].id, rows[k].low[0], rows[k].low[1],
               rows[k].high[0], rows[k].high[1]);
    rstore_free(rows);

    uint32_t tag = 7; /* the same, of the parks with this tag alone */
    need(rstore_window(db, "parks", (int32_t[]){5, 5, 9, 9}, 2, &tag, &rows, &count));
    printf("with tag 7: %zu\n", count);
    rstore_free(rows);

    need(rstore_nearest(db, "parks", 1, (int32_t[]){19, 19}, 2, &near, &count));
    printf("nearest: %llu, squared distance %llu\n", (unsigned long long)near[0].id, (unsigned long long)near[0].distance);
    rstore_free(near);

    need(rstore_join(db, "parks", "parks", 0, &pairs, &count));
    printf("pairs that meet: %zu\n", count);
    rstore_free(pairs);

    /* errors are numbers, with a message */
    int error = rstore_insert(db, "parks", 3, (int32_t[]){1, 1, 2, 2}, 2, 0);
    printf("again: %d %s\n", error, rstore_errstr(error));

    need(rstore_commit(db)); /* all is in the file now */
    need(rstore_delete(db, "parks", 1));
    need(rstore_close(db)); /* and this, too */
    return 0;
}
