/* stack KIB FILE: a session with all calls in a thread with so much stack. */
#include <limits.h>
#include <pthread.h>
#include <stdio.h>
#include <stdlib.h>
#include <unistd.h>

#include "rstore.h"

#define NEED(call) do { int error = (call); if (error) { fprintf(stderr, "stack.c:%d: %s\n", __LINE__, rstore_errstr(error)); exit(3); } } while (0)

static void *run(void *path) {
    rstore *db;
    rstore_row *rows;
    rstore_near *near;
    rstore_pair *pairs;
    rstore_layer *layers;
    size_t n;
    NEED(rstore_open(path, RSTORE_CREATE, 64, &db));
    NEED(rstore_create_layer(db, "a", 2, 4));
    for (int k = 0; k < 3000; k++) {
        int x = rand() % 10000, y = rand() % 10000;
        NEED(rstore_insert(db, "a", (uint64_t)k, (int32_t[]){x, y, x + 5, y + 5}, 2, 0));
    }
    for (int k = 0; k < 1500; k++) NEED(rstore_delete(db, "a", (uint64_t)k));
    for (int k = 1500; k < 1700; k++) NEED(rstore_move(db, "a", (uint64_t)k, (int32_t[]){k, k, k + 5, k + 5}, 2));
    NEED(rstore_window(db, "a", (int32_t[]){0, 0, 9999, 9999}, 2, NULL, &rows, &n));
    rstore_free(rows);
    NEED(rstore_join_files(db, "a", db, "a", 100, NULL, 2, &pairs, &n, NULL));
    rstore_free(pairs);
    NEED(rstore_join(db, "a", "a", 100, &pairs, &n));
    rstore_free(pairs);
    NEED(rstore_nearest(db, "a", 1000, (int32_t[]){5, 5}, 2, &near, &n));
    rstore_free(near);
    NEED(rstore_layers(db, &layers, &n));
    rstore_free(layers);
    NEED(rstore_commit(db));
    NEED(rstore_check(db));
    NEED(rstore_drop_layer(db, "a"));
    NEED(rstore_rollback(db));
    NEED(rstore_create_layer(db, "b", 3, 100));
    rstore_row *many = calloc(20000, sizeof *many);
    for (int k = 0; k < 20000; k++)
        many[k] = (rstore_row){(uint64_t)k, {rand() % 999, rand() % 999, rand() % 999}, {1000, 1000, 1000}, 0, 3};
    NEED(rstore_load(db, "b", 3, many, 20000));
    free(many);
    NEED(rstore_drop_layer(db, "a"));
    NEED(rstore_close(db));
    NEED(rstore_open(path, RSTORE_READ_ONLY, 8, &db));
    NEED(rstore_check(db));
    NEED(rstore_close(db));
    return NULL;
}

int main(int argc, char **argv) {
    pthread_attr_t attributes;
    pthread_t thread;
    if (argc != 3) return 2;
    pthread_attr_init(&attributes);
    if (pthread_attr_setstacksize(&attributes, (size_t)atoi(argv[1]) * 1024)) return 20;
    unlink(argv[2]);
    if (pthread_create(&thread, &attributes, run, argv[2])) return 21;
    pthread_join(thread, NULL);
    printf("%s KiB of stack serve\n", argv[1]);
    return 0;
}
