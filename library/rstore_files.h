/* The files of a handle, which rstore.c serves: opened and locked as crates/file_device opens them, or in memory, or blocks of
 * the caller's. Included by rstore.c alone. */
#ifndef RSTORE_FILES_H
#define RSTORE_FILES_H

#include "rstore.h"

#include <errno.h>
#include <fcntl.h>
#include <stdbool.h>
#include <stdio.h>
#include <stdlib.h>
#include <string.h>
#include <sys/file.h>
#include <sys/mman.h>
#include <sys/stat.h>
#include <time.h>
#include <unistd.h>

/* A file in memory, which no other has. */
struct memory {
    unsigned char *bytes;
    uint64_t size, room;
};

/* What the proved code calls a Handle is the first member: the address of a session, in a block of malloc's. */
struct rstore {
    void *session;
    int fd[3];      /* the file; its journal, or -1; and the copy that took the journal's place, or -1 */
    struct memory in[3]; /* these, where they are in memory */
    char *real;     /* the path of the file, or NULL; of its journal; and of where a copy of that is made */
    char *journal;
    char *part;
    bool memory;    /* the files are in memory, without names */
    bool reads;     /* they are only read */
    bool alone;     /* the file is locked alone, whoever reads */
    uint64_t told;  /* the file's size, as it was told last */
    off_t end;      /* of a reader: where the flag lies behind the regions of the log that it reads */
    uint32_t cache;
    uint64_t begun_with; /* how many blocks the journal had once it was opened */
    bool rolls;     /* the journal is opened already, and locked */
    bool unsure;    /* the folder of a journal that was opened could not be synced */
    bool half;      /* a change was half done, and is to be rolled back */
    bool abandoned; /* nothing is read or written any more */
    unsigned char letter, side, outcome; /* of the last request, and how it went */
    off_t at;
    rstore_blocks blocks; /* in the place of the file, or NULL each */
    void *context;
    bool marked, shut;    /* of these: whether the gate has the mark; whether their gate is known to be shut */
    bool refused;         /* the last call was a refresh, which was refused with this detail */
    uint64_t detail;
};

/* The handle whose function runs, and what came with the last opening that was refused. */
static _Thread_local rstore *serving;
static _Thread_local uint64_t refused_detail;

/* ---- files, as crates/file_device opens them; the numbers are those of OpenError in crates/stream_file */
enum { DONE = 0, REFUSED = 1, IN_USE = 2, NO_LOCKS = 3, NO_MEMORY = 4, MISSING = 5 };
enum { UNSURE = -2 };

/* The folder of a path, open; or -1. */
static int folder_of(const char *path) {
    const char *slash = strrchr(path, '/');
    char *name = slash ? strndup(path, slash == path ? 1 : (size_t)(slash - path)) : strdup(".");
    int fd = name ? open(name, O_RDONLY | O_CLOEXEC | O_DIRECTORY) : -1;
    free(name);
    return fd;
}

/* A thousandth of a second. */
static void wait_a_moment(void) { nanosleep(&(struct timespec){0, 1000000}, NULL); }

/* Asks for a lock, for some two seconds where it is one that others hold alone for an instant. */
static int lock_file(int fd, int lock, bool waits) {
    for (int tries = waits ? 2000 : 0;; tries--) {
        if (!flock(fd, lock | LOCK_NB)) return DONE;
        if (errno != EWOULDBLOCK && errno != EINTR) return NO_LOCKS;
        if (tries <= 0) return IN_USE;
        wait_a_moment();
    }
}

/* Whether a path leads to the file that is open. */
static bool leads_to(const char *path, int fd) {
    struct stat there, open;
    return !stat(path, &there) && !fstat(fd, &open) && there.st_dev == open.st_dev && there.st_ino == open.st_ino;
}

/* Opens a regular file, with its folder synced where its name is to be kept: *fd is UNSURE where that failed. Its number is
 * none of a standard stream's. With a lock it is locked, once for others or alone; one that has other names is locked alone
 * by a writer, and *alone says so, since its journal is known by one of them. */
enum lock { NONE, SHARED, WAITS, ALONE };
static int open_file(const char *path, int how, enum lock lock, bool keeps, int *fd, bool *alone) {
    struct stat found;
    int folder = keeps ? folder_of(path) : -1;
    if (keeps && folder < 0) return *fd = UNSURE, REFUSED;
    int made = open(path, how | O_CLOEXEC | O_NOCTTY | O_NONBLOCK, 0666);
    int error = made < 0 && errno == ENOENT ? MISSING : REFUSED;
    if (made >= 3 && !fstat(made, &found) && S_ISREG(found.st_mode)) {
        bool only = lock == ALONE || (lock == SHARED && found.st_nlink > 1);
        error = lock == NONE ? DONE : lock_file(made, only ? LOCK_EX : LOCK_SH, lock == WAITS);
        if (alone) *alone = only;
    }
    if (!error && folder >= 0 && fsync(folder)) error = REFUSED, *fd = UNSURE;
    if (folder >= 0) close(folder);
    if (error && made >= 0) close(made);
    if (!error) *fd = made;
    return error;
}

/* Whether the lock of a journal counts: its path still leads to it, and the file, which was looked at before, has no other
 * size. Else another session came in between, and may have gone again. */
static bool is_own(rstore *db, const char *path, int fd) {
    struct stat found;
    bool lent = db->blocks.read, first = db->fd[1] < 0;
    return leads_to(path, fd) && (lent || !first || (!fstat(db->fd[0], &found) && (uint64_t)found.st_size == db->told));
}

/* Opens the journal, or makes it, or makes a copy's file; one that was open is closed. In memory there is none but one that
 * is made. Once the name of one that is there was not synced none is opened: it was not looked at. A reader's was opened
 * before, if there is one. */
static int open_journal(rstore *db, int side, const char *path, int how) {
    int fd = -1, error = REFUSED;
    if (db->reads) return side == 1 && !how && db->fd[1] >= 0 ? DONE : REFUSED;
    if (db->unsure) return error;
    if (side == 1 && db->rolls) return !how && db->fd[1] >= 0 ? DONE : REFUSED;
    if (path) error = open_file(path, O_RDWR | how, ALONE, side == 1, &fd, NULL);
    else if (db->memory && how & O_CREAT) return db->in[side].size = 0, DONE;
    db->unsure = fd == UNSURE;
    if (!error && path && !is_own(db, path, fd)) close(fd), error = IN_USE;
    if (error) return error;
    if (db->fd[side] >= 0) close(db->fd[side]);
    db->fd[side] = fd;
    return DONE;
}

/* The lock of a file that others may read: it is held alone, if nobody does, or shared as before. Of a handle whose lock is
 * lost nothing is read or written any more. */
static int take_lock(rstore *db, bool alone) {
    if (db->memory || db->alone) return DONE;
    if (db->reads) return IN_USE;
    int error = alone ? lock_file(db->fd[0], LOCK_EX, false) : DONE;
    if (alone && !error) return DONE;
    if (lock_file(db->fd[0], LOCK_SH, true)) db->abandoned = true, error = REFUSED;
    return error;
}

/* ---- the log of a journal, as a reader finds it (docs/FORMAT.md, "The journal") */
enum { BLOCK = 4096, LOG = 2 * BLOCK };

/* Whether a region there is committed. */
static bool is_committed(int fd, off_t at) {
    unsigned char flag[9];
    return pread(fd, flag, sizeof flag, at) == sizeof flag && !memcmp(flag, "RSTARJNL\1", sizeof flag);
}

/* Where the flag lies behind the regions that are committed; -1 where one has no count, which the proved code refuses. It
 * ends, since the file does. */
static off_t end_of_log(int fd) {
    unsigned char count[12];
    off_t at = LOG;
    while (is_committed(fd, at)) {
        if (pread(fd, count, sizeof count, at + BLOCK) != sizeof count) return -1;
        off_t n = (off_t)count[8] << 24 | (off_t)count[9] << 16 | (off_t)count[10] << 8 | count[11];
        at += BLOCK * (2 + n + (n + 1023) / 1024);
    }
    return at;
}

/* Makes an empty file for a copy, in the place of one that was left. */
static int make_copy(rstore *db) {
    if (db->part) unlink(db->part);
    return open_journal(db, 2, db->part, O_CREAT | O_EXCL);
}

/* Removes the journal that is open, or gives its path to its copy, and syncs the folder. Nothing is done to another file
 * that lies there. */
static int unlink_journal(rstore *db, bool replaced) {
    struct stat there, open;
    if (db->memory) return DONE; /* it goes with the handle */
    if (db->reads) return REFUSED;
    int folder = db->journal ? folder_of(db->journal) : -1;
    if (folder < 0) return REFUSED;
    bool found = !lstat(db->journal, &there), missing = !found && errno == ENOENT && !replaced;
    bool own = found && !fstat(db->fd[db->fd[2] < 0 || replaced ? 1 : 2], &open)
               && there.st_dev == open.st_dev && there.st_ino == open.st_ino;
    bool done = missing || (own && !(replaced ? rename(db->part, db->journal) : unlink(db->journal)));
    done = done && !fsync(folder);
    close(folder);
    return done ? DONE : REFUSED;
}

/* ---- blocks of the caller's. The mark of a session that has not ended (docs/FORMAT.md, "The journal") stays in the
 * handle, so these are the blocks of a file that was closed, but while they are written. */
enum { GATE_BYTE = 8, SHUT = 1, MARKED = 2 }; /* as in crates/marked_pair */

static bool is_gate(const void *bytes, unsigned char number) {
    return !memcmp(bytes, "RSTARGAT", GATE_BYTE) && ((const unsigned char *)bytes)[GATE_BYTE] == number;
}

/* The callbacks may call the library for another handle. */
static int done_by(rstore *db, int answer) {
    serving = db;
    return answer ? REFUSED : DONE;
}

static int write_lent(rstore *db, const void *from) {
    unsigned char gate[4096];
    uint64_t number = (uint64_t)db->at / 4096;
    if (number) return done_by(db, db->blocks.write(db->context, number, from));
    memcpy(gate, from, sizeof gate);
    db->marked = is_gate(gate, MARKED);
    if (db->marked) gate[GATE_BYTE] = SHUT;
    bool shut = is_gate(gate, SHUT);
    if (shut && db->shut) return DONE;
    int answer = done_by(db, db->blocks.write(db->context, 0, gate));
    db->shut = !answer && shut;
    return answer;
}

static int read_lent(rstore *db, void *into) {
    uint64_t number = (uint64_t)db->at / 4096;
    int answer = done_by(db, db->blocks.read(db->context, number, into));
    if (answer) { memset(into, 0, 4096); return answer; }
    if (number) return DONE;
    db->shut = is_gate(into, SHUT);
    if (db->shut && db->marked) ((unsigned char *)into)[GATE_BYTE] = MARKED;
    return DONE;
}

/* How many bytes a file has, or the blocks. */
static int size_of(rstore *db, uint64_t *size) {
    struct stat found;
    bool lent = db->blocks.read && db->side == 0;
    int answer = lent ? done_by(db, db->blocks.count(db->context, size))
                 : db->memory || !fstat(db->fd[db->side], &found) ? DONE : REFUSED;
    *size = answer ? 0 : lent ? *size * 4096 : db->memory ? db->in[db->side].size : (uint64_t)found.st_size;
    if (db->side == 0) db->told = *size;
    return answer;
}

static int sync_file(rstore *db) {
    if (!db->blocks.read || db->side) return !db->memory && fdatasync(db->fd[db->side]) ? REFUSED : DONE;
    return db->blocks.sync ? done_by(db, db->blocks.sync(db->context)) : DONE;
}

static bool has_room(struct memory *m, uint64_t size) {
    uint64_t room = m->room ? m->room : 1 << 20;
    while (room < size) room *= 2;
    if (room == m->room) return true;
    void *bytes = m->room ? mremap(m->bytes, m->room, room, MREMAP_MAYMOVE)
                          : mmap(NULL, room, PROT_READ | PROT_WRITE, MAP_PRIVATE | MAP_ANONYMOUS, -1, 0);
    if (bytes == MAP_FAILED) return false;
    return m->bytes = bytes, m->room = room;
}

static int block_in(struct memory *m, uint64_t at, void *into, const void *from) {
    if (into) {
        size_t there = at >= m->size ? 0 : m->size - at < BLOCK ? (size_t)(m->size - at) : BLOCK;
        if (there) memcpy(into, m->bytes + at, there);
        return memset((char *)into + there, 0, BLOCK - there), DONE;
    }
    if (!has_room(m, at + BLOCK)) return REFUSED;
    if (at > m->size) memset(m->bytes + m->size, 0, at - m->size);
    memcpy(m->bytes + at, from, BLOCK);
    if (at + BLOCK > m->size) m->size = at + BLOCK;
    return DONE;
}

/* A block, whole, read or written; what the file lacks reads as zeros, and so does to a reader the flag behind the regions
 * that it found, so that it has one table, whatever is committed meanwhile. */
static int block(rstore *db, void *into, const void *from) {
    if (db->abandoned) { if (into) memset(into, 0, 4096); return REFUSED; }
    if (db->blocks.read && db->side == 0) return into ? read_lent(db, into) : write_lent(db, from);
    if (db->memory) return block_in(&db->in[db->side], (uint64_t)db->at, into, from);
    if (db->reads && !into) return REFUSED;
    if (db->reads && db->side == 1 && db->at == db->end) return memset(into, 0, 4096), DONE;
    int fd = db->fd[db->side];
    for (size_t done = 0; done < 4096;) {
        ssize_t n = into ? pread(fd, (char *)into + done, 4096 - done, db->at + (off_t)done)
                         : pwrite(fd, (const char *)from + done, 4096 - done, db->at + (off_t)done);
        if (n > 0) done += (size_t)n;
        else if (n == 0 && into) { memset((char *)into + done, 0, 4096 - done); return DONE; }
        else if (n == 0 || errno != EINTR) { if (into) memset(into, 0, 4096); return REFUSED; }
    }
    return DONE;
}

#endif
