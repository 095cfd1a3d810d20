// The counter game on LMDB without sync, with the same work: so many pending tasks wait in the order of their due moments and
// keys. Each transaction takes the first of them, finds by name the counter that it tells, raises the object that the name leads
// to, and leaves the task no longer pending. All stands in one tree, told apart by a first byte, which is
// faster than a database for each store. Prints the nanoseconds of all transactions together, and the manner of its run.
//
//     counters_lmdb FOLDER TASKS nosync|nosync+writemap
//
// With the second LMDB writes through a map of its file.
#include <endian.h>
#include <lmdb.h>
#include <stdint.h>
#include <stdio.h>
#include <stdlib.h>
#include <string.h>
#include <time.h>

enum { COUNTERS = 16 };

// Keys, whose numbers are big-endian, so that they are in order.
struct __attribute__((packed)) object_key { char tag; uint64_t run; uint32_t k; };
struct __attribute__((packed)) task_key { char tag; uint64_t due, run; uint32_t k; };
struct __attribute__((packed)) name_key { char tag; char text[5]; };

static MDB_dbi world;

static void must(int code) {
    if (code == 0) return;
    fprintf(stderr, "%s\n", mdb_strerror(code));
    exit(1);
}

// The counter of the task of this number, from 1, for the seed 7.
static unsigned char counter_of(unsigned number) { return (7 + number / 2) % COUNTERS; }

static struct name_key name_of(unsigned counter) {
    struct name_key name = {.tag = 'n'};
    snprintf(name.text, sizeof name.text, "c.%02u", counter % COUNTERS);
    return name;
}

static void put(MDB_txn *txn, void *key, size_t key_len, void *value, size_t value_len) {
    MDB_val at = {key_len, key}, what = {value_len, value};
    must(mdb_put(txn, world, &at, &what, 0));
}

static void get(MDB_txn *txn, void *key, size_t key_len, void *value, size_t value_len) {
    MDB_val at = {key_len, key}, found;
    must(mdb_get(txn, world, &at, &found));
    if (found.mv_size != value_len) exit(1);
    memcpy(value, found.mv_data, value_len);
}

// The counters at 0 under their names, and the tasks, due at once.
static void begin_game(MDB_env *env, unsigned tasks) {
    MDB_txn *txn;
    must(mdb_txn_begin(env, NULL, 0, &txn));
    must(mdb_dbi_open(txn, NULL, 0, &world));
    for (unsigned counter = 0; counter < COUNTERS; counter++) {
        struct name_key name = name_of(counter);
        struct object_key object = {'o', 0, htobe32(counter)};
        uint64_t count = 0;
        put(txn, &name, 5, &object, sizeof object);
        put(txn, &object, sizeof object, &count, sizeof count);
    }
    for (unsigned number = 1; number <= tasks; number++) {
        struct task_key task = {'t', 0, 0, htobe32(number - 1)};
        unsigned char counter = counter_of(number);
        put(txn, &task, sizeof task, &counter, 1);
    }
    must(mdb_txn_commit(txn));
}

// Takes the first pending task out, and tells its counter; false where none is left.
static int take_task(MDB_txn *txn, unsigned char *counter) {
    MDB_cursor *cursor;
    char tag = 't';
    MDB_val at = {1, &tag}, found;
    must(mdb_cursor_open(txn, world, &cursor));
    int code = mdb_cursor_get(cursor, &at, &found, MDB_SET_RANGE);
    if (code == 0) {
        *counter = *(unsigned char *)found.mv_data;
        must(mdb_cursor_del(cursor, 0));
    } else if (code != MDB_NOTFOUND) {
        must(code);
    }
    mdb_cursor_close(cursor);
    return code == 0;
}

static void raise_counter(MDB_txn *txn, unsigned counter) {
    struct name_key name = name_of(counter);
    struct object_key object;
    uint64_t count;
    get(txn, &name, 5, &object, sizeof object);
    get(txn, &object, sizeof object, &count, sizeof count);
    count++;
    put(txn, &object, sizeof object, &count, sizeof count);
}

static int run_task(MDB_env *env) {
    MDB_txn *txn;
    unsigned char counter;
    must(mdb_txn_begin(env, NULL, 0, &txn));
    if (!take_task(txn, &counter)) {
        mdb_txn_abort(txn);
        return 0;
    }
    raise_counter(txn, counter);
    must(mdb_txn_commit(txn));
    return 1;
}

// How LMDB may be opened: its flags under their name.
static const struct manner { const char *name; unsigned flags; } manners[] = {
    {"nosync", MDB_NOSYNC},
    {"nosync+writemap", MDB_NOSYNC | MDB_WRITEMAP},
};

// The manner of this name; NULL where there is none.
static const struct manner *manner_of(const char *name) {
    for (size_t at = 0; at < sizeof manners / sizeof *manners; at++) {
        if (strcmp(name, manners[at].name) == 0) return &manners[at];
    }
    return NULL;
}

int main(int argc, char **argv) {
    const struct manner *manner = argc == 4 ? manner_of(argv[3]) : NULL;
    if (manner == NULL) return 2;
    unsigned tasks = (unsigned)atol(argv[2]), done = 0;
    MDB_env *env;
    must(mdb_env_create(&env));
    must(mdb_env_set_mapsize(env, 1 << 28));
    must(mdb_env_open(env, argv[1], manner->flags, 0666));
    begin_game(env, tasks);
    struct timespec start, end;
    clock_gettime(CLOCK_MONOTONIC, &start);
    while (run_task(env)) done++;
    clock_gettime(CLOCK_MONOTONIC, &end);
    if (done != tasks) return 1;
    printf("%lld %s\n", (long long)(end.tv_sec - start.tv_sec) * 1000000000 + (end.tv_nsec - start.tv_nsec), manner->name);
    mdb_env_close(env);
    return 0;
}
