// A database of LMDB, by Debian's liblmdb-dev, over the lines of a file, and look-ups in it.
//   lmdb -g LINES FILE     builds, in one transaction
//   lmdb FILE KEYS         writes the key and the value of each line of KEYS that is a key; its status is 1 if one is none
// Keys have from 1 to 511 bytes.
#include "lines.h"
#include <lmdb.h>
#include <unistd.h>

#define MOST_BYTES ((size_t)1 << 36)

static void must(int code) {
    if (!code) return;
    fprintf(stderr, "lmdb: %s\n", mdb_strerror(code));
    exit(2);
}

// The database of a file, and a transaction in it.
static MDB_dbi begun(const char *path, unsigned flags, MDB_txn **txn) {
    MDB_env *env;
    MDB_dbi dbi;
    must(mdb_env_create(&env));
    must(mdb_env_set_mapsize(env, MOST_BYTES));
    must(mdb_env_open(env, path, MDB_NOSUBDIR | MDB_NOLOCK | flags, 0644));
    must(mdb_txn_begin(env, NULL, flags, txn));
    must(mdb_dbi_open(*txn, NULL, 0, &dbi));
    return dbi;
}

static int build(const char *lines, const char *path) {
    FILE *file = opened(lines, "rb");
    struct line line = {0};
    struct record record;
    MDB_txn *txn;
    unlink(path);
    const MDB_dbi dbi = begun(path, 0, &txn);
    while (next_record(file, &line, &record)) {
        MDB_val key = {record.key_len, record.key}, value = {record.value_len, record.value};
        must(mdb_put(txn, dbi, &key, &value, MDB_NOOVERWRITE));
    }
    must(mdb_txn_commit(txn));
    return 0;
}

static int look_up(const char *path, const char *keys) {
    FILE *file = opened(keys, "rb");
    struct line line = {0};
    MDB_txn *txn;
    const MDB_dbi dbi = begun(path, MDB_RDONLY, &txn);
    int status = 0;
    for (ssize_t length; (length = next_line(file, &line)) >= 0;) {
        MDB_val key = {length, line.bytes}, value;
        const int code = mdb_get(txn, dbi, &key, &value);
        if (code == MDB_NOTFOUND)
            status = 1;
        else
            must(code), write_record(line.bytes, length, value.mv_data, value.mv_size);
    }
    return status;
}

int main(int argc, char **argv) {
    const int builds = argc == 4 && !strcmp(argv[1], "-g");
    if (!builds && argc != 3) return 2;
    setvbuf(stdout, NULL, _IOFBF, PIECE);
    return builds ? build(argv[2], argv[3]) : look_up(argv[1], argv[2]);
}
