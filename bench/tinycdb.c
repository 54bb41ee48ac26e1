// A constant database by Debian's libcdb-dev over the lines of a file, and look-ups in it.
//   tinycdb -g LINES FILE     builds
//   tinycdb FILE KEYS         writes the key and the value of each line of KEYS that is a key; its status is 1 if one is none
#include "lines.h"
#include <cdb.h>
#include <fcntl.h>
#include <unistd.h>

static int build(const char *lines, const char *path) {
    FILE *file = opened(lines, "rb");
    struct line line = {0};
    struct record record;
    struct cdb_make made;
    const int to = open(path, O_RDWR | O_CREAT | O_TRUNC, 0644);
    if (to < 0 || cdb_make_start(&made, to)) stop(path);
    while (next_record(file, &line, &record))
        if (cdb_make_add(&made, record.key, record.key_len, record.value, record.value_len)) stop(path);
    if (cdb_make_finish(&made) || fsync(to) || close(to)) stop(path);
    return 0;
}

static int look_up(const char *path, const char *keys) {
    FILE *file = opened(keys, "rb");
    struct line line = {0};
    struct cdb found;
    const int from = open(path, O_RDONLY);
    if (from < 0 || cdb_init(&found, from)) stop(path);
    int status = 0;
    for (ssize_t length; (length = next_line(file, &line)) >= 0;)
        if (cdb_find(&found, line.bytes, length) > 0)
            write_record(line.bytes, length, cdb_getdata(&found), cdb_datalen(&found));
        else
            status = 1;
    return status;
}

int main(int argc, char **argv) {
    const int builds = argc == 4 && !strcmp(argv[1], "-g");
    if (!builds && argc != 3) return 2;
    setvbuf(stdout, NULL, _IOFBF, PIECE);
    return builds ? build(argv[2], argv[3]) : look_up(argv[1], argv[2]);
}
