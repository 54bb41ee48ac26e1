// How the programs in C that are measured read the lines of a file, and the key and the value of a line.
#define _GNU_SOURCE
#include <stdio.h>
#include <stdlib.h>
#include <string.h>

#define PIECE 65536

struct line {
    char *bytes;
    size_t room;
};

// A line without its end: its key stands before the first byte 9, and its value after it.
struct record {
    char *key, *value;
    size_t key_len, value_len;
};

static void stop(const char *what) {
    perror(what);
    exit(2);
}

static FILE *opened(const char *path, const char *how) {
    FILE *file = fopen(path, how);
    if (!file) stop(path);
    setvbuf(file, NULL, _IOFBF, PIECE);
    return file;
}

// The next line without its end, or -1.
static ssize_t next_line(FILE *file, struct line *line) {
    ssize_t length = getline(&line->bytes, &line->room, file);
    if (length > 0 && line->bytes[length - 1] == '\n') length--;
    return length;
}

__attribute__((unused)) static int next_record(FILE *file, struct line *line, struct record *record) {
    const ssize_t length = next_line(file, line);
    if (length < 0) return 0;
    char *tab = memchr(line->bytes, '\t', length);
    record->key = line->bytes;
    record->key_len = tab ? (size_t)(tab - line->bytes) : (size_t)length;
    record->value = line->bytes + record->key_len + (tab != NULL);
    record->value_len = length - record->key_len - (tab != NULL);
    return 1;
}

// Writes what a look-up by cmph_store writes of a key.
__attribute__((unused)) static void write_record(const void *key, size_t key_len, const void *value, size_t value_len) {
    fwrite_unlocked(key, 1, key_len, stdout);
    putchar_unlocked('\t');
    fwrite_unlocked(value, 1, value_len, stdout);
    putchar_unlocked('\n');
}
