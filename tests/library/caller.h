/* What the jobs of caller.c share: files, keys, functions that are opened and asked, and numbers of any values. */
#include "cmph_c.h"

#include <stdio.h>
#include <stdlib.h>
#include <string.h>

/* Bytes, of which none is past the last: a tool that watches memory sees each access outside. */
typedef struct bytes {
    uint8_t *at;
    size_t len;
} bytes;

/* An index, of which no number is past the last. */
typedef struct index_room {
    uint64_t *at;
    size_t len;
} index_room;

/* Keys without their line ends, one after another, and where each ends. */
typedef struct key_list {
    uint8_t *at;
    size_t len;
    uint64_t *ends;
    size_t many;
} key_list;

static void fail(const char *what) {
    fprintf(stderr, "caller: %s\n", what);
    exit(1);
}

/* Not null, even of no bytes. */
static void *room(size_t len) {
    void *at = malloc(len);
    if (!at && !len) at = malloc(1);
    if (!at) fail("no memory");
    return at;
}

static uint32_t number(const char *word) {
    return (uint32_t)strtoul(word, NULL, 10);
}

static bytes read_file(const char *path) {
    FILE *file = fopen(path, "rb");
    bytes read = {NULL, 0};
    long len = 0;
    if (!file || fseek(file, 0, SEEK_END) || (len = ftell(file)) < 0 || fseek(file, 0, SEEK_SET)) fail(path);
    read.len = (size_t)len;
    read.at = (uint8_t *)room(read.len);
    if (fread(read.at, 1, read.len, file) != read.len) fail(path);
    fclose(file);
    return read;
}

static void write_file(const char *path, bytes written) {
    FILE *file = fopen(path, "wb");
    if (!file || fwrite(written.at, 1, written.len, file) != written.len || fclose(file)) fail(path);
}

static key_list read_keys(const char *path) {
    bytes text = read_file(path);
    key_list keys = {(uint8_t *)room(text.len), 0, (uint64_t *)room((text.len + 1) * sizeof(uint64_t)), 0};
    for (size_t i = 0; i < text.len; i++) {
        if (text.at[i] == '\n')
            keys.ends[keys.many++] = keys.len;
        else
            keys.at[keys.len++] = text.at[i];
    }
    if (text.len && text.at[text.len - 1] != '\n') keys.ends[keys.many++] = keys.len;
    free(text.at);
    return keys;
}

static const uint8_t *key_at(const key_list *keys, size_t i, size_t *len) {
    size_t from = i ? (size_t)keys->ends[i - 1] : 0;
    *len = (size_t)keys->ends[i] - from;
    return keys->at + from;
}

/* Numbers that differ from run to run in nothing (Marsaglia 2003, "Xorshift RNGs"). */
static uint64_t state = 88172645463325252ULL;

static uint64_t any(void) {
    state ^= state << 13;
    state ^= state >> 7;
    state ^= state << 17;
    return state;
}

/* The numbers that belong to two. */
static void restart(uint64_t seed, uint64_t turn) {
    state = (seed + 1) * 0x9e3779b97f4a7c15ULL ^ (turn + 1) * 0xd1342543de82ef95ULL;
    state += !state;
    for (int i = 0; i < 16; i++) any();
}

/* A number of any size, often one at the edge of a range. */
static uint32_t some(void) {
    static const uint32_t edges[] = {0, 1, 2, 3, 4, 7, 10, 11, 26, 27, 64, 175, 255, 256, 700, 1023, 1024, 1000000, 10000000, 10000001,
                                     16777216, 67108863, 67108864, 67108865, 0x7fffffff, 0x80000000, 0xffffffff};
    return any() % 2 ? edges[any() % (sizeof edges / sizeof *edges)] : (uint32_t)(any() >> (any() % 64));
}

/* Stops if a struct that was refused is not as it was. */
static void expect_kept(uint32_t code, const cmph_c_function *before, const cmph_c_function *after) {
    if (code != CMPH_C_OK && memcmp(before, after, sizeof *after)) fail("a struct that was refused is changed");
}

/*
 * Opens a function with no index, then, if it needs one, with one number too few, and with as many as it needs. The struct stays as it was until it is
 * opened, and so does the place, which is then 0.
 */
static uint32_t open_exactly(bytes dump, index_room *index, cmph_c_function *out, cmph_c_place *place) {
    const cmph_c_function before = *out;
    size_t needed = 0;
    uint32_t code = 0;
    index->at = NULL;
    for (int turn = 0; turn < 3; turn++) {
        index->len = turn == 1 ? needed - 1 : needed;
        free(index->at);
        index->at = (uint64_t *)room(index->len * sizeof(uint64_t));
        place->at = place->again = 0;
        code = cmph_c_open(dump.at, dump.len, index->at, index->len, out, place);
        expect_kept(code, &before, out);
        if (turn == 0 && (code != CMPH_C_NO_ROOM || place->at == 0)) break;
        if (turn == 0) needed = (size_t)place->at;
        if (turn == 1 && (code != CMPH_C_NO_ROOM || place->at != needed)) fail("opened with an index that is too short");
    }
    if (code == CMPH_C_NO_ROOM) fail("an index that is long enough is too short");
    if (code != CMPH_C_OK) return code;
    if (place->at || place->again) fail("a place of a function that is opened");
    if ((out->kind == CMPH_C_BRZ) != (needed > 0)) fail("an index by another algorithm than BRZ");
    if (needed && needed != (out->keys + (uint64_t)out->b - 1) / out->b) fail("an index of another number of buckets");
    return code;
}

/* Opens a function with more numbers of the index than it needs: it has these numbers of the keys. */
static void opened_with_more(bytes dump, size_t needed, const key_list *keys, const uint32_t *wanted) {
    cmph_c_function function = CMPH_C_FUNCTION_INIT;
    cmph_c_place place = {7, 7};
    uint64_t *index = (uint64_t *)room((needed + 3) * sizeof(uint64_t));
    uint32_t *found = (uint32_t *)room(keys->many * sizeof(uint32_t));
    memset(index, 0x77, (needed + 3) * sizeof(uint64_t));
    if (cmph_c_open(dump.at, dump.len, index, needed + 3, &function, &place) != CMPH_C_OK || place.at != 7 || place.again != 7) fail("not opened with a longer index");
    if (cmph_c_answers(&function, keys->at, keys->len, keys->ends, keys->many, found, keys->many, &place) != CMPH_C_OK) fail("no numbers with a longer index");
    if (memcmp(found, wanted, keys->many * sizeof(uint32_t))) fail("other numbers with a longer index");
    free(index);
    free(found);
}

/* Asks for keys one at a time and in a batch: each number is below the span, or none, and both are the same. */
static void ask(const cmph_c_function *function, const key_list *keys) {
    uint32_t *found = (uint32_t *)room(keys->many * sizeof(uint32_t));
    cmph_c_place place = {0, 0};
    if (cmph_c_answers(function, keys->at, keys->len, keys->ends, keys->many, found, keys->many, &place) != CMPH_C_OK) fail("no numbers");
    for (size_t i = 0; i < keys->many; i++) {
        size_t len;
        const uint8_t *key = key_at(keys, i, &len);
        if (found[i] != CMPH_C_NONE && found[i] >= function->span) fail("a number that is not below the span");
        if (cmph_c_answer(function, key, len) != found[i]) fail("one key has two numbers");
    }
    free(found);
}
