/*
 * A caller of the C library, for tests/library.py; as C++ too.
 *
 *   caller version                                  the version of the library
 *   caller numbers FUNCTION KEYS                    a line for each line of KEYS: its number, or - ; one at a time and in batches
 *   caller open FUNCTION ..                         a line for each file: the code, and the offset
 *   caller fields FUNCTION                          the numbers and the lengths of the struct, in the order of the header
 *   caller codes FUNCTION                           a line for each of some refusals: its name, and the code
 *   caller memory KEYS                              a line for each algorithm: the code of a build without memory
 *   caller stack FUNCTION KEYS                      calls with the least stack: prints nothing
 *   caller room ALGORITHM RATIO B KEYS ..           a line for each number of keys: how many bytes the function file has
 *   caller build ALGORITHM RATIO B SEED TRIES KEYS OUT     writes the function file; prints the code, `at` and `again`
 *   caller spilled RATIO B SEED TRIES KEYS OUT      the same by BRZ
 *   caller route SEED SHARDS KEYS                   a line for each line of KEYS: its shard
 *   caller shifted KEYS                             bytes at odd addresses: prints nothing
 *   caller ends FUNCTION                            ends that are wrong: prints nothing
 *   caller most FUNCTION                            more keys than there may be: prints nothing
 *   caller hostile FUNCTION KEYS ROUNDS             structs and bytes of any values: prints nothing, and has to end
 *   caller changed FUNCTION KEYS ROUNDS             bytes that are changed after the function was opened: prints nothing
 *   caller damaged FUNCTION OTHER KEYS ROUNDS SEED  a line for each damaged dump of two: the code, and the offset
 *   caller damage FUNCTION OTHER SEED NUMBER ..     writes the damaged dumps of these numbers to files damagedNUMBER
 */
#ifndef _GNU_SOURCE
#define _GNU_SOURCE /* for limits of memory, and stacks */
#endif
#include "caller.h"
#include "damage.h"
#include "limits.h"

static void numbers(const char *function_path, const char *keys_path) {
    bytes dump = read_file(function_path);
    key_list keys = read_keys(keys_path);
    cmph_c_function function = CMPH_C_FUNCTION_INIT;
    cmph_c_place place;
    index_room index;
    uint32_t *found = (uint32_t *)room((keys.many + 1) * sizeof(uint32_t));
    if (open_exactly(dump, &index, &function, &place) != CMPH_C_OK) fail("not opened");
    found[keys.many] = 77;
    if (cmph_c_answers(&function, keys.at, keys.len, keys.ends, keys.many, found, keys.many + 1, &place) != CMPH_C_OK) fail("no numbers");
    if (found[keys.many] != 77) fail("a number too many");
    for (size_t i = 0; i < keys.many; i++) {
        size_t len;
        const uint8_t *key = key_at(&keys, i, &len);
        if (cmph_c_answer(&function, key, len) != found[i]) fail("one key has two numbers");
        if (found[i] == CMPH_C_NONE)
            puts("-");
        else if (found[i] >= function.span)
            fail("a number that is not below the span");
        else
            printf("%u\n", (unsigned)found[i]);
    }
    opened_with_more(dump, index.len, &keys, found);
}

static void opens(char **paths, int many) {
    for (int i = 0; i < many; i++) {
        bytes dump = read_file(paths[i]);
        cmph_c_function function = CMPH_C_FUNCTION_INIT;
        cmph_c_place place;
        index_room index;
        uint32_t code = open_exactly(dump, &index, &function, &place);
        printf("%u %llu\n", (unsigned)code, (unsigned long long)place.at);
        free(index.at);
        free(dump.at);
    }
}

static void fields(const char *path) {
    cmph_c_function f = CMPH_C_FUNCTION_INIT;
    cmph_c_place place;
    index_room index;
    if (open_exactly(read_file(path), &index, &f, &place) != CMPH_C_OK) fail("not opened");
    printf("%zu %zu %zu %llu %llu ", f.cells_len, f.ranks_len, f.index_len, (unsigned long long)f.scaled, (unsigned long long)f.keys_scaled);
    printf("%u %u %u %u %u %u %u %u\n", f.kind, f.keys, f.span, f.ratio, f.seed, f.size, f.width, f.b);
}

static void rooms(char **words, int many) {
    cmph_c_plan plan = {number(words[0]), number(words[1]), number(words[2]), 0, 1};
    for (int i = 3; i < many; i++) printf("%llu\n", (unsigned long long)cmph_c_room(&plan, number(words[i])));
}

/* Builds with no room, with one byte too few and with all that is needed. Without a size there is no function, and the last code says why. */
static void builds(char **words) {
    cmph_c_plan plan = {number(words[0]), number(words[1]), number(words[2]), number(words[3]), number(words[4])};
    key_list keys = read_keys(words[5]);
    size_t needed = (size_t)cmph_c_room(&plan, (uint32_t)keys.many), lens[] = {0, needed ? needed - 1 : 0, needed};
    cmph_c_place place = {0, 0}, short_place = {0, 0};
    uint64_t written = 77;
    uint32_t code = 0, short_code = 0;
    uint8_t *dump = NULL;
    for (int i = 0; i < 3; i++) {
        short_code = code, short_place = place;
        place.at = place.again = 0;
        dump = (uint8_t *)room(lens[i]);
        memset(dump, 0x77, lens[i]);
        code = cmph_c_build(keys.at, keys.len, keys.ends, keys.many, &plan, dump, lens[i], &written, &place);
        if (code == CMPH_C_OK ? i < 2 || written != needed : written != 77) fail("another number of bytes");
        for (size_t j = 0; code != CMPH_C_OK && j < lens[i]; j++)
            if (dump[j] != 0x77) fail("a byte that was put by a refused build");
    }
    if (code == CMPH_C_OK) {
        FILE *out = fopen(words[6], "wb");
        if (short_code != CMPH_C_NO_ROOM || short_place.at != needed) fail("too little room");
        if (!out || fwrite(dump, 1, needed, out) != needed || fclose(out)) fail("not written");
    }
    printf("%u %llu %llu\n", (unsigned)code, (unsigned long long)place.at, (unsigned long long)place.again);
}

/* A build by BRZ with a spill and a room of these lengths. What it may not write stays. */
static uint32_t build_spilled(const key_list *keys, const cmph_c_plan *plan, size_t spill_len, uint8_t *dump, size_t dump_len, uint64_t *written, cmph_c_place *place) {
    uint8_t *spill = (uint8_t *)room(spill_len);
    memset(dump, 0x77, dump_len);
    *written = 77;
    place->at = place->again = 0;
    uint32_t code = cmph_c_build_brz(keys->at, keys->len, keys->ends, keys->many, plan, spill, spill_len, dump, dump_len, written, place);
    if (code == CMPH_C_OK ? *written > dump_len || place->at || place->again : *written != 77) fail("another number of bytes");
    for (size_t i = code == CMPH_C_OK ? (size_t)*written : 0; i < dump_len; i++)
        if (dump[i] != 0x77) fail("a byte that was put where there is no file");
    free(spill);
    return code;
}

/* Builds by BRZ with the least spill that will do, in more room than the file has, then in the least, and with one byte fewer of each. */
static void spills(char **words) {
    cmph_c_plan plan = {CMPH_C_BRZ, number(words[0]), number(words[1]), number(words[2]), number(words[3])};
    key_list keys = read_keys(words[4]);
    size_t spill_len = keys.len + 10 * keys.many;
    size_t most = (size_t)(25 + 9 * (keys.many / (plan.b ? plan.b : 1) + 1) + keys.many * (uint64_t)plan.ratio / 4000000);
    uint64_t written, len;
    cmph_c_place place, other;
    uint8_t *dump = (uint8_t *)room(most), *least;
    uint32_t code = build_spilled(&keys, &plan, spill_len, dump, most, &written, &place);
    if (code == CMPH_C_NO_SPILL || code == CMPH_C_NO_ROOM) fail("more bytes are needed than are known to be");
    if (code != CMPH_C_BAD_PLAN && keys.many) {
        if (build_spilled(&keys, &plan, spill_len - 1, dump, most, &len, &other) != CMPH_C_NO_SPILL || other.at != spill_len) fail("too small a spill");
        if (build_spilled(&keys, &plan, 0, dump, 0, &len, &other) != CMPH_C_NO_SPILL || other.at != spill_len) fail("no spill");
    }
    if (code == CMPH_C_OK) {
        FILE *out = fopen(words[5], "wb");
        least = (uint8_t *)room((size_t)written);
        if (build_spilled(&keys, &plan, spill_len + 1000, least, (size_t)written, &len, &other) != CMPH_C_OK || len != written) fail("the least room");
        if (!out || fwrite(least, 1, (size_t)written, out) != written || fclose(out)) fail("not written");
        if (build_spilled(&keys, &plan, spill_len, least, (size_t)written - 1, &len, &other) != CMPH_C_NO_ROOM || other.at != written) fail("too little room");
        if (build_spilled(&keys, &plan, spill_len, dump, most, &len, &other) != CMPH_C_OK || len != written) fail("another file");
        FILE *in = fopen(words[5], "rb");
        if (!in || fread(least, 1, (size_t)written, in) != written || memcmp(least, dump, (size_t)written)) fail("another file in more room");
        fclose(in);
    }
    printf("%u %llu %llu\n", (unsigned)code, (unsigned long long)place.at, (unsigned long long)place.again);
}

static void routes(char **words) {
    key_list keys = read_keys(words[2]);
    uint32_t *shards = (uint32_t *)room((keys.many + 1) * sizeof(uint32_t));
    cmph_c_place place = {0, 0};
    if (cmph_c_route(keys.at, keys.len, keys.ends, keys.many, number(words[0]), number(words[1]), shards, keys.many, &place) != CMPH_C_OK) fail("no shards");
    for (size_t i = 0; i < keys.many; i++) printf("%u\n", (unsigned)shards[i]);
}

/* The code and the place of a build by BRZ, with as long a spill as needed. */
static void expect_spilled(const key_list *keys, uint32_t code, uint64_t at) {
    static const cmph_c_plan plan = {CMPH_C_BRZ, 1230000, 64, 1, 100};
    uint8_t dump[64];
    uint64_t written;
    cmph_c_place place;
    if (build_spilled(keys, &plan, keys->len + 10 * keys->many, dump, sizeof dump, &written, &place) != code) fail("another code of a build by BRZ");
    if (place.at != (code == CMPH_C_OK ? 0 : at)) fail("another place of a build by BRZ");
}

/* The code and the place of each call that takes keys, which put nothing if they refuse. `nothing` is the code of a build, if it differs. */
static void expect(const cmph_c_function *function, const key_list *keys, size_t out_len, uint32_t code, uint32_t built, uint64_t at) {
    static const cmph_c_plan plan = {CMPH_C_CHM, 2090000, 7, 1, 100};
    uint32_t numbers[4] = {77, 77, 77, 77}, shards[4] = {77, 77, 77, 77};
    uint8_t dump[64] = {77};
    uint64_t written = 77;
    cmph_c_place place = {7, 7};
    if (cmph_c_answers(function, keys->at, keys->len, keys->ends, keys->many, numbers, out_len, &place) != code || place.at != at) fail("another code of answers");
    place.at = 7;
    if (cmph_c_route(keys->at, keys->len, keys->ends, keys->many, 1, 5, shards, out_len, &place) != code || place.at != at) fail("another code of shards");
    for (size_t i = 0; i < 4; i++) {
        if ((code != CMPH_C_OK || i >= keys->many) && (numbers[i] != 77 || shards[i] != 77)) fail("a number that was put");
        if (code == CMPH_C_OK && i < keys->many && (numbers[i] == 77 || shards[i] >= 5)) fail("a number that was not put");
    }
    place.at = 7;
    if (out_len < keys->many) return;
    if (cmph_c_build(keys->at, keys->len, keys->ends, keys->many, &plan, dump, sizeof dump, &written, &place) != built) fail("another code of a build");
    if (built == CMPH_C_OK ? written > sizeof dump : written != 77 || dump[0] != 77) fail("a build that was refused put something");
    if (place.at != (built == code ? at : 0)) fail("another place of a build");
    expect_spilled(keys, built, built == code ? at : 0);
}

/* Keys of `len` bytes in all, which end at these. */
static void expect_ends(const cmph_c_function *function, size_t len, uint64_t a, uint64_t b, uint64_t c, uint32_t code, uint64_t at) {
    key_list keys = {(uint8_t *)room(len), len, (uint64_t *)room(3 * sizeof(uint64_t)), 3};
    for (size_t i = 0; i < len; i++) keys.at[i] = (uint8_t)(i % 251);
    keys.ends[0] = a, keys.ends[1] = b, keys.ends[2] = c;
    expect(function, &keys, 3, code, code, at);
    free(keys.at);
    free(keys.ends);
}

/* A key of any length has a number below the span, or none. */
static void expect_answer(const cmph_c_function *function, size_t len) {
    uint8_t *key = (uint8_t *)room(len);
    memset(key, 'k', len);
    uint32_t found = cmph_c_answer(function, key, len);
    if (found != CMPH_C_NONE && found >= function->span) fail("a long key has a number past the span");
    free(key);
}

/* With another span than that of its function, a struct holds none. */
static void expect_no_span(cmph_c_function function, uint32_t span) {
    uint64_t three[] = {1, 2, 3};
    uint32_t found[] = {77, 77, 77};
    cmph_c_place place = {7, 7};
    function.span = span;
    if (cmph_c_answer(&function, (const uint8_t *)"a", 1) != CMPH_C_NONE) fail("a number by another span");
    if (cmph_c_answers(&function, (const uint8_t *)"abc", 3, three, 3, found, 3, &place) != CMPH_C_NO_FUNCTION || found[0] != 77) fail("numbers by another span");
}

static void ends(const char *function_path) {
    cmph_c_function function = CMPH_C_FUNCTION_INIT, none = CMPH_C_FUNCTION_INIT;
    cmph_c_place place;
    index_room index;
    uint64_t three[] = {1, 2, 3};
    uint8_t letters[] = {'a', 'b', 'c'};
    uint32_t found[] = {77, 77, 77};
    key_list keys = {letters, 3, three, 0}, few = {letters, 3, three, 3};
    if (open_exactly(read_file(function_path), &index, &function, &place) != CMPH_C_OK) fail("not opened");
    expect_ends(&function, 6, 1, 2, 6, CMPH_C_OK, 7);
    expect_ends(&function, 6, 0, 1, 3, CMPH_C_OK, 7); /* bytes after the last end are no key's */
    expect_ends(&function, 6, 2, 1, 3, CMPH_C_BAD_END, 1);
    expect_ends(&function, 6, 2, 3, 0, CMPH_C_BAD_END, 2);
    expect_ends(&function, 6, 1, 7, 7, CMPH_C_BAD_END, 1);
    expect_ends(&function, 6, 7, 1, 2, CMPH_C_BAD_END, 0);
    expect_ends(&function, 6, 1, 2, UINT64_MAX, CMPH_C_BAD_END, 2);
    expect_ends(&function, 6, 1, 1ULL << 32, 3, CMPH_C_BAD_END, 1);
    expect_ends(&function, 70000, 1, 65536, 65537, CMPH_C_OK, 7); /* a key of 65,535 bytes */
    expect_ends(&function, 70000, 1, 65537, 65538, CMPH_C_BAD_END, 1); /* and of 65,536 */
    expect(&function, &keys, 0, CMPH_C_OK, CMPH_C_NO_KEYS, 7);
    expect(&function, &few, 2, CMPH_C_NO_ROOM, CMPH_C_OK, 3);
    expect_answer(&function, 65535);
    expect_answer(&function, 65536);
    expect_answer(&function, 1000000);
    expect_no_span(function, 0);
    expect_no_span(function, function.span - 1);
    expect_no_span(function, function.span + 1);
    if (cmph_c_answers(&none, letters, 3, three, 3, found, 3, &place) != CMPH_C_NO_FUNCTION || found[0] != 77) fail("numbers of no function");
    if (cmph_c_answer(&none, letters, 3) != CMPH_C_NONE) fail("a number of no function");
    if (cmph_c_route(letters, 3, three, 3, 1, 0, found, 3, &place) != CMPH_C_BAD_SHARDS || found[0] != 77) fail("no shards");
}

static void most(const char *function_path) {
    cmph_c_function function = CMPH_C_FUNCTION_INIT;
    cmph_c_place place;
    cmph_c_plan plan = {CMPH_C_BDZ, 1230000, 7, 1, 1};
    index_room index;
    const size_t many = 67108865;
    uint64_t *ends = (uint64_t *)calloc(many, sizeof(uint64_t)), written = 77; /* empty keys */
    uint8_t *none = (uint8_t *)room(0);
    uint32_t *found = (uint32_t *)room(0);
    if (!ends || open_exactly(read_file(function_path), &index, &function, &place) != CMPH_C_OK) fail("not opened");
    if (cmph_c_answers(&function, none, 0, ends, many, found, 0, &place) != CMPH_C_TOO_MANY_KEYS) fail("too many numbers");
    if (cmph_c_route(none, 0, ends, many, 1, 5, found, 0, &place) != CMPH_C_TOO_MANY_KEYS) fail("too many shards");
    if (cmph_c_build(none, 0, ends, many, &plan, none, 0, &written, &place) != CMPH_C_TOO_MANY_KEYS || written != 77) fail("too many keys");
    plan.algorithm = CMPH_C_BRZ, plan.b = 64;
    if (cmph_c_build_brz(none, 0, ends, many, &plan, none, 0, none, 0, &written, &place) != CMPH_C_TOO_MANY_KEYS || written != 77) fail("too many keys by BRZ");
}

/* The file of the function of keys whose bytes, spill and room begin so many bytes after an aligned address: it has `written` bytes. */
static uint8_t *build_shifted(const key_list *keys, const cmph_c_plan *plan, size_t shift, uint64_t *written) {
    size_t spill_len = keys->len + 10 * keys->many, len = (size_t)cmph_c_room(plan, (uint32_t)keys->many);
    if (plan->algorithm == CMPH_C_BRZ) len = (size_t)(25 + 9 * (keys->many / plan->b + 1) + plan->ratio * (uint64_t)keys->many / 4000000);
    uint8_t *at = (uint8_t *)room(shift + keys->len), *spill = (uint8_t *)room(shift + spill_len), *dump = (uint8_t *)room(shift + len);
    cmph_c_place place;
    memcpy(at + shift, keys->at, keys->len);
    uint32_t code = plan->algorithm == CMPH_C_BRZ
        ? cmph_c_build_brz(at + shift, keys->len, keys->ends, keys->many, plan, spill + shift, spill_len, dump + shift, len, written, &place)
        : cmph_c_build(at + shift, keys->len, keys->ends, keys->many, plan, dump + shift, len, written, &place);
    if (code != CMPH_C_OK) fail("a build at an odd address");
    free(at);
    free(spill);
    return dump;
}

/* The numbers of keys whose bytes begin so many bytes after an aligned address, by a function whose bytes do. */
static uint32_t *numbers_shifted(bytes dump, const key_list *keys, size_t shift) {
    cmph_c_function function = CMPH_C_FUNCTION_INIT;
    cmph_c_place place;
    index_room index;
    uint32_t *found = (uint32_t *)room(keys->many * sizeof(uint32_t));
    key_list again = *keys;
    uint8_t *at = (uint8_t *)room(shift + keys->len);
    again.at = at + shift;
    memcpy(again.at, keys->at, keys->len);
    if (open_exactly(dump, &index, &function, &place) != CMPH_C_OK) fail("not opened at an odd address");
    if (cmph_c_answers(&function, again.at, again.len, again.ends, again.many, found, again.many, &place) != CMPH_C_OK) fail("no numbers at an odd address");
    ask(&function, &again);
    free(index.at);
    free(at);
    return found;
}

/* Builds and numbers are the same at each address. */
static void shifted(const char *keys_path) {
    key_list keys = read_keys(keys_path);
    for (uint32_t algorithm = CMPH_C_CHM; algorithm <= CMPH_C_BRZ; algorithm++) {
        cmph_c_plan plan = {algorithm, algorithm == CMPH_C_CHM ? 2090000u : 1230000u, algorithm == CMPH_C_BRZ ? 64u : 7u, 1, 100};
        uint64_t written = 0, other = 0;
        uint8_t *dump = build_shifted(&keys, &plan, 0, &written);
        bytes file = {dump, (size_t)written};
        uint32_t *wanted = numbers_shifted(file, &keys, 0);
        for (size_t shift = 1; shift < 8; shift++) {
            uint8_t *again = build_shifted(&keys, &plan, shift, &other);
            bytes moved = {again + shift, (size_t)other};
            uint32_t *found = numbers_shifted(moved, &keys, shift);
            if (other != written || memcmp(moved.at, dump, moved.len)) fail("another file at an odd address");
            if (memcmp(found, wanted, keys.many * sizeof *found)) fail("other numbers at an odd address");
            free(again);
            free(found);
        }
        free(dump);
        free(wanted);
    }
}

/* What a struct of any values is made of. */
typedef struct hostile_job {
    bytes dump;
    index_room index;
    key_list keys;
    cmph_c_function opened;
    uint64_t *ends;
    uint32_t *found;
} hostile_job;

/* Any length of lent memory: up to its start, or from a place on to its end. */
static void spoil_parts(cmph_c_function *function, const hostile_job *job) {
    size_t len = (size_t)(any() % (job->dump.len + 1));
    if (any() % 4 == 0) function->cells_len = (size_t)(any() % (function->cells_len + 1));
    if (any() % 8 == 0) function->cells = job->dump.at + job->dump.len - len, function->cells_len = len;
    if (any() % 4 == 0) function->ranks_len = (size_t)(any() % (function->ranks_len + 1));
    if (any() % 8 == 0) function->ranks = job->dump.at + job->dump.len - len, function->ranks_len = len;
    if (any() % 2) {
        function->index_len = (size_t)(any() % (job->index.len + 1));
        function->index = job->index.at + (any() % 2 ? job->index.len - function->index_len : 0);
    }
    for (size_t i = 0; i < job->index.len; i++)
        if (any() % 2) job->index.at[i] = any() % 2 ? any() >> any() % 64 : i < job->opened.index_len ? job->opened.index[i] : some();
}

static void spoil_fields(cmph_c_function *function) {
    if (any() % 4 == 0) function->kind = any() % 2 ? (uint32_t)(any() % 6) : some();
    if (any() % 4 == 0) function->keys = some();
    if (any() % 4 == 0) function->span = some();
    if (any() % 4 == 0) function->seed = some();
    if (any() % 4 == 0) function->size = some();
    if (any() % 4 == 0) function->ratio = some();
    if (any() % 4 == 0) function->width = some();
    if (any() % 4 == 0) function->b = some();
    if (any() % 4 == 0) function->scaled = any() % 2 ? some() : 4294967296ULL / (function->size ? function->size : 1);
    if (any() % 4 == 0) function->keys_scaled = any() % 2 ? some() : 4294967296ULL / (function->keys ? function->keys : 1);
}

static void hostile_round(hostile_job *job) {
    const key_list *keys = &job->keys;
    const cmph_c_function *opened = &job->opened;
    cmph_c_function function = *opened;
    cmph_c_place place = {0, 0};
    size_t len;
    const uint8_t *key = key_at(keys, (size_t)(any() % keys->many), &len);
    if (any() % 2) job->dump.at[any() % job->dump.len] ^= (uint8_t)any();
    spoil_parts(&function, job);
    spoil_fields(&function);
    uint32_t found = cmph_c_answer(&function, key, len);
    if (found != CMPH_C_NONE && found >= function.span) fail("a number past the span");
    memcpy(job->ends, keys->ends, keys->many * sizeof(uint64_t));
    if (any() % 2) job->ends[any() % keys->many] = any() % 2 ? any() : some();
    size_t found_len = any() % 8 ? keys->many : (size_t)(any() % keys->many);
    uint32_t code = cmph_c_answers(&function, keys->at, keys->len, job->ends, keys->many, job->found, found_len, &place);
    if (code == CMPH_C_BAD_END && place.at >= keys->many) fail("a key that is not there");
    for (size_t i = 0; code == CMPH_C_OK && i < keys->many; i++)
        if (job->found[i] != CMPH_C_NONE && job->found[i] >= function.span) fail("a number of many past the span");
    cmph_c_route(keys->at, keys->len, job->ends, keys->many, some(), some(), job->found, keys->many, &place);
    function = *opened;
    len = any() % 2 ? job->dump.len : (size_t)(any() % (job->dump.len + 1));
    cmph_c_open(job->dump.at, len, job->index.at, (size_t)(any() % (job->index.len + 1)), &function, &place);
}

static void hostile(const char *function_path, const char *keys_path, long rounds) {
    hostile_job job = {read_file(function_path), {NULL, 0}, read_keys(keys_path), CMPH_C_FUNCTION_INIT, NULL, NULL};
    index_room index;
    cmph_c_place place;
    job.found = (uint32_t *)room(job.keys.many * sizeof(uint32_t));
    job.ends = (uint64_t *)room(job.keys.many * sizeof(uint64_t));
    if (open_exactly(job.dump, &index, &job.opened, &place) != CMPH_C_OK) fail("not opened");
    job.index.len = index.len + 5;
    job.index.at = (uint64_t *)room(job.index.len * sizeof(uint64_t));
    memset(job.index.at, 0x77, job.index.len * sizeof(uint64_t));
    for (long i = 0; i < rounds; i++) hostile_round(&job);
}

/* The bytes of a dump are changed after it was opened. They are those of the file again every eighth round or so. */
static void changed(const char *function_path, const char *keys_path, long rounds) {
    bytes whole = read_file(function_path), dump = read_file(function_path);
    key_list keys = read_keys(keys_path);
    cmph_c_function function = CMPH_C_FUNCTION_INIT;
    cmph_c_place place;
    index_room index;
    if (open_exactly(dump, &index, &function, &place) != CMPH_C_OK) fail("not opened");
    for (long i = 0; i < rounds; i++) {
        if (any() % 8 == 0) memcpy(dump.at, whole.at, whole.len);
        for (uint64_t left = 1 + any() % 4; left > 0; left--) dump.at[any() % dump.len] = (uint8_t)some();
        ask(&function, &keys);
    }
}

/* The struct holds the other function before a damaged dump is opened, and so it does after one that is refused. */
static void damaged(char **words) {
    bytes one = read_file(words[0]), other = read_file(words[1]);
    key_list keys = read_keys(words[2]);
    uint64_t rounds = number(words[3]), seed = number(words[4]);
    cmph_c_function sound = CMPH_C_FUNCTION_INIT;
    cmph_c_place place;
    index_room index;
    if (open_exactly(other, &index, &sound, &place) != CMPH_C_OK) fail("not opened");
    for (uint64_t i = 0; i < rounds; i++) {
        bytes dump = damaged_dump(one, other, seed, i);
        cmph_c_function function = sound;
        uint32_t code = open_exactly(dump, &index, &function, &place);
        printf("%u %llu\n", (unsigned)code, (unsigned long long)place.at);
        if (code == CMPH_C_OK) ask(&function, &keys);
        free(index.at);
        free(dump.at);
    }
}

static void damages(char **words, int many) {
    bytes one = read_file(words[0]), other = read_file(words[1]);
    for (int i = 3; i < many; i++) {
        char path[64];
        bytes dump = damaged_dump(one, other, number(words[2]), number(words[i]));
        snprintf(path, sizeof path, "damaged%u", (unsigned)number(words[i]));
        write_file(path, dump);
        free(dump.at);
    }
}

int main(int many, char **words) {
    const char *job = many > 1 ? words[1] : "";
    if (!strcmp(job, "version") && many == 2)
        printf("%u\n", (unsigned)cmph_c_version());
    else if (!strcmp(job, "numbers") && many == 4)
        numbers(words[2], words[3]);
    else if (!strcmp(job, "open"))
        opens(words + 2, many - 2);
    else if (!strcmp(job, "fields") && many == 3)
        fields(words[2]);
    else if (!strcmp(job, "codes") && many == 3)
        codes(words[2]);
    else if (!strcmp(job, "memory") && many == 3)
        memory(words[2]);
    else if (!strcmp(job, "stack") && many == 4)
        stack(words[2], words[3]);
    else if (!strcmp(job, "room") && many > 4)
        rooms(words + 2, many - 2);
    else if (!strcmp(job, "build") && many == 9)
        builds(words + 2);
    else if (!strcmp(job, "spilled") && many == 8)
        spills(words + 2);
    else if (!strcmp(job, "route") && many == 5)
        routes(words + 2);
    else if (!strcmp(job, "shifted") && many == 3)
        shifted(words[2]);
    else if (!strcmp(job, "ends") && many == 3)
        ends(words[2]);
    else if (!strcmp(job, "most") && many == 3)
        most(words[2]);
    else if (!strcmp(job, "hostile") && many == 5)
        hostile(words[2], words[3], atol(words[4]));
    else if (!strcmp(job, "changed") && many == 5)
        changed(words[2], words[3], atol(words[4]));
    else if (!strcmp(job, "damaged") && many == 7)
        damaged(words + 2);
    else if (!strcmp(job, "damage") && many > 4)
        damages(words + 2, many - 2);
    else
        fail("what to do?");
    return 0;
}
