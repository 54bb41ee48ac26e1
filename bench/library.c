// What calls of the C library take in one process, interleaved with those of libcmph, and builds of both.
//   library seed ALGORITHM KEYS                         a seed of rand() under which the first graph of libcmph works
//   library ask ALGORITHM KEYS FUNCTION SEED ROUNDS SCRATCH   look-ups of all keys, and opening; SCRATCH is for a function file of libcmph
//   library build ALGORITHM KEYS SEED OUT               a build in memory by each; OUT is for the file of ours
// ALGORITHM is chm, bdz, bdz_ph or brz, which is ours alone, and not built. KEYS has the keys as lines, FUNCTION is the file of a function over them.
// Each line that is printed of a round has a name and seconds of processor time.
#include "lines.h"

#include <cmph.h>
#include <cmph_c.h>
#include <stdint.h>
#include <sys/mman.h>
#include <sys/stat.h>
#include <time.h>

struct algorithm {
    const char *name;
    CMPH_ALGO theirs;
    uint32_t ours;
    uint32_t ratio;  // vertices a key, in millionths
};

static const struct algorithm algorithms[] = {
    {"chm", CMPH_CHM, CMPH_C_CHM, 2090000},
    {"bdz", CMPH_BDZ, CMPH_C_BDZ, 1230000},
    {"bdz_ph", CMPH_BDZ_PH, CMPH_C_BDZ_PH, 1230000},
    {"brz", CMPH_COUNT, CMPH_C_BRZ, 1230000},
};

// Keys one after another, where each ends, and each as a string of its own.
struct keys {
    uint8_t *bytes;
    size_t len;
    uint64_t *ends;
    char **strings;
    uint32_t count;
};

// A function file that is mapped, and the function with its index.
struct opened {
    uint8_t *dump;
    size_t len;
    uint64_t *index;
    cmph_c_function function;
};

static void fail(const char *what) {
    fprintf(stderr, "library: %s\n", what);
    exit(2);
}

static void *room(size_t len) {
    void *at = malloc(len ? len : 1);
    if (!at) stop("malloc");
    return at;
}

static double seconds(void) {
    struct timespec now;
    clock_gettime(CLOCK_PROCESS_CPUTIME_ID, &now);
    return now.tv_sec + now.tv_nsec / 1e9;
}

static void say(const char *name, double since) {
    printf("%s %.9f\n", name, seconds() - since);
}

static struct keys read_keys(const char *path) {
    FILE *file = opened(path, "rb");
    struct line line = {NULL, 0};
    struct stat found;
    if (fstat(fileno(file), &found)) stop(path);
    struct keys keys = {room(found.st_size), 0, room(8 * found.st_size), room(sizeof(char *) * found.st_size), 0};
    for (ssize_t length; (length = next_line(file, &line)) >= 0;) {
        memcpy(keys.bytes + keys.len, line.bytes, length);
        keys.len += length;
        keys.ends[keys.count] = keys.len;
        keys.strings[keys.count] = memcpy(room(length + 1), line.bytes, length);
        keys.strings[keys.count++][length] = 0;
    }
    fclose(file);
    free(line.bytes);
    return keys;
}

// Builds by libcmph

static uint32_t graphs;  // how many times a build has begun to read the keys: once for each graph
static void (*rewind_keys)(void *);

static void counted_rewind(void *data) {
    graphs++;
    rewind_keys(data);
}

static cmph_t *built_by_libcmph(const struct algorithm *algorithm, const struct keys *keys, uint32_t seed) {
    cmph_io_adapter_t *source = cmph_io_vector_adapter(keys->strings, keys->count);
    rewind_keys = source->rewind;
    source->rewind = counted_rewind;
    graphs = 0;
    srand(seed);
    cmph_config_t *config = cmph_config_new(source);
    cmph_config_set_algo(config, algorithm->theirs);
    cmph_config_set_graphsize(config, algorithm->ratio / 1e6);
    cmph_t *function = cmph_new(config);
    if (!function) fail("libcmph builds no function");
    cmph_config_destroy(config);
    cmph_io_vector_adapter_destroy(source);
    return function;
}

static void find_seed(const struct algorithm *algorithm, const struct keys *keys) {
    for (uint32_t seed = 1; seed < 100; seed++) {
        cmph_destroy(built_by_libcmph(algorithm, keys, seed));
        if (graphs == 1) {
            printf("%u\n", seed);
            return;
        }
    }
    fail("no seed below 100 serves libcmph");
}

// Opening

static void open_ours(const char *path, struct opened *out) {
    const cmph_c_function none = CMPH_C_FUNCTION_INIT;
    cmph_c_place place;
    struct stat found;
    FILE *file = fopen(path, "rb");
    if (!file || fstat(fileno(file), &found)) stop(path);
    out->len = found.st_size;
    out->dump = mmap(NULL, out->len, PROT_READ, MAP_SHARED, fileno(file), 0);
    if (out->dump == MAP_FAILED) stop("mmap");
    fclose(file);
    out->function = none;
    out->index = (uint64_t *)out->dump;  // of no numbers yet
    uint32_t code = cmph_c_open(out->dump, out->len, out->index, 0, &out->function, &place);
    if (code == CMPH_C_NO_ROOM) {
        out->index = room(place.at * sizeof(uint64_t));
        code = cmph_c_open(out->dump, out->len, out->index, place.at, &out->function, &place);
    }
    if (code != CMPH_C_OK) fail("the function is not opened");
}

static void close_ours(struct opened *opened) {
    if (opened->index != (uint64_t *)opened->dump) free(opened->index);
    munmap(opened->dump, opened->len);
}

static cmph_t *load_theirs(const char *path) {
    FILE *file = fopen(path, "rb");
    if (!file) stop(path);
    cmph_t *function = cmph_load(file);
    fclose(file);
    if (!function) fail("libcmph loads no function");
    return function;
}

static void dump_theirs(cmph_t *function, const char *path) {
    FILE *file = opened(path, "wb");
    if (!cmph_dump(function, file) || fclose(file)) stop(path);
}

// Looking up

static void expect_distinct(const uint32_t *numbers, uint32_t count, uint32_t span) {
    uint8_t *seen = calloc(span, 1);
    for (uint32_t i = 0; i < count; i++)
        if (numbers[i] >= span || seen[numbers[i]]++) fail("two keys have one number");
    free(seen);
}

static void search_all(cmph_t *function, const struct keys *keys, uint32_t *numbers) {
    const double start = seconds();
    for (uint64_t i = 0, from = 0; i < keys->count; from = keys->ends[i++])
        numbers[i] = cmph_search(function, (const char *)keys->bytes + from, keys->ends[i] - from);
    say("cmph_search", start);
}

static void answer_all(const cmph_c_function *function, const struct keys *keys, uint32_t *numbers) {
    const double start = seconds();
    for (uint64_t i = 0, from = 0; i < keys->count; from = keys->ends[i++])
        numbers[i] = cmph_c_answer(function, keys->bytes + from, keys->ends[i] - from);
    say("cmph_c_answer", start);
}

static void answer_batch(const cmph_c_function *function, const struct keys *keys, uint32_t *numbers) {
    cmph_c_place place;
    const double start = seconds();
    const uint32_t code = cmph_c_answers(function, keys->bytes, keys->len, keys->ends, keys->count, numbers, keys->count, &place);
    say("cmph_c_answers", start);
    if (code != CMPH_C_OK) fail("no numbers");
}

static void time_opening(const char *function, const char *theirs) {
    struct opened opened;
    double start = seconds();
    if (theirs) {
        cmph_t *loaded = load_theirs(theirs);
        say("cmph_load", start);
        cmph_destroy(loaded);
    }
    start = seconds();
    open_ours(function, &opened);
    say("cmph_c_open", start);
    close_ours(&opened);
}

static void ask(const struct algorithm *algorithm, const struct keys *keys, char **words) {
    const int beside = algorithm->theirs != CMPH_COUNT, rounds = atoi(words[2]);
    cmph_t *theirs = beside ? built_by_libcmph(algorithm, keys, atoi(words[1])) : NULL;
    uint32_t *numbers = room(4 * keys->count), *batch = room(4 * keys->count);
    struct opened ours;
    open_ours(words[0], &ours);
    if (beside) dump_theirs(theirs, words[3]);
    for (int round = 0; round < rounds; round++) {
        if (beside) search_all(theirs, keys, numbers);
        answer_all(&ours.function, keys, numbers);
        answer_batch(&ours.function, keys, batch);
        if (memcmp(numbers, batch, 4 * keys->count)) fail("one key has two numbers");
        time_opening(words[0], beside ? words[3] : NULL);
    }
    expect_distinct(numbers, keys->count, ours.function.span);
    if (beside) cmph_destroy(theirs);
    close_ours(&ours);
}

// Building

static void build(const struct algorithm *algorithm, const struct keys *keys, char **words) {
    const cmph_c_plan plan = {algorithm->ours, algorithm->ratio, 7, 1, 1};
    cmph_c_place place;
    uint64_t written;
    double start = seconds();
    const size_t len = cmph_c_room(&plan, keys->count);
    uint8_t *dump = room(len);
    const uint32_t code = cmph_c_build(keys->bytes, keys->len, keys->ends, keys->count, &plan, dump, len, &written, &place);
    say("cmph_c_build", start);
    if (code != CMPH_C_OK) fail("no function is built");
    FILE *out = opened(words[1], "wb");
    if (fwrite(dump, 1, written, out) != written || fclose(out)) stop(words[1]);
    start = seconds();
    cmph_t *theirs = built_by_libcmph(algorithm, keys, atoi(words[0]));
    say("cmph_new", start);
    if (graphs != 1) fail("another graph of libcmph");
    cmph_destroy(theirs);
}

int main(int many, char **words) {
    const struct algorithm *algorithm = NULL;
    for (size_t i = 0; many > 3 && i < sizeof algorithms / sizeof *algorithms; i++)
        if (!strcmp(words[2], algorithms[i].name)) algorithm = algorithms + i;
    if (!algorithm) fail("which algorithm?");
    const struct keys keys = read_keys(words[3]);
    if (!strcmp(words[1], "seed") && many == 4)
        find_seed(algorithm, &keys);
    else if (!strcmp(words[1], "ask") && many == 8)
        ask(algorithm, &keys, words + 4);
    else if (!strcmp(words[1], "build") && many == 6)
        build(algorithm, &keys, words + 4);
    else
        fail("what to do?");
    return 0;
}
