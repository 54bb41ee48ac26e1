/* Jobs of caller.c: calls that are refused, each for one reason, and calls with little memory and little stack. */
#include <sys/mman.h>
#include <sys/resource.h>
#include <ucontext.h>

/* Keys "a", "b" and "c". */
static key_list three_keys(void) {
    static uint8_t letters[] = {'a', 'b', 'c'};
    static uint64_t ends[] = {1, 2, 3};
    key_list keys = {letters, 3, ends, 3};
    return keys;
}

static uint32_t code_of_build(key_list keys, uint32_t tries) {
    cmph_c_plan plan = {CMPH_C_BDZ, 1230000, 7, 1, tries};
    uint8_t dump[64];
    uint64_t written;
    cmph_c_place place;
    return cmph_c_build(keys.at, keys.len, keys.ends, keys.many, &plan, dump, sizeof dump, &written, &place);
}

/* Calls that are refused, each for one reason. */
static void codes(const char *function_path) {
    cmph_c_function function = CMPH_C_FUNCTION_INIT, none = CMPH_C_FUNCTION_INIT;
    cmph_c_plan plan = {CMPH_C_BRZ, 1230000, 64, 1, 1};
    cmph_c_place place;
    index_room index;
    key_list keys = three_keys(), no_keys = keys, most = keys, same = keys;
    uint64_t fallen[] = {1, 0, 3}, written;
    uint32_t found[3];
    uint8_t dump[64];
    no_keys.many = 0, most.many = 67108865, most.ends = (uint64_t *)calloc(most.many, sizeof(uint64_t)), same.at = (uint8_t *)room(3);
    memset(same.at, 'a', 3);
    if (!most.ends || open_exactly(read_file(function_path), &index, &function, &place) != CMPH_C_OK) fail("not opened");
    printf("NO_FUNCTION %u\n", cmph_c_answers(&none, keys.at, keys.len, keys.ends, keys.many, found, 3, &place));
    printf("BAD_END %u\n", cmph_c_answers(&function, keys.at, keys.len, fallen, keys.many, found, 3, &place));
    printf("TOO_MANY_KEYS %u\n", cmph_c_answers(&function, keys.at, keys.len, most.ends, most.many, found, 3, &place));
    printf("NO_ROOM %u\n", cmph_c_answers(&function, keys.at, keys.len, keys.ends, keys.many, found, 2, &place));
    printf("OK %u\n", cmph_c_answers(&function, keys.at, keys.len, keys.ends, keys.many, found, 3, &place));
    printf("BAD_SHARDS %u\n", cmph_c_route(keys.at, keys.len, keys.ends, keys.many, 1, 0, found, 3, &place));
    printf("BAD_PLAN %u\nNO_KEYS %u\nEQUAL_KEYS %u\n", code_of_build(keys, 0), code_of_build(no_keys, 1), code_of_build(same, 1));
    printf("NO_SPILL %u\n", cmph_c_build_brz(keys.at, keys.len, keys.ends, keys.many, &plan, dump, 32, dump + 32, 32, &written, &place));
}

/* Limits the address space to what is mapped now, and this many bytes more. */
static void limit_memory(unsigned long more) {
    unsigned long pages = 0;
    struct rlimit limit;
    FILE *file = fopen("/proc/self/statm", "r");
    if (!file || fscanf(file, "%lu", &pages) != 1 || fclose(file) || getrlimit(RLIMIT_AS, &limit)) fail("how much memory?");
    limit.rlim_cur = more ? pages * 4096 + more : limit.rlim_max;
    if (setrlimit(RLIMIT_AS, &limit)) fail("no limit");
}

/* Builds by each algorithm while there is no memory for a million keys: nothing is written. */
static void memory(const char *keys_path) {
    key_list keys = read_keys(keys_path);
    size_t len = 1 << 24, spill_len = keys.len + 10 * keys.many;
    uint8_t *dump = (uint8_t *)room(len), *spill = (uint8_t *)room(spill_len);
    memset(dump, 0x77, len);
    for (uint32_t algorithm = CMPH_C_CHM; algorithm <= CMPH_C_BRZ; algorithm++) {
        cmph_c_plan plan = {algorithm, algorithm == CMPH_C_CHM ? 2090000u : 1230000u, algorithm == CMPH_C_BRZ ? 128u : 7u, 1, 100};
        cmph_c_place place = {7, 7};
        uint64_t written = 77;
        uint32_t code;
        limit_memory(1 << 18);
        if (algorithm == CMPH_C_BRZ)
            code = cmph_c_build_brz(keys.at, keys.len, keys.ends, keys.many, &plan, spill, spill_len, dump, len, &written, &place);
        else
            code = cmph_c_build(keys.at, keys.len, keys.ends, keys.many, &plan, dump, len, &written, &place);
        limit_memory(0);
        for (size_t i = 0; i < len; i++)
            if (dump[i] != 0x77) fail("a byte that was put without memory");
        if (written != 77 || place.at || place.again) fail("another place without memory");
        printf("%u\n", code);
    }
}

/* Calls that build nothing, and builds by each algorithm, as jobs of a stack. */
static key_list stack_keys;
static uint8_t *stack_dump, *stack_spill;
static uint32_t *stack_numbers, stack_algorithm, stack_ratio, stack_code;
static uint64_t stack_index[16];
static bytes stack_file;

static void ask_on_stack(void) {
    cmph_c_function function = CMPH_C_FUNCTION_INIT;
    cmph_c_place place;
    const key_list *keys = &stack_keys;
    stack_code = cmph_c_open(stack_file.at, stack_file.len, stack_index, 16, &function, &place);
    if (stack_code) return;
    stack_code = cmph_c_answers(&function, keys->at, keys->len, keys->ends, keys->many, stack_numbers, keys->many, &place);
    if (stack_code) return;
    if (cmph_c_answer(&function, keys->at, (size_t)keys->ends[0]) != stack_numbers[0]) stack_code = CMPH_C_NONE;
    if (cmph_c_route(keys->at, keys->len, keys->ends, keys->many, 1, 5, stack_numbers, keys->many, &place)) stack_code = CMPH_C_NONE;
}

static void build_on_stack(void) {
    cmph_c_plan plan = {stack_algorithm, stack_ratio, stack_algorithm == CMPH_C_BRZ ? 128u : 7u, 1, 5};
    cmph_c_place place;
    uint64_t written;
    const key_list *keys = &stack_keys;
    if (stack_algorithm == CMPH_C_BRZ)
        stack_code = cmph_c_build_brz(keys->at, keys->len, keys->ends, keys->many, &plan, stack_spill, keys->len + 10 * keys->many, stack_dump, 1 << 24, &written, &place);
    else
        stack_code = cmph_c_build(keys->at, keys->len, keys->ends, keys->many, &plan, stack_dump, 1 << 24, &written, &place);
}

/* Runs a job with a stack of so many KiB, below which no byte is there, and returns its code. */
static uint32_t on_stack(void (*job)(void), size_t kib) {
    static ucontext_t before, inside;
    char *low = (char *)mmap(NULL, (kib + 4) << 10, PROT_READ | PROT_WRITE, MAP_PRIVATE | MAP_ANONYMOUS, -1, 0);
    if (low == MAP_FAILED || mprotect(low, 4096, PROT_NONE) || getcontext(&inside)) fail("no stack");
    inside.uc_stack.ss_sp = low + 4096, inside.uc_stack.ss_size = kib << 10, inside.uc_link = &before;
    makecontext(&inside, job, 0);
    stack_code = 77;
    if (swapcontext(&before, &inside)) fail("no other stack");
    munmap(low, (kib + 4) << 10);
    return stack_code;
}

/* Calls with the stack that the header says. */
static void stack(const char *function_path, const char *keys_path) {
    stack_file = read_file(function_path), stack_keys = read_keys(keys_path);
    stack_numbers = (uint32_t *)room(stack_keys.many * sizeof(uint32_t)), stack_dump = (uint8_t *)room(1 << 24);
    stack_spill = (uint8_t *)room(stack_keys.len + 10 * stack_keys.many);
    if (on_stack(ask_on_stack, 16)) fail("calls with little stack");
    for (stack_algorithm = CMPH_C_CHM; stack_algorithm <= CMPH_C_BRZ; stack_algorithm++) {
        stack_ratio = stack_algorithm == CMPH_C_CHM ? 2090000 : 1230000;
        if (on_stack(build_on_stack, stack_algorithm == CMPH_C_BRZ ? 128 : 112)) fail("a build with little stack");
        stack_ratio = 1000000; /* no seed works, and the build says why */
        if (on_stack(build_on_stack, stack_algorithm == CMPH_C_BRZ ? 128 : 112) != CMPH_C_NO_SEED) fail("a refused build with little stack");
    }
}
