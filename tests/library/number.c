#include <cmph_c.h>

/* The number of a key by the function that the bytes of a file spell, or CMPH_C_NONE. */
uint32_t number_of(const uint8_t *file, size_t size, const uint8_t *key, size_t length) {
    cmph_c_function function = CMPH_C_FUNCTION_INIT;
    cmph_c_place fault;
    uint64_t index;
    if (cmph_c_open(file, size, &index, 0, &function, &fault) != CMPH_C_OK) return CMPH_C_NONE;
    return cmph_c_answer(&function, key, length);
}
