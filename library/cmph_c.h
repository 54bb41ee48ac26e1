/*
 * Perfect hash functions of cmph, for C and C++.
 *
 * A function is read in the bytes of its file, which the caller keeps in memory, or maps: nothing is copied, and no memory is taken. A struct
 * of the caller's, cmph_c_function, says where its parts are. Nothing is owned by the library, so nothing is closed or freed. All calls may
 * run at the same time, over the same bytes too, as long as nobody writes to what a call reads.
 *
 * Each call returns a code: CMPH_C_OK, or why not. If it is another code, what the call would have written is as it was, and only the
 * cmph_c_place is set, and what cmph_c_open put into its index and cmph_c_build_brz into its spill. If there are several faults, the code is
 * that of the first: the struct, the plan or the number of shards, then the ends of the keys, then the spill, and the room.
 *
 * A key has at most 65,535 bytes (in cmph_c_answer any number), and a call has at most 67,108,864 keys.
 *
 * No call can test these, so the caller sees to them:
 * - No pointer is null, even if its length is 0, as data() of an empty std::vector may be: any other aligned address will do then. Bytes may
 *   be at odd addresses; structs and numbers are aligned as their types are. No array has 2^63 bytes or more.
 * - What a call writes overlaps nothing else that is passed to it: `out`, `place`, `index`, `numbers`, `room`, `spill` and `written` are apart from
 *   the struct, `keys`, `ends`, the plan, and each other. Ends are tested once and used later: a number that is put over one leads outside the keys.
 * - No other thread writes to what a call reads or writes, until it returns.
 * - The stack has room: 16 KiB for a call that builds nothing, 112 KiB for cmph_c_build, 128 KiB for cmph_c_build_brz. With less the process crashes.
 */
#ifndef CMPH_C_H
#define CMPH_C_H

#include <stddef.h>
#include <stdint.h>

#ifdef __cplusplus
extern "C" {
#endif

/* The version of this header: major * 10000 + minor * 100 + patch, so 2.0.0. Structs and codes stay as they are as long as major does. */
#define CMPH_C_VERSION 20000

/* The number that stands for none. */
#define CMPH_C_NONE UINT32_MAX

/* The codes. `at` and `again` are the fields of cmph_c_place. */
#define CMPH_C_OK 0             /* done */
#define CMPH_C_MEMORY 1         /* out of memory */
#define CMPH_C_TRUNCATED 2      /* the bytes end at offset `at`, before the function does */
#define CMPH_C_BAD_MAGIC 3      /* the bytes are no function file */
#define CMPH_C_BAD_ALGORITHM 4  /* there is no algorithm of this number */
#define CMPH_C_BAD_FIELD 5      /* the field at offset `at` is not in its range */
#define CMPH_C_BAD_PADDING 6    /* the byte at offset `at` has bits past the last cell that are not zero */
#define CMPH_C_BAD_CELL 7       /* a cell that begins in the byte at offset `at` is not below its bound */
#define CMPH_C_BAD_COUNT 8      /* the cells from offset `at` on are those of another number of keys */
#define CMPH_C_BAD_RANK 9       /* the rank at offset `at` is not that of its cell */
#define CMPH_C_TRAILING 10      /* bytes follow the function */
#define CMPH_C_NO_FUNCTION 11   /* the struct holds no function */
#define CMPH_C_BAD_END 12       /* the end of key `at` is before the one before it, or past the bytes, or the key is too long */
#define CMPH_C_TOO_MANY_KEYS 13 /* more than 67,108,864 keys */
#define CMPH_C_NO_ROOM 14       /* the room is too small: `at` bytes, or numbers, are needed */
#define CMPH_C_BAD_PLAN 15      /* a number of the plan is not in its range */
#define CMPH_C_NO_KEYS 16       /* there are no keys */
#define CMPH_C_EQUAL_KEYS 17    /* key `again` is equal to key `at` */
#define CMPH_C_NO_SEED 18       /* no seed works */
#define CMPH_C_BAD_SHARDS 19    /* there are no shards, or too many */
#define CMPH_C_NO_SPILL 20      /* the spill is too small: `at` bytes are needed */
#define CMPH_C_NO_SPLIT 21      /* every seed leaves a bucket with too many keys */

/* The algorithms. */
#define CMPH_C_CHM 1    /* numbers in the order of the keys */
#define CMPH_C_BDZ 2    /* all numbers below the number of keys */
#define CMPH_C_BDZ_PH 3 /* numbers with gaps, in the least room */
#define CMPH_C_BRZ 4    /* all numbers below the number of keys, for many keys: built by cmph_c_build_brz alone */

/* Where a fault is: an offset in bytes, how many bytes or numbers are needed, or the index of a key, from 0, as the code says. */
typedef struct cmph_c_place {
    uint64_t at;
    uint64_t again; /* of two equal keys, the later */
} cmph_c_place;

/*
 * A function, in memory of the caller's. cmph_c_open fills it; begin with CMPH_C_FUNCTION_INIT. It points into the bytes of the function file,
 * and by BRZ into the index, which the caller keeps as long as it is used. A struct with other contents is safe: it holds another function, or none, and no
 * call reads outside `cells`, `ranks` and `index`.
 */
typedef struct cmph_c_function {
    const uint8_t *cells;  /* the image of the cells; by BRZ all bytes of the file */
    size_t cells_len;
    const uint8_t *ranks;  /* the ranks, by BDZ alone */
    size_t ranks_len;
    const uint64_t *index; /* where the buckets are, by BRZ alone */
    size_t index_len;
    uint64_t scaled;       /* 2^32 / size */
    uint64_t keys_scaled;  /* 2^32 / keys, by CHM alone */
    uint32_t kind;         /* CMPH_C_CHM, CMPH_C_BDZ, CMPH_C_BDZ_PH, CMPH_C_BRZ, or 0 for none */
    uint32_t keys;         /* how many keys the function was built over */
    uint32_t span;         /* all numbers are below it; with another span than that of its function a struct holds none */
    uint32_t ratio;        /* vertices a key, in millionths */
    uint32_t seed;         /* of the hash, or by BRZ of the split into buckets */
    uint32_t size;         /* vertices by CHM, a third of them by BDZ and BDZ_PH, buckets by BRZ */
    uint32_t width;        /* bits a cell, by CHM alone; by BRZ the version of the file */
    uint32_t b;            /* by BDZ a rank for every 2^b cells, by BRZ keys a bucket on average */
} cmph_c_function;

#define CMPH_C_FUNCTION_INIT { (const uint8_t *)"", 0, (const uint8_t *)"", 0, (const uint64_t *)8, 0, 0, 0, 0, 0, 0, 0, 0, 0, 0, 0 }

/* How a function is built. */
typedef struct cmph_c_plan {
    uint32_t algorithm; /* CMPH_C_CHM, CMPH_C_BDZ or CMPH_C_BDZ_PH; CMPH_C_BRZ for cmph_c_build_brz */
    uint32_t ratio;     /* vertices a key, from 1000000 to 10000000 millionths: 2090000 for CHM, 1230000 for the others */
    uint32_t b;         /* by BDZ: a rank for every 2^b cells, from 3 to 10; by BRZ: keys a bucket on average, from 64 to 700, 128 say */
    uint32_t seed;      /* the first seed */
    uint32_t tries;     /* how many seeds are tried, from 1 to 1000 */
} cmph_c_plan;

/* The version of the library that is linked: CMPH_C_VERSION, if it is of the same release as this header. */
uint32_t cmph_c_version(void);

/*
 * Opens the function in the bytes of its file: `dump_len` bytes at `dump`. CMPH_C_OK if they are a function, which `out` then holds; else the code of the
 * first fault, with its offset in place->at. A function by BRZ needs a number of the index for each of its buckets, of which there are keys / b, rounded up:
 * CMPH_C_NO_ROOM says in place->at how many, before the bytes after the header are read. The others need none (`index_len` may be 0). After another code
 * than CMPH_C_OK the index has any numbers. Reads each byte once or twice, and takes no memory.
 */
uint32_t cmph_c_open(const uint8_t *dump, size_t dump_len, uint64_t *index, size_t index_len, cmph_c_function *out, cmph_c_place *place);

/*
 * The number of a key, of `key_len` bytes at `key`: below function->span, or CMPH_C_NONE, whatever the struct and what it points to are. Each key that
 * the function was built over has a number of its own. Another key has any number, or none.
 */
uint32_t cmph_c_answer(const cmph_c_function *function, const uint8_t *key, size_t key_len);

/*
 * The numbers of many keys, which stand one after another in the `keys_len` bytes at `keys`: key i is the bytes from ends[i - 1] (from 0 for the first
 * key) up to ends[i]. numbers[i] is the number of key i, below function->span, or CMPH_C_NONE; `numbers_len` is at least `ends_len`, and the numbers
 * past those of the keys stay. CMPH_C_NO_FUNCTION, CMPH_C_BAD_END, CMPH_C_TOO_MANY_KEYS and CMPH_C_NO_ROOM put no number.
 */
uint32_t cmph_c_answers(const cmph_c_function *function, const uint8_t *keys, size_t keys_len, const uint64_t *ends, size_t ends_len,
                        uint32_t *numbers, size_t numbers_len, cmph_c_place *place);

/*
 * How many bytes the file of a function of `keys` keys has that is built by this plan: as many as cmph_c_build writes, whichever keys they are. 0 if
 * a number of the plan is not in its range, or there are no keys, or more than 67,108,864, and by BRZ. Nothing is built, and no memory is taken.
 */
uint64_t cmph_c_room(const cmph_c_plan *plan, uint32_t keys);

/*
 * Builds the function of keys, which stand one after another as in cmph_c_answers, and puts its file into the first bytes of `room`. *written is how
 * many. CMPH_C_NO_ROOM says in place->at how many bytes are needed, as cmph_c_room does, before anything is built: equal keys are looked for only if
 * there is room. CMPH_C_EQUAL_KEYS says which two keys are equal. Memory is taken by malloc, and freed.
 */
uint32_t cmph_c_build(const uint8_t *keys, size_t keys_len, const uint64_t *ends, size_t ends_len, const cmph_c_plan *plan, uint8_t *room,
                      size_t room_len, uint64_t *written, cmph_c_place *place);

/*
 * The same by BRZ. The keys are stored in the `spill_len` bytes at `spill`, of which they need ends[ends_len - 1] + 10 * ends_len: CMPH_C_NO_SPILL says so in
 * place->at, before anything is built. It has any bytes afterwards. How many bytes the file has depends on the keys, and CMPH_C_NO_ROOM says it in
 * place->at, after the whole build; 24 + 9 * (ends_len / b + 1) + ratio * ends_len / 4000000 + 1 suffice. CMPH_C_NO_SEED: for some bucket no
 * seed works. CMPH_C_NO_SPLIT: more seeds, or a lower b, may help.
 */
uint32_t cmph_c_build_brz(const uint8_t *keys, size_t keys_len, const uint64_t *ends, size_t ends_len, const cmph_c_plan *plan, uint8_t *spill,
                          size_t spill_len, uint8_t *room, size_t room_len, uint64_t *written, cmph_c_place *place);

/*
 * Which of `shards` shards each key is in, from 1 to 671,088,645 of them: the third hash value of lookup2 under a seed, modulo their number. `out_len` is at
 * least `ends_len`.
 */
uint32_t cmph_c_route(const uint8_t *keys, size_t keys_len, const uint64_t *ends, size_t ends_len, uint32_t seed, uint32_t shards, uint32_t *out,
                      size_t out_len, cmph_c_place *place);

#ifdef __cplusplus
}
#endif

#endif
