//! Raw declarations of the C library `libcmph_c`, as its header `cmph_c.h` has them. The header says what each call does, and what each
//! parameter is. The crate `cmph` has safe calls.
//!
//! A pointer must not be null, also if its length is 0.
#![no_std]
#![deny(missing_docs)]
#![allow(non_camel_case_types)]

use core::ptr::NonNull;

/// The version of the header: `major * 10,000 + minor * 100 + patch`. Structs and codes stay as they are as long as `major` does.
pub const CMPH_C_VERSION: u32 = 20000;

/// The number that stands for none.
pub const CMPH_C_NONE: u32 = u32::MAX;

/// Done.
pub const CMPH_C_OK: u32 = 0;
/// Out of memory.
pub const CMPH_C_MEMORY: u32 = 1;
/// The bytes end at offset `at`, before the function does.
pub const CMPH_C_TRUNCATED: u32 = 2;
/// The bytes are no function file.
pub const CMPH_C_BAD_MAGIC: u32 = 3;
/// There is no algorithm of this number.
pub const CMPH_C_BAD_ALGORITHM: u32 = 4;
/// The field at offset `at` is not in its range.
pub const CMPH_C_BAD_FIELD: u32 = 5;
/// The byte at offset `at` has bits past the last cell that are not zero.
pub const CMPH_C_BAD_PADDING: u32 = 6;
/// A cell that begins in the byte at offset `at` is not below its bound.
pub const CMPH_C_BAD_CELL: u32 = 7;
/// The cells from offset `at` on are those of another number of keys.
pub const CMPH_C_BAD_COUNT: u32 = 8;
/// The rank at offset `at` is not that of its cell.
pub const CMPH_C_BAD_RANK: u32 = 9;
/// Bytes follow the function.
pub const CMPH_C_TRAILING: u32 = 10;
/// The struct holds no function.
pub const CMPH_C_NO_FUNCTION: u32 = 11;
/// The end of key `at` is before the one before it, or past the bytes, or the key is too long.
pub const CMPH_C_BAD_END: u32 = 12;
/// More than 67,108,864 keys.
pub const CMPH_C_TOO_MANY_KEYS: u32 = 13;
/// The room is too small: `at` bytes, or numbers, are needed.
pub const CMPH_C_NO_ROOM: u32 = 14;
/// A number of the plan is not in its range.
pub const CMPH_C_BAD_PLAN: u32 = 15;
/// There are no keys.
pub const CMPH_C_NO_KEYS: u32 = 16;
/// Key `again` is equal to key `at`.
pub const CMPH_C_EQUAL_KEYS: u32 = 17;
/// No seed works.
pub const CMPH_C_NO_SEED: u32 = 18;
/// There are no shards, or too many.
pub const CMPH_C_BAD_SHARDS: u32 = 19;
/// The spill is too small: `at` bytes are needed.
pub const CMPH_C_NO_SPILL: u32 = 20;
/// Every seed leaves a bucket with too many keys.
pub const CMPH_C_NO_SPLIT: u32 = 21;

/// Numbers in the order of the keys.
pub const CMPH_C_CHM: u32 = 1;
/// All numbers below the number of keys.
pub const CMPH_C_BDZ: u32 = 2;
/// Numbers with gaps, in the least room.
pub const CMPH_C_BDZ_PH: u32 = 3;
/// All numbers below the number of keys, for many keys: built by `cmph_c_build_brz` alone.
pub const CMPH_C_BRZ: u32 = 4;

/// Where a fault is: an offset in bytes, how many bytes or numbers are needed, or the index of a key, from 0, as the code says.
#[repr(C)]
#[derive(Clone, Copy, Debug, Default, PartialEq, Eq)]
pub struct cmph_c_place {
    /// The offset, the number or the index.
    pub at: u64,
    /// Of two equal keys, the later.
    pub again: u64,
}

/// A function. `cmph_c_open` fills it; begin with [`CMPH_C_FUNCTION_INIT`]. It points into the bytes of the function file, and by BRZ into
/// the index.
#[repr(C)]
#[derive(Clone, Copy, Debug)]
pub struct cmph_c_function {
    /// The image of the cells; by BRZ all bytes of the file.
    pub cells: *const u8,
    /// The number of bytes at `cells`.
    pub cells_len: usize,
    /// The ranks, by BDZ alone.
    pub ranks: *const u8,
    /// The number of bytes at `ranks`.
    pub ranks_len: usize,
    /// Where the buckets are, by BRZ alone.
    pub index: *const u64,
    /// The number of numbers at `index`.
    pub index_len: usize,
    /// `2^32 / size`.
    pub scaled: u64,
    /// `2^32 / keys`, by CHM alone.
    pub keys_scaled: u64,
    /// The algorithm, or 0 for no function.
    pub kind: u32,
    /// How many keys the function was built over.
    pub keys: u32,
    /// All numbers are below it.
    pub span: u32,
    /// Vertices a key, in millionths.
    pub ratio: u32,
    /// The seed of the hash, or by BRZ of the split into buckets.
    pub seed: u32,
    /// Vertices by CHM, a third of them by BDZ and BDZ_PH, buckets by BRZ.
    pub size: u32,
    /// Bits a cell, by CHM alone; by BRZ the version of the file.
    pub width: u32,
    /// By BDZ a rank for every `2^b` cells, by BRZ keys a bucket on average.
    pub b: u32,
}

/// A struct that holds no function.
pub const CMPH_C_FUNCTION_INIT: cmph_c_function = cmph_c_function {
    cells: NonNull::<u8>::dangling().as_ptr(),
    cells_len: 0,
    ranks: NonNull::<u8>::dangling().as_ptr(),
    ranks_len: 0,
    index: NonNull::<u64>::dangling().as_ptr(),
    index_len: 0,
    scaled: 0,
    keys_scaled: 0,
    kind: 0,
    keys: 0,
    span: 0,
    ratio: 0,
    seed: 0,
    size: 0,
    width: 0,
    b: 0,
};

/// How a function is built.
#[repr(C)]
#[derive(Clone, Copy, Debug, PartialEq, Eq)]
pub struct cmph_c_plan {
    /// [`CMPH_C_CHM`], [`CMPH_C_BDZ`] or [`CMPH_C_BDZ_PH`], or [`CMPH_C_BRZ`] for `cmph_c_build_brz`.
    pub algorithm: u32,
    /// Vertices a key, from 1,000,000 to 10,000,000 millionths.
    pub ratio: u32,
    /// By BDZ: a rank for every `2^b` cells, from 3 to 10. By BRZ: keys a bucket on average, from 64 to 700.
    pub b: u32,
    /// The first seed.
    pub seed: u32,
    /// How many seeds are tried, from 1 to 1,000.
    pub tries: u32,
}

extern "C" {
    /// The version of the library that is linked: [`CMPH_C_VERSION`], if it is of the same release as these declarations.
    pub fn cmph_c_version() -> u32;

    /// Opens the function in the bytes of its file.
    pub fn cmph_c_open(
        dump: *const u8,
        dump_len: usize,
        index: *mut u64,
        index_len: usize,
        out: *mut cmph_c_function,
        place: *mut cmph_c_place,
    ) -> u32;

    /// The number of a key, or [`CMPH_C_NONE`].
    pub fn cmph_c_answer(function: *const cmph_c_function, key: *const u8, key_len: usize) -> u32;

    /// The numbers of many keys, each the bytes from the end of the one before up to its own end.
    pub fn cmph_c_answers(
        function: *const cmph_c_function,
        keys: *const u8,
        keys_len: usize,
        ends: *const u64,
        ends_len: usize,
        numbers: *mut u32,
        numbers_len: usize,
        place: *mut cmph_c_place,
    ) -> u32;

    /// How many bytes the file of a function has, or 0 if there is none by this plan.
    pub fn cmph_c_room(plan: *const cmph_c_plan, keys: u32) -> u64;

    /// Builds the function of keys, and puts its file into the first bytes of `room`.
    pub fn cmph_c_build(
        keys: *const u8,
        keys_len: usize,
        ends: *const u64,
        ends_len: usize,
        plan: *const cmph_c_plan,
        room: *mut u8,
        room_len: usize,
        written: *mut u64,
        place: *mut cmph_c_place,
    ) -> u32;

    /// The same by BRZ, with the keys in a spill.
    pub fn cmph_c_build_brz(
        keys: *const u8,
        keys_len: usize,
        ends: *const u64,
        ends_len: usize,
        plan: *const cmph_c_plan,
        spill: *mut u8,
        spill_len: usize,
        room: *mut u8,
        room_len: usize,
        written: *mut u64,
        place: *mut cmph_c_place,
    ) -> u32;

    /// Which of `shards` shards each key is in.
    pub fn cmph_c_route(
        keys: *const u8,
        keys_len: usize,
        ends: *const u64,
        ends_len: usize,
        seed: u32,
        shards: u32,
        out: *mut u32,
        out_len: usize,
        place: *mut cmph_c_place,
    ) -> u32;
}
