//! Why calls fail.
use cmph_c_sys as sys;
use std::error::Error;
use std::fmt;

/// Why bytes are not opened as a function: the first fault. Its text is that of the program `cmph`, and offsets are in bytes from the start of
/// the file.
#[derive(Clone, Copy, Debug, PartialEq, Eq)]
#[non_exhaustive]
pub enum DumpError {
    /// There is no memory for the index of a function by BRZ.
    OutOfMemory,
    /// The bytes end at this offset, before the function does.
    Truncated {
        /// The number of bytes.
        at: u64,
    },
    /// The bytes are no function file.
    BadMagic,
    /// There is no algorithm of the number in the file.
    BadAlgorithm,
    /// The field at this offset is not in its range.
    BadField {
        /// The offset of its first byte.
        at: u64,
    },
    /// The byte at this offset has bits past the last cell that are not zero.
    BadPadding {
        /// The offset of the byte.
        at: u64,
    },
    /// A cell that begins in the byte at this offset is not below its bound.
    BadCell {
        /// The offset of the byte.
        at: u64,
    },
    /// The cells from this offset on are those of another number of keys.
    BadCount {
        /// The offset of the first cell.
        at: u64,
    },
    /// The rank at this offset is not that of its cell.
    BadRank {
        /// The offset of its first byte.
        at: u64,
    },
    /// Bytes follow the function.
    Trailing,
    /// The index of [`Function::open_in`](crate::Function::open_in) is too short.
    NoRoom {
        /// How many numbers it has to have.
        needed: usize,
    },
    /// The C library returned a code that this crate does not know.
    Other {
        /// The code.
        code: u32,
    },
}

impl DumpError {
    pub(crate) fn of(code: u32, place: sys::cmph_c_place) -> DumpError {
        let at = place.at;
        match code {
            sys::CMPH_C_MEMORY => DumpError::OutOfMemory,
            sys::CMPH_C_TRUNCATED => DumpError::Truncated { at },
            sys::CMPH_C_BAD_MAGIC => DumpError::BadMagic,
            sys::CMPH_C_BAD_ALGORITHM => DumpError::BadAlgorithm,
            sys::CMPH_C_BAD_FIELD => DumpError::BadField { at },
            sys::CMPH_C_BAD_PADDING => DumpError::BadPadding { at },
            sys::CMPH_C_BAD_CELL => DumpError::BadCell { at },
            sys::CMPH_C_BAD_COUNT => DumpError::BadCount { at },
            sys::CMPH_C_BAD_RANK => DumpError::BadRank { at },
            sys::CMPH_C_TRAILING => DumpError::Trailing,
            sys::CMPH_C_NO_ROOM => DumpError::NoRoom {
                needed: at as usize,
            },
            _ => DumpError::Other { code },
        }
    }
}

impl fmt::Display for DumpError {
    fn fmt(&self, out: &mut fmt::Formatter<'_>) -> fmt::Result {
        match self {
            DumpError::OutOfMemory => write!(out, "out of memory"),
            DumpError::Truncated { at } => write!(out, "truncated at {at}"),
            DumpError::BadMagic => write!(out, "bad magic"),
            DumpError::BadAlgorithm => write!(out, "bad algorithm"),
            DumpError::BadField { at } => write!(out, "bad field at {at}"),
            DumpError::BadPadding { at } => write!(out, "bad padding at {at}"),
            DumpError::BadCell { at } => write!(out, "bad cell at {at}"),
            DumpError::BadCount { at } => write!(out, "bad count at {at}"),
            DumpError::BadRank { at } => write!(out, "bad rank at {at}"),
            DumpError::Trailing => write!(out, "trailing bytes"),
            DumpError::NoRoom { needed } => write!(out, "an index of {needed} numbers is needed"),
            DumpError::Other { code } => write!(out, "unknown code {code} of the C library"),
        }
    }
}

impl Error for DumpError {}

/// Why a list of keys gets no numbers, or no shards.
#[derive(Clone, Copy, Debug, PartialEq, Eq)]
#[non_exhaustive]
pub enum KeysError {
    /// The end of this key is before the end of the key before it, or past the bytes, or the key has more than 65,535 bytes.
    BadEnd {
        /// The index of the key, from 0.
        key: usize,
    },
    /// There are more than 67,108,864 keys.
    TooManyKeys,
    /// There is less room for numbers than there are keys.
    NoRoom {
        /// How many numbers there has to be room for.
        needed: usize,
    },
    /// There are no shards, or too many. By [`route`](crate::route) alone.
    BadShards,
    /// The C library returned a code that this crate does not know.
    Other {
        /// The code.
        code: u32,
    },
}

impl KeysError {
    pub(crate) fn of(code: u32, place: sys::cmph_c_place) -> KeysError {
        let at = place.at as usize;
        match code {
            sys::CMPH_C_BAD_END => KeysError::BadEnd { key: at },
            sys::CMPH_C_TOO_MANY_KEYS => KeysError::TooManyKeys,
            sys::CMPH_C_NO_ROOM => KeysError::NoRoom { needed: at },
            sys::CMPH_C_BAD_SHARDS => KeysError::BadShards,
            _ => KeysError::Other { code },
        }
    }
}

impl fmt::Display for KeysError {
    fn fmt(&self, out: &mut fmt::Formatter<'_>) -> fmt::Result {
        match self {
            KeysError::BadEnd { key } => write!(out, "the end of key {key} is wrong"),
            KeysError::TooManyKeys => write!(out, "more than 67108864 keys"),
            KeysError::NoRoom { needed } => write!(out, "room for {needed} numbers is needed"),
            KeysError::BadShards => write!(out, "no shards, or too many"),
            KeysError::Other { code } => write!(out, "unknown code {code} of the C library"),
        }
    }
}

impl Error for KeysError {}

/// Why there is no function of a list of keys.
#[derive(Clone, Copy, Debug, PartialEq, Eq)]
#[non_exhaustive]
pub enum BuildError {
    /// Memory runs out.
    OutOfMemory,
    /// A number of the plan is not in its range, or its algorithm is not one of the call.
    BadPlan,
    /// The end of this key is before the end of the key before it, or past the bytes, or the key has more than 65,535 bytes.
    BadEnd {
        /// The index of the key, from 0.
        key: usize,
    },
    /// There are more than 67,108,864 keys.
    TooManyKeys,
    /// There are no keys.
    NoKeys,
    /// Two keys are equal.
    EqualKeys {
        /// The index of the earlier, from 0.
        first: usize,
        /// The index of the later, from 0.
        again: usize,
    },
    /// No seed works: more of them, or a greater ratio, may.
    NoSeed,
    /// By BRZ: every seed leaves a bucket with more than 1,023 keys: more seeds, or a smaller `b`, may not.
    NoSplit,
    /// The spill of [`build_brz_into`](crate::build_brz_into) is too small.
    NoSpill {
        /// How many bytes it has to have.
        needed: usize,
    },
    /// The room of [`build_into`](crate::build_into) is too small.
    NoRoom {
        /// How many bytes the file has.
        needed: usize,
    },
    /// The C library returned a code that this crate does not know.
    Other {
        /// The code.
        code: u32,
    },
}

impl BuildError {
    pub(crate) fn of(code: u32, place: sys::cmph_c_place) -> BuildError {
        let at = place.at as usize;
        match code {
            sys::CMPH_C_MEMORY => BuildError::OutOfMemory,
            sys::CMPH_C_BAD_PLAN => BuildError::BadPlan,
            sys::CMPH_C_BAD_END => BuildError::BadEnd { key: at },
            sys::CMPH_C_TOO_MANY_KEYS => BuildError::TooManyKeys,
            sys::CMPH_C_NO_KEYS => BuildError::NoKeys,
            sys::CMPH_C_EQUAL_KEYS => BuildError::EqualKeys {
                first: at,
                again: place.again as usize,
            },
            sys::CMPH_C_NO_SEED => BuildError::NoSeed,
            sys::CMPH_C_NO_SPLIT => BuildError::NoSplit,
            sys::CMPH_C_NO_SPILL => BuildError::NoSpill { needed: at },
            sys::CMPH_C_NO_ROOM => BuildError::NoRoom { needed: at },
            _ => BuildError::Other { code },
        }
    }
}

impl fmt::Display for BuildError {
    fn fmt(&self, out: &mut fmt::Formatter<'_>) -> fmt::Result {
        match self {
            BuildError::OutOfMemory => write!(out, "out of memory"),
            BuildError::BadPlan => write!(out, "a number of the plan is not in its range"),
            BuildError::BadEnd { key } => write!(out, "the end of key {key} is wrong"),
            BuildError::TooManyKeys => write!(out, "more than 67108864 keys"),
            BuildError::NoKeys => write!(out, "no keys"),
            BuildError::EqualKeys { first, again } => {
                write!(out, "keys {first} and {again} are equal")
            }
            BuildError::NoSeed => write!(out, "no seed works"),
            BuildError::NoSplit => write!(out, "no seed splits the keys into small buckets"),
            BuildError::NoSpill { needed } => write!(out, "a spill of {needed} bytes is needed"),
            BuildError::NoRoom { needed } => write!(out, "room for {needed} bytes is needed"),
            BuildError::Other { code } => write!(out, "unknown code {code} of the C library"),
        }
    }
}

impl Error for BuildError {}
