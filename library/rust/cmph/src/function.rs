//! Functions in the bytes of their files.
use crate::{zeros, Algorithm, DumpError, KeysError, NONE};
use cmph_c_sys as sys;
use std::fmt;
use std::marker::PhantomData;

/// A perfect hash function in the bytes of its file, which it borrows. Nothing is copied.
///
/// Threads may share it.
pub struct Function<'a> {
    /// Points into the bytes of the file, and by BRZ into the index.
    raw: sys::cmph_c_function,
    algorithm: Algorithm,
    /// The index that `open` made for a function by BRZ; else empty. It is not used after that, but kept for `raw`. A vector that moves leaves its
    /// numbers where they are.
    _index: Vec<u64>,
    /// The bytes of the file, and the index of `open_in`.
    borrowed: PhantomData<&'a [u8]>,
}

// SAFETY: the pointers in `raw` are to memory that is borrowed for `'a` or owned by `_index`, and that nobody writes to after the function was
// opened. The library keeps nothing between calls, so another thread may go on with the function.
unsafe impl Send for Function<'_> {}

// SAFETY: all calls by a shared reference only read the struct and the memory that it points to, and the library has no state of its own.
unsafe impl Sync for Function<'_> {}

impl<'a> Function<'a> {
    /// Opens the function in the bytes of its file, by any algorithm, and in any version of the format. All bytes are checked: the error is the
    /// first fault.
    ///
    /// Memory is taken for a function by BRZ alone: 8 bytes for each of its buckets, of which there are at most 1,048,576. [`open_in`](Function::open_in)
    /// takes none.
    ///
    /// ```
    /// use cmph::{build, DumpError, Function, Keys, Plan};
    ///
    /// let keys: Keys = ["ant", "bee"].into_iter().collect();
    /// let dump = build(keys.bytes(), keys.ends(), &Plan::bdz()).unwrap();
    /// assert!(Function::open(&dump).is_ok());
    /// assert_eq!(Function::open(&dump[..30]).unwrap_err(), DumpError::Truncated { at: 30 });
    /// ```
    ///
    /// The bytes stay borrowed as long as the function is used:
    ///
    /// ```compile_fail,E0505
    /// # use cmph::{build, Function, Keys, Plan};
    /// # let keys: Keys = ["ant", "bee"].into_iter().collect();
    /// let dump = build(keys.bytes(), keys.ends(), &Plan::bdz()).unwrap();
    /// let function = Function::open(&dump).unwrap();
    /// drop(dump);
    /// function.answer(b"ant");
    /// ```
    pub fn open(dump: &'a [u8]) -> Result<Function<'a>, DumpError> {
        match open_raw(dump, &mut []) {
            Ok(raw) => Function::of(raw, Vec::new()),
            Err(DumpError::NoRoom { needed }) => {
                let mut index = zeros(needed as u64).ok_or(DumpError::OutOfMemory)?;
                Function::of(open_raw(dump, &mut index)?, index)
            }
            Err(fault) => Err(fault),
        }
    }

    /// The same, with the index of a function by BRZ in memory of the caller's. [`DumpError::NoRoom`] says how many numbers it has to have; the
    /// other algorithms need none. After an error it has any numbers.
    ///
    /// The index stays borrowed, too, as long as the function is used:
    ///
    /// ```compile_fail,E0506
    /// # use cmph::Function;
    /// # let dump: &[u8] = &[];
    /// let mut index = [0; 4];
    /// let function = Function::open_in(dump, &mut index).unwrap();
    /// index[0] = 1;
    /// function.answer(b"ant");
    /// ```
    pub fn open_in(dump: &'a [u8], index: &'a mut [u64]) -> Result<Function<'a>, DumpError> {
        Function::of(open_raw(dump, index)?, Vec::new())
    }

    /// The function of a struct that was filled from bytes borrowed for `'a`, with an index borrowed as long or in this vector.
    fn of(raw: sys::cmph_c_function, index: Vec<u64>) -> Result<Function<'a>, DumpError> {
        Ok(Function {
            raw,
            algorithm: Algorithm::of(raw.kind).ok_or(DumpError::BadAlgorithm)?,
            _index: index,
            borrowed: PhantomData,
        })
    }

    /// The number of a key, below [`span`](Function::span). Each key that the function was built over has a number of its own. Another key has any
    /// number, or none.
    #[inline]
    pub fn answer(&self, key: &[u8]) -> Option<u32> {
        // SAFETY: `raw` was filled by `cmph_c_open`, and what it points to is borrowed or owned by `self`, and not changed since. The key is
        // borrowed. The call only reads.
        let number = unsafe { sys::cmph_c_answer(&self.raw, key.as_ptr(), key.len()) };
        (number != NONE).then_some(number)
    }

    /// The numbers of many keys, which takes less time than one by one. The keys stand one after another in `keys`: key i is the bytes from
    /// `ends[i - 1]`, or from 0 for the first key, up to `ends[i]`. `numbers[i]` becomes the number of key i, or [`NONE`] if it has none. `numbers`
    /// has at least the length of `ends`, and what is past that length stays.
    ///
    /// After an error, `numbers` is as it was.
    pub fn answers(&self, keys: &[u8], ends: &[u64], numbers: &mut [u32]) -> Result<(), KeysError> {
        let mut place = sys::cmph_c_place::default();
        // SAFETY: `raw` is as in `answer`. All slices are borrowed, with their lengths, and `numbers` and `place` overlap nothing, since they are
        // borrowed mutably.
        let code = unsafe {
            sys::cmph_c_answers(
                &self.raw,
                keys.as_ptr(),
                keys.len(),
                ends.as_ptr(),
                ends.len(),
                numbers.as_mut_ptr(),
                numbers.len(),
                &mut place,
            )
        };
        match code {
            sys::CMPH_C_OK => Ok(()),
            _ => Err(KeysError::of(code, place)),
        }
    }

    /// How many keys the function was built over.
    pub fn keys(&self) -> u32 {
        self.raw.keys
    }

    /// All numbers are below it. It is the number of keys, except by BDZ_PH.
    pub fn span(&self) -> u32 {
        self.raw.span
    }

    /// The algorithm by which the function was built.
    pub fn algorithm(&self) -> Algorithm {
        self.algorithm
    }
}

impl fmt::Debug for Function<'_> {
    fn fmt(&self, out: &mut fmt::Formatter<'_>) -> fmt::Result {
        out.debug_struct("Function")
            .field("algorithm", &self.algorithm)
            .field("keys", &self.raw.keys)
            .field("span", &self.raw.span)
            .finish_non_exhaustive()
    }
}

/// A struct that points into these bytes, and by BRZ into this index: it is used only as long as nobody writes to them.
fn open_raw(dump: &[u8], index: &mut [u64]) -> Result<sys::cmph_c_function, DumpError> {
    let mut raw = sys::CMPH_C_FUNCTION_INIT;
    let mut place = sys::cmph_c_place::default();
    // SAFETY: both slices are borrowed, with their lengths. The call writes to the index, `raw` and `place` alone, which overlap nothing, since
    // they are borrowed mutably.
    let code = unsafe {
        sys::cmph_c_open(
            dump.as_ptr(),
            dump.len(),
            index.as_mut_ptr(),
            index.len(),
            &mut raw,
            &mut place,
        )
    };
    match code {
        sys::CMPH_C_OK => Ok(raw),
        _ => Err(DumpError::of(code, place)),
    }
}
