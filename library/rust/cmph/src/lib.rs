//! Perfect hash functions of `cmph`: opened in the bytes of their files, asked for numbers, and built of keys in memory.
//!
//! A perfect hash function gives each of its keys a number that no other of them has. Its file holds no keys. The bytes of the file are the
//! function: [`Function::open`] borrows them, and copies nothing. The calls are those of the C library `libcmph_c`, whose exported functions
//! are proved. This crate makes them safe calls, and is tested.
//!
//! A whole program, which builds a function and asks it:
//!
//! ```
//! use cmph::{build, Function, Keys, Plan, NONE};
//!
//! fn main() -> Result<(), Box<dyn std::error::Error>> {
//!     let keys: Keys = ["ant", "bee", "cat"].into_iter().collect();
//!     let dump = build(keys.bytes(), keys.ends(), &Plan::chm())?;
//!
//!     // by CHM each key has the number of its place
//!     let function = Function::open(&dump)?;
//!     assert_eq!(function.answer(b"cat"), Some(2));
//!     assert_eq!(function.keys(), 3);
//!
//!     // many keys at once take less time each
//!     let mut numbers = vec![NONE; keys.len()];
//!     function.answers(keys.bytes(), keys.ends(), &mut numbers)?;
//!     assert_eq!(numbers, [0, 1, 2]);
//!     Ok(())
//! }
//! ```
//!
//! A key is any bytes, at most 65,535 of them. Many keys stand one after another in one slice, and a second slice says where each ends:
//! [`Keys`] collects them so. All calls may run at the same time, over the same function too.
#![deny(missing_docs)]
#![warn(clippy::undocumented_unsafe_blocks)]

#[cfg(not(target_pointer_width = "64"))]
compile_error!("the C library libcmph_c is for processors of 64 bits");

mod building;
mod errors;
mod function;
mod keys;
mod plan;
mod routing;

pub use building::{build, build_brz_into, build_into, room};
pub use errors::{BuildError, DumpError, KeysError};
pub use function::Function;
pub use keys::Keys;
pub use plan::{Algorithm, Plan};
pub use routing::route;

/// What [`Function::answers`] puts for a key that has no number. No key has it as its number.
pub const NONE: u32 = cmph_c_sys::CMPH_C_NONE;

/// The version of the C library that is linked: `(2, 0, 0)` for 2.0.0.
///
/// ```
/// assert!(cmph::library_version() >= (2, 0, 0));
/// ```
pub fn library_version() -> (u32, u32, u32) {
    // SAFETY: the call takes nothing, and returns a constant.
    let version = unsafe { cmph_c_sys::cmph_c_version() };
    (version / 10_000, version / 100 % 100, version % 100)
}

/// A vector of zeros, or none if memory runs out.
fn zeros<T: Clone + Default>(len: u64) -> Option<Vec<T>> {
    let mut made = Vec::new();
    made.try_reserve_exact(usize::try_from(len).ok()?).ok()?;
    made.resize(len as usize, T::default());
    Some(made)
}
