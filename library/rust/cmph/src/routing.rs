//! Shards of keys.
use crate::KeysError;
use cmph_c_sys as sys;

/// Which of `shards` shards each key is in: the third hash value of lookup2 under a seed, modulo their number, which is from 1 to 671,088,645. The keys
/// stand one after another as in [`Function::answers`](crate::Function::answers). `out[i]` becomes the shard of key i. `out` has at least the length
/// of `ends`, and what is past that length stays. After an error, `out` is as it was.
pub fn route(
    keys: &[u8],
    ends: &[u64],
    seed: u32,
    shards: u32,
    out: &mut [u32],
) -> Result<(), KeysError> {
    let mut place = sys::cmph_c_place::default();
    // SAFETY: all slices are borrowed, with their lengths, and `out` and `place` overlap nothing, since they are borrowed mutably.
    let code = unsafe {
        sys::cmph_c_route(
            keys.as_ptr(),
            keys.len(),
            ends.as_ptr(),
            ends.len(),
            seed,
            shards,
            out.as_mut_ptr(),
            out.len(),
            &mut place,
        )
    };
    match code {
        sys::CMPH_C_OK => Ok(()),
        _ => Err(KeysError::of(code, place)),
    }
}
