//! Builds of functions in memory.
use crate::{zeros, Algorithm, BuildError, Plan};
use cmph_c_sys as sys;

/// How many bytes the file of a function of this many keys has that is built by the plan. None if a number of the plan is not in its range, or
/// there are no keys, or more than 67,108,864, and by BRZ, where it depends on the keys.
pub fn room(plan: &Plan, keys: usize) -> Option<u64> {
    let keys = u32::try_from(keys).ok()?;
    // SAFETY: the plan is a value that lives until the call returns, and the call only reads it.
    let bytes = unsafe { sys::cmph_c_room(&plan.raw(), keys) };
    (bytes != 0).then_some(bytes)
}

/// Builds the function of keys, and returns its file, of version 2: the one that `cmph -g` writes for the same keys and numbers. The keys stand
/// one after another as in [`Function::answers`](crate::Function::answers), and have to be distinct.
///
/// ```
/// use cmph::{build, BuildError, Keys, Plan};
///
/// let twice: Keys = ["ant", "bee", "ant"].into_iter().collect();
/// let fault = build(twice.bytes(), twice.ends(), &Plan::bdz_ph()).unwrap_err();
/// assert_eq!(fault, BuildError::EqualKeys { first: 0, again: 2 });
/// ```
///
/// By BRZ, memory is taken for the keys once more, and ten bytes for each.
pub fn build(keys: &[u8], ends: &[u64], plan: &Plan) -> Result<Vec<u8>, BuildError> {
    if plan.algorithm == Algorithm::Brz {
        return build_brz(keys, ends, plan);
    }
    // if there is no such function, the build says why
    let bytes = room(plan, ends.len()).unwrap_or(0);
    let mut dump = zeros(bytes).ok_or(BuildError::OutOfMemory)?;
    let written = build_into(keys, ends, plan, &mut dump)?;
    dump.truncate(written);
    Ok(dump)
}

/// The same, but the file is put into the first bytes of `room`. Returns how many bytes that are, which [`room`] says beforehand. After an error,
/// `room` is as it was.
pub fn build_into(
    keys: &[u8],
    ends: &[u64],
    plan: &Plan,
    room: &mut [u8],
) -> Result<usize, BuildError> {
    let mut written = 0;
    let mut place = sys::cmph_c_place::default();
    // SAFETY: all slices are borrowed, with their lengths, and the plan lives until the call returns. `room`, `written` and `place` overlap
    // nothing, since they are borrowed mutably.
    let code = unsafe {
        sys::cmph_c_build(
            keys.as_ptr(),
            keys.len(),
            ends.as_ptr(),
            ends.len(),
            &plan.raw(),
            room.as_mut_ptr(),
            room.len(),
            &mut written,
            &mut place,
        )
    };
    match code {
        sys::CMPH_C_OK => Ok(written as usize),
        _ => Err(BuildError::of(code, place)),
    }
}

/// The same by BRZ.
fn build_brz(keys: &[u8], ends: &[u64], plan: &Plan) -> Result<Vec<u8>, BuildError> {
    let many = ends.len() as u64;
    let mut spill = zeros(keys.len() as u64 + 10 * many).ok_or(BuildError::OutOfMemory)?;
    // no file is known to have more bytes; if one has, the build says how many
    let buckets = many / u64::from(plan.b.max(1)) + 1;
    let mut bytes = 25 + 9 * buckets + many.saturating_mul(plan.ratio.into()) / 4_000_000;
    loop {
        let mut dump = zeros(bytes).ok_or(BuildError::OutOfMemory)?;
        match build_brz_into(keys, ends, plan, &mut spill, &mut dump) {
            Ok(written) => {
                dump.truncate(written);
                return Ok(dump);
            }
            Err(BuildError::NoRoom { needed }) if needed as u64 > bytes => bytes = needed as u64,
            Err(fault) => return Err(fault),
        }
    }
}

/// Builds the function of keys by BRZ, and puts its file into the first bytes of `room`. Returns how many bytes that are. The keys are stored in
/// `spill`, which needs as many bytes as they have, and ten more for each; [`BuildError::NoSpill`] says how many. It has any bytes afterwards.
/// How many bytes the file has depends on the keys; [`BuildError::NoRoom`] says it. After an error, `room` is as it was.
pub fn build_brz_into(
    keys: &[u8],
    ends: &[u64],
    plan: &Plan,
    spill: &mut [u8],
    room: &mut [u8],
) -> Result<usize, BuildError> {
    let mut written = 0;
    let mut place = sys::cmph_c_place::default();
    // SAFETY: all slices are borrowed, with their lengths, and the plan lives until the call returns. `spill`, `room`, `written` and `place`
    // overlap nothing, since they are borrowed mutably.
    let code = unsafe {
        sys::cmph_c_build_brz(
            keys.as_ptr(),
            keys.len(),
            ends.as_ptr(),
            ends.len(),
            &plan.raw(),
            spill.as_mut_ptr(),
            spill.len(),
            room.as_mut_ptr(),
            room.len(),
            &mut written,
            &mut place,
        )
    };
    match code {
        sys::CMPH_C_OK => Ok(written as usize),
        _ => Err(BuildError::of(code, place)),
    }
}
