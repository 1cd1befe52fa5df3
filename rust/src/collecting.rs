//! What a call writes to a lent list, by value.

use crate::refusal::Refusal;

/// The values that a call puts at the front of a list, which has room for `ROOM` of them.
pub(crate) fn collected<const ROOM: usize>(
    put: impl FnOnce(&mut [u16]) -> Result<usize, Refusal>,
) -> Result<Vec<u16>, Refusal> {
    let mut output = [0; ROOM];
    let count = put(&mut output)?;
    Ok(output[..count].to_vec())
}
