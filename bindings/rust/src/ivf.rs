//! IVF recordings that a dropped link has cut.

use crate::ffi;
use crate::Refusal;

/// What mending did to a recording.
#[derive(Debug, Clone, Copy, PartialEq, Eq)]
pub struct Mended {
    /// The count of frames that the header had.
    pub old_count: u64,
    /// The count that it has now: the complete frames.
    pub new_count: u64,
    /// Bytes left off at the end.
    pub dropped: u64,
}

/// Makes a whole file of a cut one: the header and every complete frame, with the number of these as its count.
///
/// `out` may be as long as `file`, which is always enough. Its first `file.len() - dropped` bytes are the mended file; the others
/// are as they were. Refuses with 15, or 7 where `out` is too short.
///
/// ```
/// let mut file = vec![0; 32];
/// file[..4].copy_from_slice(b"DKIF");
/// file[6] = 32;
/// file.extend([2, 0, 0, 0, 0, 0, 0, 0, 0, 0, 0, 0, 0xAB, 0xCD]); // a frame of two bytes
/// file.extend([9, 0, 0, 0]); // another, cut
/// let mut out = vec![0; file.len()];
/// let mended = threshowl::ivf::mend(&file, &mut out)?;
/// assert_eq!((mended.old_count, mended.new_count, mended.dropped), (0, 1, 4));
/// assert_eq!(out[24], 1);
/// # Ok::<(), threshowl::Refusal>(())
/// ```
pub fn mend(file: &[u8], out: &mut [u8]) -> Result<Mended, Refusal> {
    let (number, [old_count, new_count, dropped]) = ffi::ivf_mend(file, out);
    Refusal::done(number)?;
    Ok(Mended { old_count, new_count, dropped })
}
