//! YUV4MPEG2 files: a header, and frames that are padded to whole macroblocks in memory, as prediction wants them.

use crate::ffi;
use crate::prediction::Picture;
use crate::Refusal;

/// What a header says.
#[derive(Debug, Clone, Copy, PartialEq, Eq)]
pub struct Header {
    /// Columns of luma.
    pub width: usize,
    /// Rows of luma.
    pub height: usize,
    /// Bytes of the header: the first frame begins after them.
    pub taken: usize,
}

/// Reads the header that `file` begins with. Refuses with 12.
///
/// ```
/// let header = threshowl::y4m::header(b"YUV4MPEG2 W6 H4 F25:1\nFRAME\n")?;
/// assert_eq!((header.width, header.height, header.taken), (6, 4, 22));
/// assert_eq!(threshowl::y4m::header(b"RIFF").unwrap_err().number(), 12);
/// # Ok::<(), threshowl::Refusal>(())
/// ```
pub fn header(file: &[u8]) -> Result<Header, Refusal> {
    let (number, reported) = ffi::y4m_header(file);
    Refusal::done(number)?;
    let [width, height, taken] = reported.map(|size| size as usize);
    Ok(Header { width, height, taken })
}

/// Bytes of a frame in a file, with its mark; for sizes in 1..=16384.
///
/// ```
/// assert_eq!(threshowl::y4m::frame_len(5, 3), 6 + 15 + 2 * 6);
/// ```
pub const fn frame_len(width: usize, height: usize) -> usize {
    6 + width * height + 2 * half(width) * half(height)
}

/// Bytes of a frame in memory; for sizes in 1..=16384.
///
/// ```
/// assert_eq!(threshowl::y4m::padded_len(5, 3), 16 * 16 * 3 / 2);
/// ```
pub const fn padded_len(width: usize, height: usize) -> usize {
    padded(width) * padded(height) / 2 * 3
}

const fn half(size: usize) -> usize {
    (size + 1) / 2
}

const fn padded(size: usize) -> usize {
    (size + 15) / 16 * 16
}

/// Reads the frame that `file` begins with into `out`, padded, and gives the bytes that it took; 0 is the end of the film.
///
/// `out` has [`padded_len`] bytes at least; those after them are as they were. Refuses with 1, 13, 14 or 7.
///
/// ```
/// use threshowl::y4m::{padded_len, read_frame};
/// let mut frame = [0; padded_len(2, 2)];
/// assert_eq!(read_frame(b"FRAME\nabcduv", 2, 2, &mut frame)?, 12);
/// assert_eq!((frame[0], frame[15], frame[255], frame[256]), (b'a', b'b', b'd', b'u'));
/// assert_eq!(read_frame(b"", 2, 2, &mut frame)?, 0);
/// # Ok::<(), threshowl::Refusal>(())
/// ```
pub fn read_frame(file: &[u8], width: usize, height: usize, out: &mut [u8]) -> Result<usize, Refusal> {
    let (number, taken) = ffi::y4m_read_frame(file, width, height, out);
    Refusal::done(number)?;
    Ok(taken as usize)
}

/// Writes a frame in memory to `out` as a file has it, and gives the bytes that it wrote.
///
/// `out` has [`frame_len`] bytes at least. Refuses with 1, 14 or 7.
///
/// ```
/// use threshowl::y4m::{frame_len, padded_len, read_frame, write_frame};
/// let file = b"FRAME\nabcduv";
/// let mut frame = [0; padded_len(2, 2)];
/// let mut out = [0; frame_len(2, 2)];
/// read_frame(file, 2, 2, &mut frame)?;
/// assert_eq!(write_frame(&frame, 2, 2, &mut out)?, 12);
/// assert_eq!(&out, file);
/// # Ok::<(), threshowl::Refusal>(())
/// ```
pub fn write_frame(frame: &[u8], width: usize, height: usize, out: &mut [u8]) -> Result<usize, Refusal> {
    let (number, written) = ffi::y4m_write_frame(frame, width, height, out);
    Refusal::done(number)?;
    Ok(written as usize)
}

/// A frame in memory as a picture to predict from; none where it is shorter than [`padded_len`], or a size is not in 1..=16384.
///
/// ```
/// use threshowl::y4m::{padded_len, picture};
/// let frame = [0; padded_len(20, 2)];
/// let picture = picture(&frame, 20, 2).expect("long enough");
/// assert_eq!((picture.mb_cols, picture.mb_rows, picture.v.len()), (2, 1, 16 * 8));
/// ```
pub fn picture(frame: &[u8], width: usize, height: usize) -> Option<Picture<'_>> {
    let sizes = 1..=16384;
    if !sizes.contains(&width) || !sizes.contains(&height) || frame.len() < padded_len(width, height) {
        return None;
    }
    let (y_stride, rows) = (padded(width), padded(height));
    let (y, chroma) = frame.split_at(y_stride * rows);
    let (u, v) = chroma.split_at(y_stride * rows / 4);
    let uv_stride = y_stride / 2;
    Some(Picture {
        y,
        u,
        v: &v[..u.len()],
        y_stride,
        u_stride: uv_stride,
        v_stride: uv_stride,
        mb_cols: y_stride / 16,
        mb_rows: rows / 16,
    })
}
