//! VP8 inter prediction by `libthreshowl.a`, whose functions are proved, for Rust.
//!
//! [`motion_comp`] has the calls and types of the module of that name of OxideAV/oxideav-vp8, so that a decoder swaps it for this
//! one. [`prediction`] has what the original has not: refusals as values, a stride for each plane, merging, whole or by quarters,
//! and prediction by a frame's version; [`frame`] predicts a whole frame at once, and [`reconstruction`] finishes macroblocks, also from
//! quantised levels. [`ivf`] mends recordings that were cut, [`y4m`] reads and writes the frames of YUV4MPEG2 files.
//!
//! Nothing is allocated and no state is kept: any number of threads may call. What a call may refuse is a [`Refusal`], which has
//! the number of the C header and its words. What types can rule out is ruled out by them: the calls of prediction, and those that
//! finish, take a table by name, sixteen vectors and a record of 384 samples, and so never give the numbers 5, 6 and 7.
//!
//! # Swapping `motion_comp`
//!
//! A program that takes the three modules from the original's crate swaps them by one line:
//!
//! ```
//! use threshowl::{motion_comp, motion_vector, reconstruct};
//!
//! let plane = vec![7u8; 32 * 32];
//! let chroma = vec![9u8; 16 * 16];
//! let reference = motion_comp::ReferencePlanes {
//!     y: &plane, u: &chroma, v: &chroma, y_stride: 32, uv_stride: 16, mb_cols: 2, mb_rows: 2,
//! };
//! let taps = motion_comp::filter_set_for_version(0).taps();
//! let mv = motion_vector::Mv { row: -3, col: 5 };
//! let mb: reconstruct::ReconstructedMb = motion_comp::predict_inter_mb(&reference, 0, 1, mv, false, taps);
//! assert_eq!((mb.y[0], mb.u[0], mb.v[0]), (7, 9, 9));
//! ```
//!
//! The decoder itself has a vector and a record of samples of its own, in `motion_vector` and `reconstruct`. There the file
//! `src/motion_comp.rs` of this crate is taken in the place of the decoder's, by one line too:
//!
//! ```text
//! #[path = "FOLDER/bindings/rust/src/motion_comp.rs"] pub mod motion_comp;
//! ```
//!
//! [`motion_comp`] lists what of the original is not there, or stays with the decoder.
#![deny(missing_docs)]
#![deny(unsafe_op_in_unsafe_fn)]

// So that motion_comp.rs names this crate alike here and where a decoder takes the file in.
extern crate self as threshowl;

pub mod frame;
pub mod ivf;
pub mod motion_comp;
pub mod motion_vector;
pub mod prediction;
pub mod reconstruct;
pub mod reconstruction;
pub mod tables;
pub mod y4m;

mod ffi;
mod refusal;

pub use refusal::Refusal;
