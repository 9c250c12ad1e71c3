// The crate that the original is built in: its modules as published, linked in
// from the folder that `build-original` is given, and stand-ins for the two of
// which only one record is needed.
pub mod bool_decoder;
pub mod inverse_transform;
pub mod motion_comp;
pub mod motion_vector;
pub mod reconstruct;
