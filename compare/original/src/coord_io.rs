//! The original counts its reads here, for its own tests.
//! Nothing is counted.

pub fn note_store_read() {}
