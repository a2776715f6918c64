//! The original's error, file, delta_loc and create_loc, compiled where they are and unchanged.
//! Around them what they ask of their crate: an I/O handle, bulk reads, a session that is never there.
#![allow(dead_code, unused_imports, clippy::all)]

include!(concat!(env!("OUT_DIR"), "/modules.rs"));
pub mod bulk_io;
pub mod coord_io;
pub mod io_handle;

pub use rbitcoin_primitives::{Fk, TableKind, SCHEMA_VERSION, STORE_MAGIC};

/// The original's own, which only its crate sees.
pub fn withheld_ovf_limit(
    loc: &file::TableFile,
    ovf: &file::TableFile,
    count: u64,
    pair: bool,
) -> Result<u64, error::StoreError> {
    delta_loc::withheld_ovf_limit(loc, ovf, count, pair)
}

/// A caller's completion session. There is none here: every read goes through plain `pread`.
pub struct IoCtx<'a> {
    session: Option<&'a mut ()>,
}

impl<'a> IoCtx<'a> {
    pub fn none() -> Self {
        IoCtx { session: None }
    }

    pub fn session(&mut self) -> Option<&mut ()> {
        self.session.as_deref_mut()
    }
}
