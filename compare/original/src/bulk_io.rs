//! Many reads in one call. Here one `pread` after another, without a completion ring.
//! A short read is reported as such; the original then reads that window again by itself.
use crate::error::StoreError;
use crate::io_handle::IoHandle;
use crate::IoCtx;

pub struct ReadOp<'a> {
    pub fd: IoHandle,
    pub offset: u64,
    pub buf: &'a mut [u8],
    pub result: i32,
}

pub fn pread_batch(ops: &mut [ReadOp<'_>]) {
    for op in ops {
        op.result = op.fd.pread(op.offset, op.buf);
    }
}

pub fn pread_batch_on_ctx(_ctx: &mut IoCtx<'_>, ops: &mut [ReadOp<'_>]) -> Result<bool, StoreError> {
    pread_batch(ops);
    Ok(true)
}
