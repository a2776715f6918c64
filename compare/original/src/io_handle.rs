//! The handle by which the original reads and writes, with its writes counted.
//! A cut after n writes lets n of them through and loses the rest, as a power cut does.
use std::cell::{Cell, RefCell};
use std::fs::File;
use std::os::unix::io::AsRawFd;

#[derive(Clone, Copy, Debug, PartialEq, Eq)]
pub struct IoHandle {
    fd: i32,
}

/// One write that the original made or, after a cut, believes to have made.
#[derive(Clone, Copy, Debug, PartialEq, Eq)]
pub struct Write {
    pub to: IoHandle,
    pub offset: u64,
    pub len: usize,
}

thread_local! {
    static LEFT: Cell<u64> = const { Cell::new(u64::MAX) };
    static WRITES: RefCell<Vec<Write>> = const { RefCell::new(Vec::new()) };
}

/// From here on `n` writes reach the file; the list of writes starts anew.
pub fn cut_after(n: u64) {
    LEFT.with(|left| left.set(n));
    WRITES.with(|list| list.borrow_mut().clear());
}

/// The writes since the last `cut_after`, those that were lost included.
pub fn writes() -> Vec<Write> {
    WRITES.with(|list| list.borrow().clone())
}

impl IoHandle {
    pub fn from_file(file: &File) -> Self {
        IoHandle { fd: file.as_raw_fd() }
    }

    pub fn pread(&self, offset: u64, buf: &mut [u8]) -> i32 {
        answer(unsafe { libc::pread(self.fd, buf.as_mut_ptr(), buf.len(), offset as i64) })
    }

    pub fn pwrite(&self, offset: u64, bytes: &[u8]) -> i32 {
        WRITES.with(|list| list.borrow_mut().push(Write { to: *self, offset, len: bytes.len() }));
        let left = LEFT.with(Cell::get);
        if left == 0 {
            return bytes.len() as i32;
        }
        if left != u64::MAX {
            LEFT.with(|cell| cell.set(left - 1));
        }
        answer(unsafe { libc::pwrite(self.fd, bytes.as_ptr(), bytes.len(), offset as i64) })
    }
}

fn answer(done: isize) -> i32 {
    if done < 0 {
        -std::io::Error::last_os_error().raw_os_error().unwrap_or(5)
    } else {
        done as i32
    }
}

#[cfg(debug_assertions)]
pub fn take_fail_sync(_handle: IoHandle) -> bool {
    false
}
