//! The few C declarations that the original's file.rs and its I/O handle use, on 64-bit Linux.
//! The functions themselves are the C library's, which Rust's own library links already.
#![allow(non_camel_case_types)]

pub type c_int = i32;
pub type off_t = i64;
pub type rlim_t = u64;

pub const POSIX_FADV_DONTNEED: c_int = 4;
pub const RLIMIT_NOFILE: c_int = 7;
pub const RLIM_INFINITY: rlim_t = u64::MAX;

#[repr(C)]
pub struct rlimit {
    pub rlim_cur: rlim_t,
    pub rlim_max: rlim_t,
}

extern "C" {
    pub fn fallocate(fd: c_int, mode: c_int, offset: off_t, len: off_t) -> c_int;
    pub fn posix_fadvise(fd: c_int, offset: off_t, len: off_t, advice: c_int) -> c_int;
    pub fn getrlimit(resource: c_int, limit: *mut rlimit) -> c_int;
    pub fn setrlimit(resource: c_int, limit: *const rlimit) -> c_int;
    pub fn pread(fd: c_int, buf: *mut u8, count: usize, offset: off_t) -> isize;
    pub fn pwrite(fd: c_int, buf: *const u8, count: usize, offset: off_t) -> isize;
}
