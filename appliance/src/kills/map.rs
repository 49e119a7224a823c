//! A file, mapped and shared.

use std::ffi::{c_int, c_void};
use std::fs::OpenOptions;
use std::io;
use std::os::fd::AsRawFd;
use std::path::Path;
use std::sync::atomic::AtomicU64;

unsafe extern "C" {
    fn mmap(
        address: *mut c_void,
        length: usize,
        protection: c_int,
        flags: c_int,
        file: c_int,
        offset: i64,
    ) -> *mut c_void;
    fn munmap(address: *mut c_void, length: usize) -> c_int;
}

/// Pages may be read and written.
const READ_WRITE: c_int = 3;

/// Stores reach the file's pages, which other processes see and a kill leaves.
const SHARED: c_int = 1;

/// A mapping of a whole file. Its pages are the file's, so that they survive the process.
#[derive(Debug)]
pub struct Map {
    address: *mut c_void,
    bytes: usize,
}

impl Map {
    /// Maps a file, which is made and lengthened with zeros if need be.
    pub fn open(path: &Path, bytes: usize) -> io::Result<Self> {
        let mut options = OpenOptions::new();
        let file = options
            .read(true)
            .write(true)
            .create(true)
            .truncate(false)
            .open(path)?;
        file.set_len(bytes as u64)?;
        // A new mapping at an address of the system's choice touches no memory in use.
        let address = unsafe {
            mmap(
                std::ptr::null_mut(),
                bytes,
                READ_WRITE,
                SHARED,
                file.as_raw_fd(),
                0,
            )
        };
        if address as isize == -1 {
            return Err(io::Error::last_os_error());
        }
        Ok(Map { address, bytes })
    }

    /// The first byte, at a page's beginning.
    pub fn address(&self) -> *mut u8 {
        self.address.cast()
    }

    /// The mapping as words that are stored whole.
    pub fn cells(&self) -> &[AtomicU64] {
        // The mapping is aligned to a page, as long as the slice, and used as atomic words alone.
        unsafe { std::slice::from_raw_parts(self.address.cast(), self.bytes / 8) }
    }
}

impl Drop for Map {
    fn drop(&mut self) {
        // Nothing borrowed from the mapping outlives it.
        unsafe { munmap(self.address, self.bytes) };
    }
}
