//! Files as memory: a cube can be larger than what one wants to read before the first section shows.

use std::ffi::{c_int, c_void};
use std::fs::File;
use std::io;
use std::ops::{Deref, DerefMut};
use std::os::fd::AsRawFd;
use std::path::Path;
use std::ptr;

const PROT_READ: c_int = 1;
const PROT_WRITE: c_int = 2;
const MAP_SHARED: c_int = 1;
const MAP_PRIVATE: c_int = 2;

extern "C" {
    fn mmap(at: *mut c_void, length: usize, protection: c_int, flags: c_int, file: c_int, offset: i64) -> *mut c_void;
    fn munmap(at: *mut c_void, length: usize) -> c_int;
    fn posix_fallocate(file: c_int, offset: i64, length: i64) -> c_int;
}

/// A file's bytes, for reading. Another program that shortens the file meanwhile ends this one, as with every mapping.
pub struct Mapped {
    at: *mut u8,
    length: usize,
}

/// A file's bytes, for reading and writing.
pub struct MappedMut(Mapped);

impl Mapped {
    pub fn open(path: &Path) -> io::Result<Self> {
        let file = File::open(path)?;
        let length = file.metadata()?.len();
        Self::map(&file, length, PROT_READ, MAP_PRIVATE)
    }

    fn map(file: &File, length: u64, protection: c_int, flags: c_int) -> io::Result<Self> {
        let length = usize::try_from(length).map_err(io::Error::other)?;
        if length == 0 {
            // The system maps no empty file; an empty slice needs no memory.
            return Ok(Mapped { at: ptr::NonNull::dangling().as_ptr(), length });
        }
        let at = unsafe { mmap(ptr::null_mut(), length, protection, flags, file.as_raw_fd(), 0) };
        if at as isize == -1 {
            return Err(io::Error::last_os_error());
        }
        Ok(Mapped { at: at.cast(), length })
    }
}

impl MappedMut {
    /// Gives an empty file this length and maps it. The disk's room is taken first: a mapping that runs out of it has no way to say so.
    pub fn create(file: &File, length: u64) -> io::Result<Self> {
        let bytes = i64::try_from(length).map_err(io::Error::other)?;
        match unsafe { posix_fallocate(file.as_raw_fd(), 0, bytes) } {
            0 => {}
            error => return Err(io::Error::from_raw_os_error(error)),
        }
        Ok(MappedMut(Mapped::map(file, length, PROT_READ | PROT_WRITE, MAP_SHARED)?))
    }
}

impl Deref for Mapped {
    type Target = [u8];

    fn deref(&self) -> &[u8] {
        unsafe { std::slice::from_raw_parts(self.at, self.length) }
    }
}

impl Deref for MappedMut {
    type Target = [u8];

    fn deref(&self) -> &[u8] {
        &self.0
    }
}

impl DerefMut for MappedMut {
    fn deref_mut(&mut self) -> &mut [u8] {
        unsafe { std::slice::from_raw_parts_mut(self.0.at, self.0.length) }
    }
}

impl Drop for Mapped {
    fn drop(&mut self) {
        if self.length > 0 {
            unsafe { munmap(self.at.cast(), self.length) };
        }
    }
}
