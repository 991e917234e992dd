//! The process: its words and its standard streams. All unsafe code is here.
//!
//! Rust's own start takes memory before `main`, its `args` and `stdin` take more, and each ends the process if that is
//! refused. It also takes a stream that is closed as an empty one. So these are calls of the C library.

use crate::kit::alloc::Global;
use crate::kit::io::{Error, IsTerminal, Read, Result, Write};
use std::ffi::{CStr, c_char, c_int, c_void};

#[cfg(not(unix))]
compile_error!("the program is for Unix systems");

const SIGPIPE: c_int = 13;
const SIG_IGN: usize = 1;

unsafe extern "C" {
    fn read(file: c_int, bytes: *mut c_void, length: usize) -> isize;
    fn write(file: c_int, bytes: *const c_void, length: usize) -> isize;
    fn signal(signal: c_int, handler: usize) -> usize;
    safe fn isatty(file: c_int) -> c_int;
}

/// What the process has from the system.
pub struct HostRuntime {
    words: &'static [*const c_char],
}

impl HostRuntime {
    /// What C's `main` was handed. From now on, a write to a closed pipe fails, and doesn't end the process.
    ///
    /// # Safety
    ///
    /// `words` leads to `count` texts, each with a zero at its end, which nothing changes any more.
    pub unsafe fn new(count: c_int, words: *const *const c_char) -> Self {
        // SAFETY: no handler is set, and the caller ensures the rest.
        unsafe {
            signal(SIGPIPE, SIG_IGN);
            HostRuntime { words: std::slice::from_raw_parts(words, count as usize) }
        }
    }

    /// The words, from the program's name on.
    pub fn words(&self) -> impl Iterator<Item = &'static [u8]> {
        // SAFETY: `new` was handed texts with a zero at the end.
        self.words.iter().map(|it| unsafe { CStr::from_ptr(*it) }.to_bytes())
    }

    /// The allocator.
    pub fn alloc(&self) -> Global {
        Global
    }

    /// Standard input.
    pub fn reader(&self) -> Stream {
        Stream(0)
    }

    /// Standard output.
    pub fn stdout(&self) -> Stream {
        Stream(1)
    }

    /// Standard error.
    pub fn stderr(&self) -> Stream {
        Stream(2)
    }
}

/// A standard stream. It has no buffer, so a failed read or write is known at its call.
pub struct Stream(c_int);

/// How many bytes a call moved. It is below 0 if the call failed.
fn moved(count: isize) -> Result<usize> {
    usize::try_from(count).map_err(|_| Error::last_os_error())
}

impl Read for Stream {
    fn read(&mut self, bytes: &mut [u8]) -> Result<usize> {
        // SAFETY: the pointer and the length are those of a slice.
        moved(unsafe { read(self.0, bytes.as_mut_ptr().cast(), bytes.len()) })
    }
}

impl Write for Stream {
    fn write(&mut self, bytes: &[u8]) -> Result<usize> {
        // SAFETY: the pointer and the length are those of a slice.
        moved(unsafe { write(self.0, bytes.as_ptr().cast(), bytes.len()) })
    }

    fn flush(&mut self) -> Result<()> {
        Ok(())
    }
}

impl IsTerminal for Stream {
    fn is_terminal(&self) -> bool {
        isatty(self.0) == 1
    }
}
