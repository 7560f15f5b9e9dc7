//! `bohm` in a Rust program, over `bohm.h`. It needs no crate, and Rust 1.63 or later.
use std::io::{Error, ErrorKind, Read, Result, Write};

mod ffi {
    #[repr(C)]
    pub struct Handle {
        pub run: *mut u8,
        pub is_open: bool,
    }

    extern "C" {
        pub fn bohm_open(handle: *mut Handle) -> i32;
        pub fn bohm_step(
            handle: *mut Handle, input: *const u8, input_len: usize,
            out: *mut u8, out_len: usize, used: *mut usize, made: *mut usize,
        ) -> i32;
        pub fn bohm_finish(handle: *mut Handle, out: *mut u8, out_len: usize, made: *mut usize) -> i32;
        pub fn bohm_status_text(status: i32, out: *mut u8, out_len: usize) -> usize;
        pub fn bohm_close(handle: *mut Handle);
    }
}

/// A run that its caller feeds. It may move to another thread, and takes one call at a time.
pub struct Bohm(ffi::Handle);

// SAFETY: the library proves `Send` of the handle.
unsafe impl Send for Bohm {}

fn checked(status: i32) -> Result<()> {
    if status == 0 {
        return Ok(());
    }
    let mut text = [0; 256];
    // SAFETY: the room is the array's.
    let length = unsafe { ffi::bohm_status_text(status, text.as_mut_ptr(), text.len()) };
    let kind = if status == 1 { ErrorKind::OutOfMemory } else { ErrorKind::Other };
    Err(Error::new(kind, String::from_utf8_lossy(&text[..length.min(text.len())]).into_owned()))
}

impl Bohm {
    pub fn open() -> Result<Bohm> {
        let mut bohm = Bohm(ffi::Handle { run: std::ptr::null_mut(), is_open: false });
        // SAFETY: a handle of zero bytes is a closed one.
        checked(unsafe { ffi::bohm_open(&mut bohm.0) })?;
        Ok(bohm)
    }

    /// Takes bytes of the log and writes bytes of the report, and returns how many of each, also after out of memory: then the call may be
    /// made again with the rest.
    pub fn step(&mut self, input: &[u8], out: &mut [u8]) -> (usize, usize, Result<()>) {
        let (mut used, mut made) = (0, 0);
        // SAFETY: slices aren't null, and what is written overlaps nothing, as Rust's borrows say.
        let status = unsafe {
            ffi::bohm_step(&mut self.0, input.as_ptr(), input.len(), out.as_mut_ptr(), out.len(), &mut used, &mut made)
        };
        (used, made, checked(status))
    }

    /// Ends the log, and writes the rest of the report: that was all where it is less than there is room for.
    pub fn finish(&mut self, out: &mut [u8]) -> (usize, Result<()>) {
        let mut made = 0;
        // SAFETY: as above.
        let status = unsafe { ffi::bohm_finish(&mut self.0, out.as_mut_ptr(), out.len(), &mut made) };
        (made, checked(status))
    }
}

impl Drop for Bohm {
    fn drop(&mut self) {
        // SAFETY: the handle is this one's alone.
        unsafe { ffi::bohm_close(&mut self.0) }
    }
}

/// Writes the report of a log, which is read so many bytes at a time.
pub fn report(mut log: impl Read, mut report: impl Write, most: usize) -> Result<()> {
    let mut bohm = Bohm::open()?;
    let (mut input, mut out) = (vec![0; most], vec![0; 65536]);
    loop {
        let count = log.read(&mut input)?;
        if count == 0 {
            break;
        }
        let mut at = 0;
        while at < count {
            let (used, made, done) = bohm.step(&input[at..count], &mut out);
            report.write_all(&out[..made])?;
            done?;
            at += used;
        }
    }
    loop {
        let (made, done) = bohm.finish(&mut out);
        report.write_all(&out[..made])?;
        done?;
        if made < out.len() {
            return report.flush();
        }
    }
}

fn main() -> Result<()> {
    let most = std::env::args().nth(1).and_then(|word| word.parse().ok());
    report(std::io::stdin().lock(), std::io::stdout().lock(), most.unwrap_or(65536))
}
