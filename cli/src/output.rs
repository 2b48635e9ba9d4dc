//! Standard output and standard error. A write to standard output that fails ends the program with words and status 2.
use std::ffi::c_int;
use std::fs::File;
use std::io::{BufWriter, Write};
use std::os::fd::{FromRawFd, IntoRawFd};

const STANDARD_OUTPUT: c_int = 1;
/// Refused, not read or failed.
pub const FAILED: i32 = 2;

extern "C" {
    fn close(descriptor: c_int) -> c_int;
}

/// A sentence on standard error. Where that cannot be written either, the exit status says it.
pub fn complain(sentence: &str) {
    let _ = std::io::stderr().write_all(format!("satskhubo: {sentence}\n").as_bytes());
}

fn lost(error: std::io::Error) -> ! {
    complain(&format!("the answer could not be written to standard output: {error}"));
    std::process::exit(FAILED)
}

/// The descriptor itself: std's `Stdout` takes a descriptor that cannot be written to for a success.
pub struct Output(BufWriter<File>);

impl Output {
    /// There is one in the program.
    pub fn new() -> Output {
        Output(BufWriter::with_capacity(1 << 16, unsafe { File::from_raw_fd(STANDARD_OUTPUT) }))
    }

    pub fn say(&mut self, text: &str) {
        self.say_bytes(text.as_bytes());
    }

    pub fn say_bytes(&mut self, text: &[u8]) {
        self.0.write_all(text).unwrap_or_else(|error| lost(error));
    }

    pub fn flush(&mut self) {
        self.0.flush().unwrap_or_else(|error| lost(error));
    }

    /// Writes what is left and closes, since some disks say only then that they are full.
    pub fn end(self) {
        let file = self.0.into_inner().unwrap_or_else(|error| lost(error.into_error()));
        if unsafe { close(file.into_raw_fd()) } != 0 {
            lost(std::io::Error::last_os_error());
        }
    }
}
