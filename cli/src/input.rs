//! One input read: a file, a FIFO, a device or standard input, and of each not more than is needed to know that it is too long.
use crate::descriptors::input_was_closed;
use crate::names::Name;
use std::fs::File;
use std::io::{Error, ErrorKind, Read};
use std::mem::ManuallyDrop;
use std::os::fd::FromRawFd;
use std::os::unix::fs::MetadataExt;

/// So much is read of any input; every accepted text is shorter.
pub const MOST_BYTES: usize = 1 << 20;

/// A file apart from its names: its device and its number there.
pub type Identity = (u64, u64);

pub struct Input {
    pub name: Name,
    pub bytes: Vec<u8>,
    /// There was more than `MOST_BYTES`.
    pub is_cut: bool,
    pub identity: Option<Identity>,
}

fn why(name: &Name, error: &Error) -> String {
    let name = name.words();
    match error.kind() {
        ErrorKind::NotFound => format!("{name}: there is no such file"),
        ErrorKind::PermissionDenied => format!("{name} cannot be read: there is no permission to"),
        ErrorKind::IsADirectory => format!("{name} is a folder, and one file is due"),
        _ => format!("{name} cannot be read: {error}"),
    }
}

/// Descriptor 0 itself, which stays open: std's `Stdin` takes one that cannot be read for an empty one.
fn read_standard_input(bytes: &mut Vec<u8>) -> Result<Option<Identity>, Error> {
    if input_was_closed() {
        return Err(Error::other("it is closed"));
    }
    let file = ManuallyDrop::new(unsafe { File::from_raw_fd(0) });
    (&*file).take(MOST_BYTES as u64 + 1).read_to_end(bytes)?;
    Ok(None)
}

fn read_file(name: &Name, bytes: &mut Vec<u8>) -> Result<Option<Identity>, Error> {
    let file = File::open(name.path())?;
    let found = file.metadata()?;
    file.take(MOST_BYTES as u64 + 1).read_to_end(bytes)?;
    Ok(Some((found.dev(), found.ino())))
}

/// The input, or a sentence that says why it cannot be read.
pub fn read(name: &Name) -> Result<Input, String> {
    let mut bytes = Vec::new();
    let read = if name.is_standard_input() { read_standard_input(&mut bytes) } else { read_file(name, &mut bytes) };
    let identity = read.map_err(|error| why(name, &error))?;
    let is_cut = bytes.len() > MOST_BYTES;
    bytes.truncate(MOST_BYTES);
    Ok(Input { name: name.clone(), bytes, is_cut, identity })
}
