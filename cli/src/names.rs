//! Names of files as people give them, and how they are shown: never so that a name looks like another line of the answer.
use crate::json::{numbers, Object};
use std::ffi::{OsStr, OsString};
use std::os::unix::ffi::OsStrExt;
use std::path::{Path, PathBuf};

/// A name as it was given; `-` is standard input.
#[derive(Clone, Debug, PartialEq, Eq)]
pub struct Name(OsString);

impl Name {
    pub fn new(given: &OsStr) -> Name {
        Name(given.to_os_string())
    }

    pub fn of_path(path: PathBuf) -> Name {
        Name(path.into_os_string())
    }

    pub fn is_standard_input(&self) -> bool {
        self.0 == "-"
    }

    pub fn path(&self) -> &Path {
        Path::new(&self.0)
    }

    pub fn words(&self) -> String {
        match self.0.as_bytes() {
            b"-" => "standard input".to_string(),
            b"" => "\"\"".to_string(),
            bytes => printable(bytes),
        }
    }

    /// The name under a key; where it is no UTF-8, its bytes too, since the text then shows replacement characters.
    pub fn in_object(&self, object: Object, key: &str) -> Object {
        let object = object.text(key, &self.0.to_string_lossy());
        match self.0.to_str() {
            Some(_) => object,
            None => object.raw(&format!("{key}_bytes"), &numbers(self.0.as_bytes().iter())),
        }
    }
}

/// Control characters, and those that turn or break a line.
fn is_hidden(letter: char) -> bool {
    let turns = matches!(letter, '\u{200e}' | '\u{200f}' | '\u{2028}'..='\u{202e}' | '\u{2066}'..='\u{2069}');
    letter.is_control() || turns
}

fn add_bytes(text: &mut String, bytes: &[u8]) {
    for byte in bytes {
        text.push_str(&format!("\\x{byte:02x}"));
    }
}

/// The text with control characters and what is no UTF-8 as \xNN.
pub fn printable(bytes: &[u8]) -> String {
    let mut text = String::new();
    for chunk in bytes.utf8_chunks() {
        for letter in chunk.valid().chars() {
            match is_hidden(letter) {
                true => add_bytes(&mut text, letter.encode_utf8(&mut [0; 4]).as_bytes()),
                false => text.push(letter),
            }
        }
        add_bytes(&mut text, chunk.invalid());
    }
    text
}

/// The bytes of a line of columns: printable ASCII as it is, all else as \xNN.
pub fn columns(bytes: &[u8]) -> String {
    let mut text = String::new();
    for &byte in bytes {
        match byte {
            b' '..=b'~' => text.push(byte.into()),
            _ => add_bytes(&mut text, &[byte]),
        }
    }
    text
}

#[cfg(test)]
mod tests {
    use super::printable;

    #[test]
    fn nothing_looks_like_another_line() {
        assert_eq!(printable(b"a b\nholds: \x1b[1m\xff\xc3\xa9"), "a b\\x0aholds: \\x1b[1m\\xff\u{e9}");
        assert_eq!(printable("a\u{2028}b\u{85}".as_bytes()), "a\\xe2\\x80\\xa8b\\xc2\\x85");
    }
}
