//! Which logs are meant: the files that are named, and all files below the folders that are named.
use crate::input::Identity;
use crate::names::Name;
use crate::words::count;
use std::collections::HashSet;
use std::fs::{metadata, read_dir, DirEntry, Metadata};
use std::io::Error;
use std::os::unix::fs::MetadataExt;

pub enum Listed {
    Log(Name),
    /// Why there is nothing to read.
    Unreadable(Name, String),
}

#[derive(Default)]
pub struct Logs {
    pub listed: Vec<Listed>,
    pub has_folder: bool,
    /// The folders gone through below a folder that is named: each is once, however many links lead there, so that a link back ends.
    gone_through: HashSet<Identity>,
}

impl Logs {
    /// Within folders the sheet and the file with the names of events are left out.
    pub fn of(names: &[Name], left_out: &[Identity]) -> Logs {
        let mut logs = Logs::default();
        for name in names {
            let is_folder = !name.is_standard_input() && metadata(name.path()).is_ok_and(|found| found.is_dir());
            if is_folder {
                logs.add_given_folder(name, left_out);
            } else {
                logs.listed.push(Listed::Log(name.clone()));
            }
        }
        logs
    }

    /// There is one log and it was named itself.
    pub fn is_one(&self) -> bool {
        self.listed.len() == 1 && !self.has_folder
    }

    /// The logs counted, for a summary.
    pub fn counted(&self, counts: &str) -> String {
        format!("{}: {counts}\n", count(self.listed.len() as u64, "log"))
    }

    fn add_given_folder(&mut self, name: &Name, left_out: &[Identity]) {
        let before = self.listed.len();
        self.has_folder = true;
        self.gone_through.clear();
        self.add_folder(name, left_out);
        if self.listed.len() == before {
            self.add_unreadable(name, format!("no log in {}", name.words()));
        }
    }

    fn add_unreadable(&mut self, name: &Name, sentence: String) {
        self.listed.push(Listed::Unreadable(name.clone(), sentence));
    }

    /// The entries of a folder that was not gone through before.
    fn entries(&mut self, folder: &Name) -> Result<Vec<DirEntry>, Error> {
        let found = metadata(folder.path())?;
        match self.gone_through.insert((found.dev(), found.ino())) {
            true => read_dir(folder.path())?.collect(),
            false => Ok(Vec::new()),
        }
    }

    fn add_folder(&mut self, folder: &Name, left_out: &[Identity]) {
        let mut entries = match self.entries(folder) {
            Ok(entries) => entries,
            Err(error) => return self.add_unreadable(folder, format!("{} cannot be read: {error}", folder.words())),
        };
        entries.sort_by_key(DirEntry::file_name);
        for entry in entries {
            self.add_entry(&entry, left_out);
        }
    }

    fn add_entry(&mut self, entry: &DirEntry, left_out: &[Identity]) {
        let name = Name::of_path(entry.path());
        match metadata(name.path()) {
            Ok(found) if found.is_dir() => self.add_folder(&name, left_out),
            Ok(found) if found.is_file() => self.add_file(name, &found, left_out),
            Ok(_) => {
                let sentence = format!("{} is no file, and is not opened within a folder", name.words());
                self.add_unreadable(&name, sentence);
            }
            // Reading says what is wrong.
            Err(_) => self.listed.push(Listed::Log(name)),
        }
    }

    fn add_file(&mut self, name: Name, found: &Metadata, left_out: &[Identity]) {
        if !left_out.contains(&(found.dev(), found.ino())) {
            self.listed.push(Listed::Log(name));
        }
    }
}
